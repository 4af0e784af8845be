//! The header's constants against the library's and the independent program's.

use crate::library::Library;
use independent::share_out::{MAX_CLAIM_KW, MAX_HOLDERS, MAX_POOL_KW, MAX_WEIGHT};
use independent::sheet::{
    Key, EXISTING_CONTRACT, HEADER_BYTES, LIMIT, LOAD_SHARE, MAX_INTERTIES, MAX_KW, MAX_LOAD_SHARE,
    MAX_RANK, MAX_RECORDS, MAX_YEARS, NEW_USE_COMMITMENT, OUTSIDE_RIGHT, PRE_RA_COMMITMENT,
    RECORD_BYTES,
};
use independent::year::{
    FIRST_REQUESTS, GRANT_WORDS, MAX_TAKINGS, MAX_TOTAL_KW, OPEN, SECOND_REQUESTS, STATE_WORDS,
    TRADING,
};

/// The homes of the constants, below crates/.
const LIMITS: &str = "base/src/limits.rt";
const REFUSALS: &str = "base/src/refusals.rt";
const KINDS: &str = "base/src/kinds.rt";
const STAGES: &str = "base/src/stages.rt";
const ENCODING: &str = "base/src/encoding.rt";
const LAYOUT: &str = "state/src/layout.rt";
const KEY: &str = "sheet_keys/src/key.rt";
const POSTING: &str = "posting/src/rows.rt";

/// Homes of which the header has every number.
const WHOLE: [&str; 5] = [REFUSALS, KINDS, STAGES, ENCODING, LAYOUT];

/// The header's constant, its home and its name there.
const OF_THE_LIBRARY: [(&str, &str, &str); 91] = [
    ("VERSION", "zankurbe/src/lib.rt", "VERSION"),
    ("STATE_WORDS", LIMITS, "STATE_WORDS"),
    ("GRANTS_WORDS", LIMITS, "GRANTS_WORDS"),
    ("SHEET_HEADER_BYTES", LIMITS, "SHEET_HEADER_BYTES"),
    ("RECORD_BYTES", LIMITS, "RECORD_BYTES"),
    ("MOST_SHEET_BYTES", LIMITS, "MOST_SHEET_BYTES"),
    ("POST_NUMBERS", POSTING, "NUMBERS"),
    ("CALL_WORDS", ENCODING, "CALL_WORDS"),
    ("ANSWER_WORDS", ENCODING, "ANSWER_WORDS"),
    ("MOST_INTERTIES", LIMITS, "MOST_INTERTIES"),
    ("MOST_HOLDERS", LIMITS, "MOST_HOLDERS"),
    ("MOST_RECORDS", LIMITS, "MOST_RECORDS"),
    ("MOST_KW", LIMITS, "MOST_KW"),
    ("MOST_LOAD_SHARE", LIMITS, "MOST_LOAD_SHARE"),
    ("MOST_RANK", LIMITS, "MOST_RANK"),
    ("MOST_YEARS", LIMITS, "MOST_YEARS"),
    ("MOST_CLAIM_KW", LIMITS, "MOST_CLAIM_KW"),
    ("MOST_WEIGHT", LIMITS, "MOST_LOAD_SHARE"),
    ("MOST_HOLDER_KW", LIMITS, "MOST_TOTAL_KW"),
    ("MOST_UNPLACED_KW", LIMITS, "MOST_TOTAL_KW"),
    ("MOST_TAKINGS", LIMITS, "MOST_TAKINGS"),
    ("RECORD_LIMIT", KINDS, "LIMIT"),
    ("RECORD_OUTSIDE_RIGHT", KINDS, "OUTSIDE_RIGHT"),
    ("RECORD_LOAD_SHARE", KINDS, "LOAD_SHARE"),
    ("RECORD_EXISTING_CONTRACT", KINDS, "EXISTING_CONTRACT"),
    ("RECORD_PRE_RA_COMMITMENT", KINDS, "PRE_RA_COMMITMENT"),
    ("RECORD_NEW_USE_COMMITMENT", KINDS, "NEW_USE_COMMITMENT"),
    ("KEY_HOLDER_SHIFT", KEY, "HOLDER_SHIFT"),
    ("KEY_INTERTIE_SHIFT", KEY, "INTERTIE_SHIFT"),
    ("KEY_RANK_SHIFT", KEY, "RANK_SHIFT"),
    ("KEY_YEARS_SHIFT", KEY, "YEARS_SHIFT"),
    ("ROW_WORDS", LAYOUT, "ROW_WORDS"),
    ("ROW_SIZES", LAYOUT, "SIZES"),
    ("COLUMN_INTERTIES", LAYOUT, "INTERTIES"),
    ("COLUMN_HOLDERS", LAYOUT, "HOLDERS"),
    ("ROW_LIMIT", LAYOUT, "LIMIT"),
    ("ROW_OUTSIDE", LAYOUT, "OUTSIDE"),
    ("ROW_LOAD_SHARE", LAYOUT, "LOAD_SHARE"),
    ("ROW_STEP_5_SHARE", LAYOUT, "STEP_5_SHARE"),
    ("ROW_STEP_7_TOTAL", LAYOUT, "STEP_7_TOTAL"),
    ("ROW_RESERVED", LAYOUT, "RESERVED"),
    ("ROW_EXISTING", LAYOUT, "EXISTING"),
    ("ROW_PRE_RA", LAYOUT, "PRE_RA"),
    ("ROW_NEW_USE", LAYOUT, "NEW_USE"),
    ("ROW_YEAR", LAYOUT, "YEAR"),
    ("COLUMN_STAGE", LAYOUT, "STAGE"),
    ("COLUMN_LAST_DAY", LAYOUT, "LAST_DAY"),
    ("ROW_UNASSIGNED", LAYOUT, "UNASSIGNED"),
    ("ROW_UNPLACED", LAYOUT, "UNPLACED"),
    ("ROW_SELLERS", LAYOUT, "SELLERS"),
    ("ROW_LAST_WEEK", LAYOUT, "LAST_WEEK"),
    ("ROW_TAKINGS", LAYOUT, "TAKINGS"),
    ("ROW_PLACED", LAYOUT, "PLACED"),
    ("ROW_TAKEN", LAYOUT, "TAKEN"),
    ("ROW_LOCKED", LAYOUT, "LOCKED"),
    ("ROW_TERM", LAYOUT, "TERM"),
    ("ROW_PENDING", LAYOUT, "PENDING"),
    ("STAGE_TRADING", STAGES, "TRADING"),
    ("STAGE_FIRST_REQUESTS", STAGES, "FIRST_REQUESTS"),
    ("STAGE_SECOND_REQUESTS", STAGES, "SECOND_REQUESTS"),
    ("STAGE_OPEN", STAGES, "OPEN"),
    ("POST_LIMIT", POSTING, "LIMIT"),
    ("POST_OUTSIDE", POSTING, "OUTSIDE"),
    ("POST_EXISTING", POSTING, "EXISTING"),
    ("POST_PRE_RA", POSTING, "PRE_RA"),
    ("POST_NEW_USE", POSTING, "NEW_USE"),
    ("POST_UNASSIGNED", POSTING, "UNASSIGNED"),
    ("POST_LOAD_SHARE", POSTING, "LOAD_SHARE"),
    ("POST_LOAD_SHARE_QUANTITY", POSTING, "LOAD_SHARE_QUANTITY"),
    ("POST_RESERVED", POSTING, "RESERVED"),
    ("POST_STEP_5_SHARE", POSTING, "STEP_5_SHARE"),
    ("CALL_TRADE", ENCODING, "TRADE"),
    ("CALL_REQUEST", ENCODING, "REQUEST"),
    ("CALL_CLOSE", ENCODING, "CLOSE"),
    ("CALL_TAKE", ENCODING, "TAKE"),
    ("CALL_MOVE", ENCODING, "MOVE"),
    ("CALL_LOCK", ENCODING, "LOCK"),
    ("REFUSED_SHEET_LENGTH", REFUSALS, "SHEET_LENGTH"),
    ("REFUSED_SIZES", REFUSALS, "SIZES"),
    ("REFUSED_RECORDS", REFUSALS, "RECORDS"),
    ("REFUSED_ABOVE_LIMIT", REFUSALS, "ABOVE_LIMIT"),
    ("REFUSED_ROOM", REFUSALS, "ROOM"),
    ("REFUSED_NOT_ORDERLY", REFUSALS, "NOT_ORDERLY"),
    ("REFUSED_STAGE", REFUSALS, "STAGE"),
    ("REFUSED_NO_SUCH", REFUSALS, "NO_SUCH"),
    ("REFUSED_RANGE", REFUSALS, "RANGE"),
    ("REFUSED_TOO_MUCH", REFUSALS, "TOO_MUCH"),
    ("REFUSED_DAY", REFUSALS, "DAY"),
    ("REFUSED_NONE_LEFT", REFUSALS, "NONE_LEFT"),
    ("REFUSED_LOCK", REFUSALS, "LOCK"),
    ("REFUSED_CARRY", REFUSALS, "CARRY"),
];

/// The header's only text.
const VERSION_TEXT: &str = "ZANKURBE_VERSION_TEXT";

/// Whether the header's text of the version is that of the library's number.
pub fn version_agrees(header: &str, library: &Library) -> Result<bool, String> {
    let version = library.constant("zankurbe/src/lib.rt", "VERSION")?;
    let (major, minor, patch) = (version / 10_000, version / 100 % 100, version % 100);
    let line = format!("#define {VERSION_TEXT} \"{major}.{minor}.{patch}\"");
    Ok(header
        .lines()
        .filter(|it| it.contains(VERSION_TEXT))
        .eq([line]))
}

/// A header's constants, by their names without the prefix, in its order.
pub fn of_header(header: &str) -> Result<Vec<(String, u64)>, String> {
    let mut found = Vec::new();
    for line in header.lines() {
        let Some(definition) = line.strip_prefix("#define ") else {
            continue;
        };
        let (name, value) = definition.split_once(' ').unwrap_or((definition, ""));
        if name.contains('(') || name == "ZANKURBE_H" || name == VERSION_TEXT {
            continue;
        }
        let digits = value.trim().trim_start_matches("UINT64_C(");
        let value = digits.trim_end_matches(')').parse();
        let name = name.strip_prefix("ZANKURBE_").unwrap_or("");
        match value {
            Ok(value) if !name.is_empty() => found.push((name.to_string(), value)),
            _ => return Err(format!("a constant that can't be read: {line}")),
        }
    }
    Ok(found)
}

/// What each constant of the header has to be, by its name, and where that is said.
pub fn expected(library: &Library) -> Result<Vec<(String, u64, String)>, String> {
    let mut all = Vec::new();
    for (name, home, constant) in OF_THE_LIBRARY {
        let value = library.constant(home, constant)?;
        let place = format!("crates/{home}, {constant}");
        all.push((name.to_string(), value, place));
    }
    for home in WHOLE {
        for (constant, _) in library.constants(home)? {
            let is_named = |it: &&(&str, &str, &str)| it.1 == home && it.2 == constant;
            if OF_THE_LIBRARY.iter().filter(is_named).count() != 1 {
                return Err(format!(
                    "crates/{home}: {constant} has no name in the header"
                ));
            }
        }
    }
    for (name, value) in of_the_independent_program() {
        all.push((name.to_string(), value, "tests/independent".to_string()));
    }
    for (name, value) in in_order() {
        all.push((name, value, "the order of the rules".to_string()));
    }
    Ok(all)
}

/// Where a field of a key begins.
fn shift(holder: u32, intertie: u32, rank: u32, years: u32) -> u64 {
    let kind = 0;
    let key = Key {
        kind,
        holder,
        intertie,
        rank,
        years,
    };
    u64::from(key.to_word().trailing_zeros())
}

fn of_the_independent_program() -> Vec<(&'static str, u64)> {
    vec![
        ("STATE_WORDS", STATE_WORDS as u64),
        ("GRANTS_WORDS", GRANT_WORDS as u64),
        ("SHEET_HEADER_BYTES", HEADER_BYTES as u64),
        ("RECORD_BYTES", RECORD_BYTES as u64),
        (
            "MOST_SHEET_BYTES",
            (HEADER_BYTES + RECORD_BYTES * MAX_RECORDS) as u64,
        ),
        ("MOST_INTERTIES", MAX_INTERTIES as u64),
        ("MOST_HOLDERS", MAX_HOLDERS as u64),
        ("MOST_RECORDS", MAX_RECORDS as u64),
        ("MOST_KW", MAX_KW.into()),
        ("MOST_KW", MAX_POOL_KW),
        ("MOST_LOAD_SHARE", MAX_LOAD_SHARE.into()),
        ("MOST_RANK", MAX_RANK.into()),
        ("MOST_YEARS", MAX_YEARS.into()),
        ("MOST_CLAIM_KW", MAX_CLAIM_KW),
        ("MOST_WEIGHT", MAX_WEIGHT),
        ("MOST_HOLDER_KW", MAX_TOTAL_KW.into()),
        ("MOST_UNPLACED_KW", MAX_TOTAL_KW.into()),
        ("MOST_TAKINGS", MAX_TAKINGS.into()),
        ("RECORD_LIMIT", LIMIT.into()),
        ("RECORD_OUTSIDE_RIGHT", OUTSIDE_RIGHT.into()),
        ("RECORD_LOAD_SHARE", LOAD_SHARE.into()),
        ("RECORD_EXISTING_CONTRACT", EXISTING_CONTRACT.into()),
        ("RECORD_PRE_RA_COMMITMENT", PRE_RA_COMMITMENT.into()),
        ("RECORD_NEW_USE_COMMITMENT", NEW_USE_COMMITMENT.into()),
        ("KEY_HOLDER_SHIFT", shift(1, 0, 0, 0)),
        ("KEY_INTERTIE_SHIFT", shift(0, 1, 0, 0)),
        ("KEY_RANK_SHIFT", shift(0, 0, 1, 0)),
        ("KEY_YEARS_SHIFT", shift(0, 0, 0, 1)),
        ("STAGE_TRADING", TRADING.into()),
        ("STAGE_FIRST_REQUESTS", FIRST_REQUESTS.into()),
        ("STAGE_SECOND_REQUESTS", SECOND_REQUESTS.into()),
        ("STAGE_OPEN", OPEN.into()),
    ]
}

/// The rows of a posting and the numbers of the refusals, in the rules' order.
fn in_order() -> Vec<(String, u64)> {
    let rows = [
        "LIMIT",
        "OUTSIDE",
        "EXISTING",
        "PRE_RA",
        "NEW_USE",
        "UNASSIGNED",
        "LOAD_SHARE",
        "LOAD_SHARE_QUANTITY",
        "RESERVED",
        "STEP_5_SHARE",
    ];
    let refusals = [
        "SHEET_LENGTH",
        "SIZES",
        "RECORDS",
        "ABOVE_LIMIT",
        "ROOM",
        "NOT_ORDERLY",
        "STAGE",
        "NO_SUCH",
        "RANGE",
        "TOO_MUCH",
        "DAY",
        "NONE_LEFT",
        "LOCK",
        "CARRY",
    ];
    let rows = (0..).zip(rows).map(|(at, row)| (format!("POST_{row}"), at));
    let refusals = (1..)
        .zip(refusals)
        .map(|(at, refusal)| (format!("REFUSED_{refusal}"), at));
    rows.chain(refusals).collect()
}
