//! Postings of full sheets: the numbers, the text, and the programs as processes.

use crate::sheets::{self, SHEETS};
use crate::table::{Table, AS_FAST};
use crate::timing::time;
use crate::zankurbe::{self, POSTED_NUMBERS};
use independent::beside;
use independent::share_out::MAX_HOLDERS;
use independent::sheet::MAX_INTERTIES;
use independent::year::{PerPair, Year, STATE_WORDS};
use std::hint::black_box;
use std::io::Write;
use std::path::{Path, PathBuf};
use std::process::{Command, Stdio};

/// The numbers of a row.
const ROW: usize = 48;

/// The program `post`, as its crate has it.
const POST: &str = concat!(env!("CARGO_MANIFEST_DIR"), "/../crates/post/out/post");

pub fn measure(table: &mut Table) {
    let full: Vec<Vec<u8>> = (0..SHEETS).map(sheets::full).collect();
    let mut lines = [0; POSTED_NUMBERS];
    let mut their_lines = [0; POSTED_NUMBERS];
    for sheet in &full {
        let kw = numbers(sheet, &mut their_lines);
        assert_eq!(zankurbe::post(sheet, &mut lines).kw, kw);
        assert_eq!(lines, their_lines);
    }
    let mut post_in_library = |_| {
        time(SHEETS, || {
            full.iter()
                .map(|sheet| zankurbe::post(black_box(sheet), black_box(&mut lines)).kw)
                .sum::<u64>()
        })
    };
    table.row(
        "posting a full sheet, numbers on both sides",
        Some(AS_FAST),
        1,
        &mut post_in_library,
        |_| {
            time(SHEETS, || {
                full.iter()
                    .map(|sheet| numbers(black_box(sheet), black_box(&mut their_lines)))
                    .sum::<u64>()
            })
        },
    );
    table.row(
        "posting a full sheet, numbers against text",
        None,
        1,
        &mut post_in_library,
        |_| {
            time(SHEETS, || {
                full.iter()
                    .map(|sheet| beside::post(black_box(sheet)).len())
                    .sum::<usize>()
            })
        },
    );
    processes(table, &full);
}

/// The numbers of a posting from the independent program: it opens the sheet, and the figures that are no
/// words of the year are added up here. Answers T.
#[inline(never)]
fn numbers(sheet: &[u8], lines: &mut [u64; POSTED_NUMBERS]) -> u64 {
    let mut year = Box::new(Year::blank());
    let total_kw = year.open(sheet, STATE_WORDS).kw;
    let on = |pairs: &PerPair, intertie: usize| {
        pairs[intertie].iter().map(|&kw| u64::from(kw)).sum::<u64>()
    };
    for intertie in 0..MAX_INTERTIES {
        lines[intertie] = u64::from(year.limit[intertie]);
        lines[ROW + intertie] = u64::from(year.outside[intertie]);
        lines[2 * ROW + intertie] = on(&year.existing, intertie);
        lines[3 * ROW + intertie] = on(&year.pre_ra, intertie);
        lines[4 * ROW + intertie] = on(&year.new_use, intertie);
        lines[5 * ROW + intertie] = u64::from(year.unassigned[intertie]);
    }
    let all: u64 = year.load_share.iter().map(|&share| u64::from(share)).sum();
    for holder in 0..MAX_HOLDERS {
        let share = u64::from(year.load_share[holder]);
        lines[6 * ROW + holder] = share;
        lines[7 * ROW + holder] = (total_kw * share).checked_div(all).unwrap_or(0);
        lines[8 * ROW + holder] = u64::from(year.reserved[holder]);
        lines[9 * ROW + holder] = u64::from(year.step5_share[holder]);
    }
    total_kw
}

/// Both programs as processes, from start to end, with the sheet on standard input.
fn processes(table: &mut Table, full: &[Vec<u8>]) {
    let post = PathBuf::from(POST);
    let here = std::env::current_exe().expect("a path of this program");
    let theirs = here.with_file_name("independent_post");
    if !post.exists() || !theirs.exists() {
        println!("(the programs as processes: crates/post/out/post or independent_post isn't there)");
        return;
    }
    for sheet in full {
        assert_eq!(run(&post, sheet), run(&theirs, sheet));
    }
    table.row(
        "program post as a process, a full sheet",
        Some(AS_FAST),
        full.len(),
        |input| time(1, || run(&post, &full[input])),
        |input| time(1, || run(&theirs, &full[input])),
    );
}

/// What a program prints for a sheet.
fn run(program: &Path, sheet: &[u8]) -> Vec<u8> {
    let mut child = Command::new(program)
        .stdin(Stdio::piped())
        .stdout(Stdio::piped())
        .spawn()
        .expect("the program starts");
    let mut input = child.stdin.take().expect("a pipe to it");
    input.write_all(sheet).expect("it reads the sheet");
    drop(input);
    child.wait_with_output().expect("it ends").stdout
}
