/*
 * Zankurbe: the yearly assignment of import capability over the interties of a transmission grid, by the
 * steps of the CAISO tariff, section 40.4.6.2.1. Link libzankurbe.a.
 *
 * Quantities are whole kilowatts (kW). Interties and holders (load serving entities) count from 0.
 *
 * Lent memory. The caller lends every buffer, as a pointer and a count of elements (bytes, 32-bit words or
 * 64-bit numbers); the numbers of a posting have no count, since there are always 480. A pointer must be
 * valid for that many elements and aligned as its type asks; it must not be null, not even with a count of
 * 0, where the address of any object of the type will do. The buffers of one call must not overlap. A buffer
 * behind a pointer to const is only read. The library keeps no pointer and no memory of its own: calls on
 * different buffers may run at the same time. A call takes at most 512 KB of stack.
 *
 * Any content is taken: whatever bytes, words and numbers are lent and passed, a call ends and decides for
 * itself. A refused call answers its number with 0 kW and 0 passes and writes nothing at all. Where several
 * numbers apply it is the lowest; only zankurbe_same refuses its first sheet before its second.
 */
#ifndef ZANKURBE_H
#define ZANKURBE_H

#include <stddef.h>
#include <stdint.h>
#ifndef __cplusplus
#include <stdbool.h>
#endif

#ifdef __cplusplus
extern "C" {
#endif

/* The version, as a number (10,000 x major + 100 x minor + patch) and as text. */

#define ZANKURBE_VERSION 10000
#define ZANKURBE_VERSION_TEXT "1.0.0"

/* Sizes of lent memory. */

/* The words that a state has at least; the words after them stay. */
#define ZANKURBE_STATE_WORDS 16000
/* The words that the grants of a closing have at least. */
#define ZANKURBE_GRANTS_WORDS 1536
/* The bytes of a sheet: those of I, H and K, those of a record, and those of the longest sheet. */
#define ZANKURBE_SHEET_HEADER_BYTES 12
#define ZANKURBE_RECORD_BYTES 8
#define ZANKURBE_MOST_SHEET_BYTES 8204
/* The numbers of a posting. */
#define ZANKURBE_POST_NUMBERS 480
/* The words of a call in a list of calls, and the numbers of its answer. */
#define ZANKURBE_CALL_WORDS 6
#define ZANKURBE_ANSWER_WORDS 3

/*
 * Ranges; the least is 1 for the sizes, for the kW of a call and of records of kinds 2, 4, 5 and 6, for
 * years, terms and ranks, else 0.
 */

#define ZANKURBE_MOST_INTERTIES 48
#define ZANKURBE_MOST_HOLDERS 32
#define ZANKURBE_MOST_RECORDS 1024
/* The most kW of a record, but for a load share, of a call and of the pool of a share-out. */
#define ZANKURBE_MOST_KW 20000000
#define ZANKURBE_MOST_LOAD_SHARE 100000000
#define ZANKURBE_MOST_RANK 255
/* The most years of a contract or a commitment, this year counted, and of a lock's term. */
#define ZANKURBE_MOST_YEARS 30
/* The most of a claim and of a weight in a share-out. */
#define ZANKURBE_MOST_CLAIM_KW UINT64_C(20480000000)
#define ZANKURBE_MOST_WEIGHT 100000000
/* The most of a holder's Step 5 share, Step 7 total and reserved, and of all that is unplaced. */
#define ZANKURBE_MOST_HOLDER_KW 960000000
#define ZANKURBE_MOST_UNPLACED_KW 960000000
/* The granted takings of a holder in a week. */
#define ZANKURBE_MOST_TAKINGS 2

/*
 * The sheet: three 32-bit little-endian words, I interties, H holders and K records; then K keys, then K
 * quantities, a word each. The kinds of record, each with the fields that its key names; the others are 0.
 */

/* Limit (Maximum Import Capability): intertie. Exactly one for each intertie. */
#define ZANKURBE_RECORD_LIMIT 1
/* Outside right: intertie. */
#define ZANKURBE_RECORD_OUTSIDE_RIGHT 2
/* Load share: holder. At most one for each holder. */
#define ZANKURBE_RECORD_LOAD_SHARE 3
/* Existing contract, and Pre-RA commitment: holder, intertie, years. */
#define ZANKURBE_RECORD_EXISTING_CONTRACT 4
#define ZANKURBE_RECORD_PRE_RA_COMMITMENT 5
/* New Use commitment: holder, intertie, years and rank; 1 is cut last, and no rank twice for a holder. */
#define ZANKURBE_RECORD_NEW_USE_COMMITMENT 6

/* Where the fields of a key begin; the kind has the lowest four bits. */
#define ZANKURBE_KEY_HOLDER_SHIFT 4
#define ZANKURBE_KEY_INTERTIE_SHIFT 10
#define ZANKURBE_KEY_RANK_SHIFT 16
#define ZANKURBE_KEY_YEARS_SHIFT 24

/* A key from its fields, which must be within their widths: 4, 6, 6, 8 and 8 bits. */
#define ZANKURBE_KEY(kind, holder, intertie, rank, years)                                                    \
    ((uint32_t)(kind) | (uint32_t)(holder) << ZANKURBE_KEY_HOLDER_SHIFT                                      \
     | (uint32_t)(intertie) << ZANKURBE_KEY_INTERTIE_SHIFT | (uint32_t)(rank) << ZANKURBE_KEY_RANK_SHIFT     \
     | (uint32_t)(years) << ZANKURBE_KEY_YEARS_SHIFT)

/*
 * The year's state. Its words stand in rows of 48. A field of the interties has a row with a column for
 * each intertie, a field of the holders a row with a column for each holder. A field of the pairs has a row
 * for each holder, the first of which is named here, with a column for each intertie. Words of interties
 * from I up and of holders from H up, and all words not named here, are neither read nor written.
 */

#define ZANKURBE_ROW_WORDS 48

/* The place of a word by its row and column. */
#define ZANKURBE_WORD(row, column) (ZANKURBE_ROW_WORDS * (size_t)(row) + (size_t)(column))
/* The place of a holder's word on an intertie, in the field of the pairs whose first row is named. */
#define ZANKURBE_PAIR_WORD(row, holder, intertie) ZANKURBE_WORD((size_t)(row) + (size_t)(holder), intertie)

/* What opening writes and no other call. The sizes: a row and the columns of I and H. */
#define ZANKURBE_ROW_SIZES 0
#define ZANKURBE_COLUMN_INTERTIES 0
#define ZANKURBE_COLUMN_HOLDERS 1
/* Per intertie: limit and outside rights, kW. */
#define ZANKURBE_ROW_LIMIT 1
#define ZANKURBE_ROW_OUTSIDE 2
/* Per holder: load share; Step 5 share, Step 7 total and reserved, kW. */
#define ZANKURBE_ROW_LOAD_SHARE 3
#define ZANKURBE_ROW_STEP_5_SHARE 4
#define ZANKURBE_ROW_STEP_7_TOTAL 5
#define ZANKURBE_ROW_RESERVED 6
/* Per pair: existing contracts (E), what Step 4a gave (P) and what Step 4b gave (N), kW. */
#define ZANKURBE_ROW_EXISTING 7
#define ZANKURBE_ROW_PRE_RA 39
#define ZANKURBE_ROW_NEW_USE 71

/* What calls write. The year: a row and the columns of the stage and of the last taking's day. */
#define ZANKURBE_ROW_YEAR 103
#define ZANKURBE_COLUMN_STAGE 0
#define ZANKURBE_COLUMN_LAST_DAY 1
/* Per intertie: unassigned kW. */
#define ZANKURBE_ROW_UNASSIGNED 104
/* Per holder: unplaced kW; sellers, bit j for holder j; week of its last taking, and its takings in it. */
#define ZANKURBE_ROW_UNPLACED 105
#define ZANKURBE_ROW_SELLERS 106
#define ZANKURBE_ROW_LAST_WEEK 107
#define ZANKURBE_ROW_TAKINGS 108
/* Per pair: placed, taken and locked kW; the lock's term in years, 0 without a lock; pending kW. */
#define ZANKURBE_ROW_PLACED 109
#define ZANKURBE_ROW_TAKEN 141
#define ZANKURBE_ROW_LOCKED 173
#define ZANKURBE_ROW_TERM 205
#define ZANKURBE_ROW_PENDING 237

/* The stages. */
#define ZANKURBE_STAGE_TRADING 1
#define ZANKURBE_STAGE_FIRST_REQUESTS 2
#define ZANKURBE_STAGE_SECOND_REQUESTS 3
#define ZANKURBE_STAGE_OPEN 4

/*
 * The numbers of a posting stand in rows of 48 too, and their places by ZANKURBE_WORD: six rows with a
 * column for each intertie, four with a column for each holder.
 */

#define ZANKURBE_POST_LIMIT 0
#define ZANKURBE_POST_OUTSIDE 1
#define ZANKURBE_POST_EXISTING 2
#define ZANKURBE_POST_PRE_RA 3
#define ZANKURBE_POST_NEW_USE 4
#define ZANKURBE_POST_UNASSIGNED 5
#define ZANKURBE_POST_LOAD_SHARE 6
#define ZANKURBE_POST_LOAD_SHARE_QUANTITY 7
#define ZANKURBE_POST_RESERVED 8
#define ZANKURBE_POST_STEP_5_SHARE 9

/*
 * A call in a list of calls is six words: its kind, three numbers, and the low and the high word of its kW.
 * Words that a kind doesn't name may be anything.
 */

/* Trade: seller, buyer. */
#define ZANKURBE_CALL_TRADE 1
/* Request: holder, intertie. */
#define ZANKURBE_CALL_REQUEST 2
/* Close: no number, no kW. */
#define ZANKURBE_CALL_CLOSE 3
/* Take: holder, intertie, day. */
#define ZANKURBE_CALL_TAKE 4
/* Move: giver, taker, intertie. */
#define ZANKURBE_CALL_MOVE 5
/* Lock: holder, intertie, term. */
#define ZANKURBE_CALL_LOCK 6

/* The numbers of the refusals. */

/* A sheet under 12 bytes, K over 1,024, or a length that isn't 12 + 8 K. */
#define ZANKURBE_REFUSED_SHEET_LENGTH 1
/* I not 1 to 48, or H not 1 to 32. */
#define ZANKURBE_REFUSED_SIZES 2
/* The records break a rule of the sheet. */
#define ZANKURBE_REFUSED_RECORDS 3
/* Outside rights and existing contracts above a limit. */
#define ZANKURBE_REFUSED_ABOVE_LIMIT 4
/* State or grants too short; lists of a share-out of unlike length, over 32, or without room. */
#define ZANKURBE_REFUSED_ROOM 5
/* The state isn't orderly: its words were changed from outside. */
#define ZANKURBE_REFUSED_NOT_ORDERLY 6
/* The call isn't of this stage. */
#define ZANKURBE_REFUSED_STAGE 7
/* No such holder or intertie, or both parties are one. */
#define ZANKURBE_REFUSED_NO_SUCH 8
/* kW, term, or a share-out's pool, claim or weight out of range. */
#define ZANKURBE_REFUSED_RANGE 9
/* More than unplaced (trade; request, with what is pending), placed (lock), placed less locked (move). */
#define ZANKURBE_REFUSED_TOO_MUCH 10
/* A day before the last taking's, or a third taking in the week. */
#define ZANKURBE_REFUSED_DAY 11
/* A taking with nothing unassigned on the intertie. */
#define ZANKURBE_REFUSED_NONE_LEFT 12
/* The pair has a lock, or three quarters of the Step 7 total are passed. */
#define ZANKURBE_REFUSED_LOCK 13
/* Carry: other sizes than the state's, over 1,024 records, a rank over 255, or an output too short. */
#define ZANKURBE_REFUSED_CARRY 14

/* The answer of a call: the number of a refusal or 0, the kW, and the passes of share-outs. */
struct zankurbe_answer {
    uint32_t refusal;
    uint64_t kw;
    uint64_t passes;
};

/* The answer of zankurbe_same: the number of a refusal or 0, and whether the sheets open alike; 0 kW, 0 passes. */
struct zankurbe_verdict {
    uint32_t refusal;
    bool same;
    uint64_t kw;
    uint64_t passes;
};

/* The version of the library that is linked, which is ZANKURBE_VERSION where it is this header's. */
uint32_t zankurbe_version(void);

/*
 * Shares a pool of kW out over claims by weight, in passes. Writes the grant of each claim into the first
 * places of the output, one for each claim; later places stay. Answers the kW granted and the passes: 0
 * passes where the pool meets all claims. Refused 5 where claims and weights are of unlike length, are over
 * 32 or the output is shorter; 9 where the pool, a claim or a weight is out of range. Claims, weights and
 * output must not overlap.
 */
struct zankurbe_answer zankurbe_share_out(uint64_t pool, const uint64_t *claims, size_t claims_len,
                                          const uint64_t *weights, size_t weights_len, uint64_t *output,
                                          size_t output_len);

/* The number that a sheet is refused with, 1 to 4, or 0 for a sheet that opens. Writes nothing. */
uint32_t zankurbe_sheet_refusal(const uint8_t *sheet, size_t sheet_len);

/*
 * The number that every call of the year refuses a state with: 5 under 16,000 words, 6 where it isn't
 * orderly, else 0. Writes nothing.
 */
uint32_t zankurbe_state_refusal(const uint32_t *state, size_t state_len);

/*
 * Opens the year from a sheet (Steps 1 to 7). Reads no word of the state and writes all that this header
 * names, for the sheet's interties and holders: stage 1, unplaced = Step 5 share, unassigned = what E, P
 * and N leave. Answers T, the available import capability of all interties, and 0 passes. Refused 1 to 4
 * for the sheet, 5 for a state under 16,000 words. Sheet and state must not overlap.
 */
struct zankurbe_answer zankurbe_open(const uint8_t *sheet, size_t sheet_len, uint32_t *state,
                                     size_t state_len);

/*
 * Posts a sheet: writes the ten rows' numbers of its interties and holders; the others of the 480 stay.
 * Answers T and 0 passes. Refused 1 to 4. Sheet and lines must not overlap.
 */
struct zankurbe_answer zankurbe_post(const uint8_t *sheet, size_t sheet_len,
                                     uint64_t lines[ZANKURBE_POST_NUMBERS]);

/*
 * Says whether two sheets open to equal states. Writes nothing. Refused 1 to 4 for the first sheet, then
 * for the second; a refusal has same = false. The sheets must not overlap.
 */
struct zankurbe_verdict zankurbe_same(const uint8_t *first, size_t first_len, const uint8_t *second,
                                      size_t second_len);

/*
 * Trades unplaced kW from one holder to another (stage 1); the seller joins the buyer's sellers. Answers
 * the kW and 0 passes. Refused 5 to 9; 10 for more than the seller has unplaced.
 */
struct zankurbe_answer zankurbe_trade(uint32_t *state, size_t state_len, uint32_t seller, uint32_t buyer,
                                      uint64_t kw);

/*
 * Requests kW of an intertie for a holder (stages 2 and 3): adds to the pair's pending. Answers the kW and
 * 0 passes. Refused 5 to 9; 10 where all that the holder has pending would pass its unplaced.
 */
struct zankurbe_answer zankurbe_request(uint32_t *state, size_t state_len, uint32_t holder,
                                        uint32_t intertie, uint64_t kw);

/*
 * Moves placed kW above locked from one holder to another on an intertie (stages 3 and 4). Answers the kW
 * and 0 passes. Refused 5 to 9; 10 for more than the giver has placed and not locked there.
 */
struct zankurbe_answer zankurbe_move(uint32_t *state, size_t state_len, uint32_t giver, uint32_t taker,
                                     uint32_t intertie, uint64_t kw);

/*
 * Locks placed kW of a holder on an intertie for a term in years (stage 4). Answers the kW and 0 passes.
 * Refused 5 to 9; 10 for more than is placed there; 13 where the pair has a lock, or where 4 x (reserved +
 * all that the holder has locked, this lock too) would pass 3 x its Step 7 total.
 */
struct zankurbe_answer zankurbe_lock(uint32_t *state, size_t state_len, uint32_t holder, uint32_t intertie,
                                     uint64_t kw, uint32_t term);

/*
 * Takes unassigned kW of an intertie for a holder, on a day (stage 4); the week is day / 7. Grants the
 * smaller of the kW named and those unassigned. Answers the kW granted and 0 passes. Refused 5 to 9; 11 for
 * a day before the last taking's, whoever's that was, or a third taking of the holder in the week; 12 with
 * nothing unassigned.
 */
struct zankurbe_answer zankurbe_take(uint32_t *state, size_t state_len, uint32_t holder, uint32_t intertie,
                                     uint64_t kw, uint32_t day);

/*
 * Closes the stage (1 to 3) and raises it by one. From stages 2 and 3 it shares out each intertie's
 * unassigned kW over what is pending there, by load share or, for a holder without one, the average load
 * share of its sellers: grants go from unassigned to placed and leave unplaced, and pending becomes 0. The
 * grant of holder h on intertie i is written to word h x I + i of the grants, 0 from
 * stage 1; later words stay. Answers the kW and the passes over all interties. Refused 5 for a state under
 * 16,000 words or grants under 1,536; 6; 7 in stage 4. State and grants must not overlap.
 */
struct zankurbe_answer zankurbe_close(uint32_t *state, size_t state_len, uint32_t *grants, size_t grants_len);

/*
 * Runs a list of calls, six words each, one after the other on the state. Closing k of the list, counted
 * from 0, is lent words 1,536 k to 1,536 (k + 1) of the grants, as many of them as there are. The answer of
 * call n is written to numbers 3 n (refusal), 3 n + 1 (kW) and 3 n + 2 (passes) of the answers; later
 * numbers stay. A call that is refused leaves the state and the grants as the calls before it did. Returns
 * true; or false, with nothing read as a call and nothing written, where the words are no list of calls
 * (their count isn't a multiple of six, or a kind isn't 1 to 6) or the answers have no room. Calls, state,
 * grants and answers must not overlap.
 */
bool zankurbe_run_calls(const uint32_t *calls, size_t calls_len, uint32_t *state, size_t state_len,
                        uint32_t *grants, size_t grants_len, uint64_t *answers, size_t answers_len);

/*
 * Writes next year's sheet into the output (stage 4), from this year's sheet and state: limits, outside
 * rights and load shares as they were, contracts and commitments with a year left and one year less, all in
 * their order; then the locks by holder and intertie, as New Use commitments of years = term and of ranks
 * above the holder's. It has 12 + 8 x (its records) bytes; the bytes after them stay. Answers 0 kW and 0
 * passes. Refused 1 to 4 for the sheet; 5 to 7 for the state; 14 where sizes differ, records pass 1,024, a
 * rank passes 255 or the output is too short. Sheet, state and output must not overlap.
 */
struct zankurbe_answer zankurbe_carry(const uint8_t *sheet, size_t sheet_len, const uint32_t *state,
                                      size_t state_len, uint8_t *output, size_t output_len);

#ifdef __cplusplus
}
#endif

#endif
