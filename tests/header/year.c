/*
 * A small year through the header and the archive, from C: the sheet of case i of the rules' examples,
 * opened, traded, closed, taken, locked and carried, with numbers worked out by hand, and every refusal's
 * number. Prints each check that fails and, last, 'N passed, M failed'.
 */
#include "zankurbe.h"

#include <stdio.h>
#include <string.h>

#define COUNT(list) (sizeof(list) / sizeof((list)[0]))

/* What the buffers hold where nothing was written. */
#define NOISE 0x5A5A5A5Au

static unsigned passed, failed;

static void check(bool holds, const char *what, int line)
{
    if (holds) {
        passed++;
    } else {
        failed++;
        printf("year.c:%d: %s\n", line, what);
    }
}

#define CHECK(condition) check((condition), #condition, __LINE__)

/* What a call is lent: a state, grants, numbers and an output, with some elements behind each. */
static struct lent {
    uint32_t state[ZANKURBE_STATE_WORDS + 4];
    uint32_t grants[4 * ZANKURBE_GRANTS_WORDS];
    uint64_t numbers[ZANKURBE_POST_NUMBERS + 4];
    uint8_t output[ZANKURBE_MOST_SHEET_BYTES + 4];
} lent, before, first_run;

static void make_noise(void)
{
    for (size_t at = 0; at < COUNT(lent.state); at++) {
        lent.state[at] = NOISE;
    }
    for (size_t at = 0; at < COUNT(lent.grants); at++) {
        lent.grants[at] = NOISE;
    }
    for (size_t at = 0; at < COUNT(lent.numbers); at++) {
        lent.numbers[at] = NOISE;
    }
    memset(lent.output, 0x5A, sizeof lent.output);
}

static void keep(void)
{
    memcpy(&before, &lent, sizeof lent);
}

static bool is_granted(struct zankurbe_answer answer, uint64_t kw, uint64_t passes)
{
    return answer.refusal == 0 && answer.kw == kw && answer.passes == passes;
}

/* Whether a call was refused with a number, 0 kW and 0 passes, and left all lent memory as it was. */
static bool is_refused(struct zankurbe_answer answer, uint32_t number)
{
    return answer.refusal == number && answer.kw == 0 && answer.passes == 0
           && memcmp(&before, &lent, sizeof lent) == 0;
}

#define GRANTED(call, kw, passes) CHECK(is_granted((call), (kw), (passes)))
#define REFUSED(call, number) (keep(), CHECK(is_refused((call), (number))))

static uint32_t word(size_t row, size_t column)
{
    return lent.state[ZANKURBE_WORD(row, column)];
}

static uint32_t pair(size_t row, size_t holder, size_t intertie)
{
    return lent.state[ZANKURBE_PAIR_WORD(row, holder, intertie)];
}

static uint64_t number(size_t row, size_t column)
{
    return lent.numbers[ZANKURBE_WORD(row, column)];
}

/* A record of a sheet. */
struct record {
    uint32_t key;
    uint32_t quantity;
};

static void put_word(uint8_t *bytes, uint32_t value)
{
    for (int at = 0; at < 4; at++) {
        bytes[at] = (uint8_t)(value >> 8 * at);
    }
}

/* Writes a sheet and returns its bytes. */
static size_t write_sheet(uint8_t *sheet, uint32_t interties, uint32_t holders, const struct record *records,
                          size_t count)
{
    put_word(sheet, interties);
    put_word(sheet + 4, holders);
    put_word(sheet + 8, (uint32_t)count);
    for (size_t at = 0; at < count; at++) {
        put_word(sheet + ZANKURBE_SHEET_HEADER_BYTES + 4 * at, records[at].key);
        put_word(sheet + ZANKURBE_SHEET_HEADER_BYTES + 4 * (count + at), records[at].quantity);
    }
    return ZANKURBE_SHEET_HEADER_BYTES + ZANKURBE_RECORD_BYTES * count;
}

/* Case i: one intertie, three holders. */
static const struct record case_i[] = {
    {ZANKURBE_KEY(ZANKURBE_RECORD_LIMIT, 0, 0, 0, 0), 110000},
    {ZANKURBE_KEY(ZANKURBE_RECORD_OUTSIDE_RIGHT, 0, 0, 0, 0), 10000},
    {ZANKURBE_KEY(ZANKURBE_RECORD_LOAD_SHARE, 0, 0, 0, 0), 50000},
    {ZANKURBE_KEY(ZANKURBE_RECORD_LOAD_SHARE, 1, 0, 0, 0), 30000},
    {ZANKURBE_KEY(ZANKURBE_RECORD_LOAD_SHARE, 2, 0, 0, 0), 20000},
    {ZANKURBE_KEY(ZANKURBE_RECORD_EXISTING_CONTRACT, 2, 0, 0, 1), 30000},
};

/* What carry makes of it after the year below: the contract has ended, two locks go on. */
static const struct record carried[] = {
    {ZANKURBE_KEY(ZANKURBE_RECORD_LIMIT, 0, 0, 0, 0), 110000},
    {ZANKURBE_KEY(ZANKURBE_RECORD_OUTSIDE_RIGHT, 0, 0, 0, 0), 10000},
    {ZANKURBE_KEY(ZANKURBE_RECORD_LOAD_SHARE, 0, 0, 0, 0), 50000},
    {ZANKURBE_KEY(ZANKURBE_RECORD_LOAD_SHARE, 1, 0, 0, 0), 30000},
    {ZANKURBE_KEY(ZANKURBE_RECORD_LOAD_SHARE, 2, 0, 0, 0), 20000},
    {ZANKURBE_KEY(ZANKURBE_RECORD_NEW_USE_COMMITMENT, 0, 0, 1, 30), 10000},
    {ZANKURBE_KEY(ZANKURBE_RECORD_NEW_USE_COMMITMENT, 1, 0, 1, 5), 19687},
};

static uint8_t sheet[ZANKURBE_MOST_SHEET_BYTES];
static size_t sheet_len;

/* The calls of the year below that are granted, as a list. */
static const uint32_t calls[][ZANKURBE_CALL_WORDS] = {
    {ZANKURBE_CALL_TRADE, 0, 2, NOISE, 10000, 0},
    {ZANKURBE_CALL_CLOSE, NOISE, NOISE, NOISE, NOISE, NOISE},
    {ZANKURBE_CALL_REQUEST, 0, 0, NOISE, 20000, 0},
    {ZANKURBE_CALL_REQUEST, 1, 0, NOISE, 26250, 0},
    {ZANKURBE_CALL_REQUEST, 2, 0, NOISE, 10000, 0},
    {ZANKURBE_CALL_CLOSE, NOISE, NOISE, NOISE, NOISE, NOISE},
    {ZANKURBE_CALL_MOVE, 1, 2, 0, 6250, 0},
    {ZANKURBE_CALL_REQUEST, 0, 0, NOISE, 3750, 0},
    {ZANKURBE_CALL_CLOSE, NOISE, NOISE, NOISE, NOISE, NOISE},
    {ZANKURBE_CALL_TAKE, 2, 0, 20, 4000, 0},
    {ZANKURBE_CALL_TAKE, 2, 0, 20, 10000, 0},
    {ZANKURBE_CALL_MOVE, 0, 1, 0, 750, 0},
    {ZANKURBE_CALL_LOCK, 1, 0, 5, 19687, 0},
    {ZANKURBE_CALL_LOCK, 0, 0, 30, 10000, 0},
};

/* The kW of their answers. */
static const uint64_t answered_kw[COUNT(calls)] = {
    10000, 0, 20000, 26250, 10000, 56250, 6250, 3750, 3750, 4000, 6000, 750, 19687, 10000,
};

static struct zankurbe_answer open_year(size_t state_len)
{
    return zankurbe_open(sheet, sheet_len, lent.state, state_len);
}

static struct zankurbe_answer trade(uint32_t seller, uint32_t buyer, uint64_t kw)
{
    return zankurbe_trade(lent.state, ZANKURBE_STATE_WORDS, seller, buyer, kw);
}

static struct zankurbe_answer request(uint32_t holder, uint32_t intertie, uint64_t kw)
{
    return zankurbe_request(lent.state, ZANKURBE_STATE_WORDS, holder, intertie, kw);
}

static struct zankurbe_answer move_kw(uint32_t giver, uint32_t taker, uint32_t intertie, uint64_t kw)
{
    return zankurbe_move(lent.state, ZANKURBE_STATE_WORDS, giver, taker, intertie, kw);
}

static struct zankurbe_answer lock(uint32_t holder, uint32_t intertie, uint64_t kw, uint32_t term)
{
    return zankurbe_lock(lent.state, ZANKURBE_STATE_WORDS, holder, intertie, kw, term);
}

static struct zankurbe_answer take(uint32_t holder, uint32_t intertie, uint64_t kw, uint32_t day)
{
    return zankurbe_take(lent.state, ZANKURBE_STATE_WORDS, holder, intertie, kw, day);
}

/* Closing `closing` of the year gets its part of the grants. */
static struct zankurbe_answer close_stage(size_t closing, size_t grants_len)
{
    uint32_t *grants = lent.grants + closing * ZANKURBE_GRANTS_WORDS;
    return zankurbe_close(lent.state, ZANKURBE_STATE_WORDS, grants, grants_len);
}

static struct zankurbe_answer carry(size_t output_len)
{
    return zankurbe_carry(sheet, sheet_len, lent.state, ZANKURBE_STATE_WORDS, lent.output, output_len);
}

static bool grants_are(size_t closing, uint32_t first, uint32_t second, uint32_t third)
{
    const uint32_t *grants = lent.grants + closing * ZANKURBE_GRANTS_WORDS;
    return grants[0] == first && grants[1] == second && grants[2] == third && grants[3] == NOISE;
}

static bool holders_have(size_t row, uint32_t first, uint32_t second, uint32_t third)
{
    return word(row, 0) == first && word(row, 1) == second && word(row, 2) == third;
}

static bool pairs_have(size_t row, uint32_t first, uint32_t second, uint32_t third)
{
    return pair(row, 0, 0) == first && pair(row, 1, 0) == second && pair(row, 2, 0) == third;
}

/* The plain structs, as the archive has them. */
static void structs(void)
{
    CHECK(sizeof(struct zankurbe_answer) == 24);
    CHECK(offsetof(struct zankurbe_answer, refusal) == 0);
    CHECK(offsetof(struct zankurbe_answer, kw) == 8);
    CHECK(offsetof(struct zankurbe_answer, passes) == 16);
    CHECK(sizeof(struct zankurbe_verdict) == 24);
    CHECK(offsetof(struct zankurbe_verdict, refusal) == 0);
    CHECK(offsetof(struct zankurbe_verdict, same) == 4);
    CHECK(offsetof(struct zankurbe_verdict, kw) == 8);
    CHECK(offsetof(struct zankurbe_verdict, passes) == 16);
    CHECK(sizeof(bool) == 1);
}

/* Cases a to f of the rules' examples, and the refusals of a share-out. */
static void share_outs(void)
{
    const uint64_t claims[] = {20, 90, 50}, weights[] = {1, 1, 2};
    const uint64_t five[] = {5, 5, 5}, equal[] = {1, 1, 1};
    const uint64_t nine[] = {9, 9, 9}, first[] = {3, 1, 1};
    const uint64_t two[] = {4, 9}, one_open[] = {1, 0};
    uint64_t *out = lent.numbers;

    make_noise();
    GRANTED(zankurbe_share_out(100, claims, 3, weights, 3, out, 4), 100, 2);
    CHECK(out[0] == 20 && out[1] == 30 && out[2] == 50 && out[3] == NOISE);
    GRANTED(zankurbe_share_out(2, five, 3, equal, 3, out, 3), 2, 1);
    CHECK(out[0] == 1 && out[1] == 1 && out[2] == 0 && out[3] == NOISE);
    GRANTED(zankurbe_share_out(7, nine, 3, first, 3, out, 3), 7, 2);
    CHECK(out[0] == 5 && out[1] == 1 && out[2] == 1);
    GRANTED(zankurbe_share_out(10, two, 2, one_open, 2, out, 2), 10, 2);
    CHECK(out[0] == 4 && out[1] == 6 && out[2] == 1);
    GRANTED(zankurbe_share_out(160, claims, 3, weights, 3, out, 3), 160, 0);
    CHECK(out[0] == 20 && out[1] == 90 && out[2] == 50);
    GRANTED(zankurbe_share_out(0, five, 1, equal, 1, out, 1), 0, 0);
    CHECK(out[0] == 0 && out[1] == 90);
    GRANTED(zankurbe_share_out(7, claims, 0, weights, 0, out, 0), 0, 0);
    CHECK(out[0] == 0);

    const uint64_t most_claim[] = {ZANKURBE_MOST_CLAIM_KW}, most_weight[] = {ZANKURBE_MOST_WEIGHT};
    const uint64_t above_claim[] = {ZANKURBE_MOST_CLAIM_KW + 1}, above_weight[] = {ZANKURBE_MOST_WEIGHT + 1};
    GRANTED(zankurbe_share_out(ZANKURBE_MOST_KW, most_claim, 1, most_weight, 1, out, 1), ZANKURBE_MOST_KW, 1);
    CHECK(out[0] == ZANKURBE_MOST_KW);
    REFUSED(zankurbe_share_out(7, claims, 3, weights, 2, out, 3), ZANKURBE_REFUSED_ROOM);
    REFUSED(zankurbe_share_out(7, claims, 3, weights, 3, out, 2), ZANKURBE_REFUSED_ROOM);
    REFUSED(zankurbe_share_out(ZANKURBE_MOST_KW + 1, claims, 3, weights, 3, out, 3), ZANKURBE_REFUSED_RANGE);
    REFUSED(zankurbe_share_out(7, above_claim, 1, equal, 1, out, 1), ZANKURBE_REFUSED_RANGE);
    REFUSED(zankurbe_share_out(7, five, 1, above_weight, 1, out, 1), ZANKURBE_REFUSED_RANGE);
}

/* Refusals 1 to 4, each by opening, posting and the sheet's refusal. */
static void refused_sheet(const uint8_t *bytes, size_t length, uint32_t refusal)
{
    CHECK(zankurbe_sheet_refusal(bytes, length) == refusal);
    REFUSED(zankurbe_open(bytes, length, lent.state, ZANKURBE_STATE_WORDS), refusal);
    REFUSED(zankurbe_post(bytes, length, lent.numbers), refusal);
    struct zankurbe_verdict verdict = zankurbe_same(bytes, length, sheet, sheet_len);
    CHECK(verdict.refusal == refusal && !verdict.same && verdict.kw == 0 && verdict.passes == 0);
    verdict = zankurbe_same(sheet, sheet_len, bytes, length);
    CHECK(verdict.refusal == refusal && !verdict.same);
}

static void refused_sheets(void)
{
    const struct record limit[] = {{ZANKURBE_KEY(ZANKURBE_RECORD_LIMIT, 0, 0, 0, 0), 100}};
    const struct record passed_limit[] = {
        {ZANKURBE_KEY(ZANKURBE_RECORD_LIMIT, 0, 0, 0, 0), 100},
        {ZANKURBE_KEY(ZANKURBE_RECORD_OUTSIDE_RIGHT, 0, 0, 0, 0), 60},
        {ZANKURBE_KEY(ZANKURBE_RECORD_EXISTING_CONTRACT, 0, 0, 0, ZANKURBE_MOST_YEARS), 41},
    };
    uint8_t other[64];

    make_noise();
    refused_sheet(sheet, 11, ZANKURBE_REFUSED_SHEET_LENGTH);
    refused_sheet(sheet, sheet_len - 1, ZANKURBE_REFUSED_SHEET_LENGTH);
    refused_sheet(sheet, 0, ZANKURBE_REFUSED_SHEET_LENGTH);
    size_t length = write_sheet(other, ZANKURBE_MOST_INTERTIES + 1, 1, limit, 1);
    refused_sheet(other, length, ZANKURBE_REFUSED_SIZES);
    length = write_sheet(other, 1, ZANKURBE_MOST_HOLDERS + 1, limit, 1);
    refused_sheet(other, length, ZANKURBE_REFUSED_SIZES);
    length = write_sheet(other, 1, 1, limit, 0);
    refused_sheet(other, length, ZANKURBE_REFUSED_RECORDS);
    length = write_sheet(other, 1, 1, passed_limit, COUNT(passed_limit));
    refused_sheet(other, length, ZANKURBE_REFUSED_ABOVE_LIMIT);
}

/* Case i is posted with the numbers of the rules' examples; all others stay. */
static void posting(void)
{
    const uint64_t intertie[] = {110000, 10000, 30000, 0, 0, 70000};
    const uint64_t holders[][3] = {{50000, 30000, 20000}, {50000, 30000, 20000}, {0, 0, 30000}, {43750, 26250, 0}};
    unsigned others = 0;

    make_noise();
    GRANTED(zankurbe_post(sheet, sheet_len, lent.numbers), 100000, 0);
    for (size_t row = ZANKURBE_POST_LIMIT; row <= ZANKURBE_POST_UNASSIGNED; row++) {
        CHECK(number(row, 0) == intertie[row]);
        CHECK(number(row, 1) == NOISE);
    }
    for (size_t row = ZANKURBE_POST_LOAD_SHARE; row <= ZANKURBE_POST_STEP_5_SHARE; row++) {
        for (size_t holder = 0; holder < 3; holder++) {
            CHECK(number(row, holder) == holders[row - ZANKURBE_POST_LOAD_SHARE][holder]);
        }
    }
    CHECK(number(ZANKURBE_POST_EXISTING, 0) == 30000 && number(ZANKURBE_POST_LOAD_SHARE_QUANTITY, 0) == 50000);
    for (size_t at = 0; at < COUNT(lent.numbers); at++) {
        others += lent.numbers[at] == NOISE;
    }
    CHECK(others == COUNT(lent.numbers) - 6 - 12);
}

/* Opening: the words of the state after it. */
static void opening(void)
{
    make_noise();
    REFUSED(open_year(ZANKURBE_STATE_WORDS - 1), ZANKURBE_REFUSED_ROOM);
    CHECK(zankurbe_state_refusal(lent.state, ZANKURBE_STATE_WORDS - 1) == ZANKURBE_REFUSED_ROOM);
    CHECK(zankurbe_state_refusal(lent.state, ZANKURBE_STATE_WORDS) == ZANKURBE_REFUSED_NOT_ORDERLY);
    REFUSED(trade(0, 2, 10000), ZANKURBE_REFUSED_NOT_ORDERLY);

    GRANTED(open_year(ZANKURBE_STATE_WORDS), 100000, 0);
    CHECK(zankurbe_state_refusal(lent.state, ZANKURBE_STATE_WORDS) == 0);
    CHECK(word(ZANKURBE_ROW_SIZES, ZANKURBE_COLUMN_INTERTIES) == 1);
    CHECK(word(ZANKURBE_ROW_SIZES, ZANKURBE_COLUMN_HOLDERS) == 3);
    CHECK(word(ZANKURBE_ROW_YEAR, ZANKURBE_COLUMN_STAGE) == ZANKURBE_STAGE_TRADING);
    CHECK(word(ZANKURBE_ROW_YEAR, ZANKURBE_COLUMN_LAST_DAY) == 0);
    CHECK(word(ZANKURBE_ROW_LIMIT, 0) == 110000 && word(ZANKURBE_ROW_LIMIT, 1) == NOISE);
    CHECK(word(ZANKURBE_ROW_OUTSIDE, 0) == 10000);
    CHECK(word(ZANKURBE_ROW_UNASSIGNED, 0) == 70000);
    CHECK(holders_have(ZANKURBE_ROW_LOAD_SHARE, 50000, 30000, 20000));
    CHECK(holders_have(ZANKURBE_ROW_STEP_5_SHARE, 43750, 26250, 0));
    CHECK(holders_have(ZANKURBE_ROW_STEP_7_TOTAL, 43750, 26250, 30000));
    CHECK(holders_have(ZANKURBE_ROW_RESERVED, 0, 0, 30000));
    CHECK(holders_have(ZANKURBE_ROW_UNPLACED, 43750, 26250, 0));
    CHECK(word(ZANKURBE_ROW_UNPLACED, 3) == NOISE);
    CHECK(holders_have(ZANKURBE_ROW_SELLERS, 0, 0, 0));
    CHECK(holders_have(ZANKURBE_ROW_LAST_WEEK, 0, 0, 0));
    CHECK(holders_have(ZANKURBE_ROW_TAKINGS, 0, 0, 0));
    CHECK(pairs_have(ZANKURBE_ROW_EXISTING, 0, 0, 30000));
    CHECK(pairs_have(ZANKURBE_ROW_PRE_RA, 0, 0, 0) && pairs_have(ZANKURBE_ROW_NEW_USE, 0, 0, 0));
    CHECK(pairs_have(ZANKURBE_ROW_PLACED, 0, 0, 0) && pairs_have(ZANKURBE_ROW_TAKEN, 0, 0, 0));
    CHECK(pairs_have(ZANKURBE_ROW_LOCKED, 0, 0, 0) && pairs_have(ZANKURBE_ROW_TERM, 0, 0, 0));
    CHECK(pairs_have(ZANKURBE_ROW_PENDING, 0, 0, 0) && pair(ZANKURBE_ROW_PENDING, 3, 0) == NOISE);
    CHECK(lent.state[ZANKURBE_STATE_WORDS - 1] == NOISE && lent.state[ZANKURBE_STATE_WORDS] == NOISE);
}

/* Stage 1: a trade and its closing. */
static void trading(void)
{
    REFUSED(zankurbe_trade(lent.state, ZANKURBE_STATE_WORDS - 1, 0, 2, 10000), ZANKURBE_REFUSED_ROOM);
    REFUSED(request(0, 0, 1), ZANKURBE_REFUSED_STAGE);
    REFUSED(carry(ZANKURBE_MOST_SHEET_BYTES), ZANKURBE_REFUSED_STAGE);
    REFUSED(trade(1, 1, 1), ZANKURBE_REFUSED_NO_SUCH);
    REFUSED(trade(0, 3, 1), ZANKURBE_REFUSED_NO_SUCH);
    REFUSED(trade(0, 2, 0), ZANKURBE_REFUSED_RANGE);
    REFUSED(trade(0, 2, ZANKURBE_MOST_KW + 1), ZANKURBE_REFUSED_RANGE);
    REFUSED(trade(0, 2, (UINT64_C(1) << 32) + 1), ZANKURBE_REFUSED_RANGE);
    REFUSED(trade(0, 2, 43751), ZANKURBE_REFUSED_TOO_MUCH);
    GRANTED(trade(0, 2, 10000), 10000, 0);
    CHECK(holders_have(ZANKURBE_ROW_UNPLACED, 33750, 26250, 10000));
    CHECK(holders_have(ZANKURBE_ROW_SELLERS, 0, 0, 1));

    REFUSED(close_stage(0, ZANKURBE_GRANTS_WORDS - 1), ZANKURBE_REFUSED_ROOM);
    GRANTED(close_stage(0, ZANKURBE_GRANTS_WORDS), 0, 0);
    CHECK(grants_are(0, 0, 0, 0));
    CHECK(word(ZANKURBE_ROW_YEAR, ZANKURBE_COLUMN_STAGE) == ZANKURBE_STAGE_FIRST_REQUESTS);
    REFUSED(trade(0, 2, 1), ZANKURBE_REFUSED_STAGE);
}

/* Stages 2 and 3: requests, a move, two closings. */
static void requests(void)
{
    GRANTED(request(0, 0, 20000), 20000, 0);
    GRANTED(request(1, 0, 26250), 26250, 0);
    GRANTED(request(2, 0, 10000), 10000, 0);
    CHECK(pairs_have(ZANKURBE_ROW_PENDING, 20000, 26250, 10000));
    REFUSED(request(1, 0, 1), ZANKURBE_REFUSED_TOO_MUCH);
    REFUSED(request(1, 1, 1), ZANKURBE_REFUSED_NO_SUCH);
    REFUSED(move_kw(0, 1, 0, 1), ZANKURBE_REFUSED_STAGE);
    GRANTED(close_stage(1, ZANKURBE_GRANTS_WORDS), 56250, 0);
    CHECK(grants_are(1, 20000, 26250, 10000));
    CHECK(word(ZANKURBE_ROW_YEAR, ZANKURBE_COLUMN_STAGE) == ZANKURBE_STAGE_SECOND_REQUESTS);
    CHECK(word(ZANKURBE_ROW_UNASSIGNED, 0) == 13750);
    CHECK(holders_have(ZANKURBE_ROW_UNPLACED, 13750, 0, 0));
    CHECK(pairs_have(ZANKURBE_ROW_PLACED, 20000, 26250, 10000));
    CHECK(pairs_have(ZANKURBE_ROW_PENDING, 0, 0, 0));

    GRANTED(move_kw(1, 2, 0, 6250), 6250, 0);
    CHECK(pairs_have(ZANKURBE_ROW_PLACED, 20000, 20000, 16250));
    REFUSED(move_kw(1, 2, 0, 20001), ZANKURBE_REFUSED_TOO_MUCH);
    GRANTED(request(0, 0, 3750), 3750, 0);
    REFUSED(lock(1, 0, 1, 1), ZANKURBE_REFUSED_STAGE);
    REFUSED(take(1, 0, 1, 0), ZANKURBE_REFUSED_STAGE);
    GRANTED(close_stage(2, ZANKURBE_GRANTS_WORDS + 1), 3750, 0);
    CHECK(grants_are(2, 3750, 0, 0));
    CHECK(word(ZANKURBE_ROW_YEAR, ZANKURBE_COLUMN_STAGE) == ZANKURBE_STAGE_OPEN);
    CHECK(word(ZANKURBE_ROW_UNASSIGNED, 0) == 10000);
    CHECK(holders_have(ZANKURBE_ROW_UNPLACED, 10000, 0, 0));
    REFUSED(close_stage(3, ZANKURBE_GRANTS_WORDS), ZANKURBE_REFUSED_STAGE);
}

/* Stage 4: takings, a move, locks up to three quarters. */
static void open_stage(void)
{
    GRANTED(take(2, 0, 4000, 20), 4000, 0);
    GRANTED(take(2, 0, 10000, 20), 6000, 0);
    CHECK(word(ZANKURBE_ROW_UNASSIGNED, 0) == 0);
    CHECK(word(ZANKURBE_ROW_YEAR, ZANKURBE_COLUMN_LAST_DAY) == 20);
    CHECK(holders_have(ZANKURBE_ROW_LAST_WEEK, 0, 0, 2));
    CHECK(holders_have(ZANKURBE_ROW_TAKINGS, 0, 0, ZANKURBE_MOST_TAKINGS));
    CHECK(pairs_have(ZANKURBE_ROW_TAKEN, 0, 0, 10000));
    REFUSED(take(2, 0, 1, 20), ZANKURBE_REFUSED_DAY);
    REFUSED(take(1, 0, 1, 19), ZANKURBE_REFUSED_DAY);
    REFUSED(take(1, 0, 1, 20), ZANKURBE_REFUSED_NONE_LEFT);

    GRANTED(move_kw(0, 1, 0, 750), 750, 0);
    CHECK(pairs_have(ZANKURBE_ROW_PLACED, 23000, 20750, 16250));
    REFUSED(lock(1, 0, 19687, ZANKURBE_MOST_YEARS + 1), ZANKURBE_REFUSED_RANGE);
    REFUSED(lock(1, 0, 20751, 5), ZANKURBE_REFUSED_TOO_MUCH);
    REFUSED(lock(1, 0, 19688, 5), ZANKURBE_REFUSED_LOCK);
    REFUSED(lock(2, 0, 1, 5), ZANKURBE_REFUSED_LOCK);
    GRANTED(lock(1, 0, 19687, 5), 19687, 0);
    REFUSED(lock(1, 0, 1, 5), ZANKURBE_REFUSED_LOCK);
    GRANTED(lock(0, 0, 10000, ZANKURBE_MOST_YEARS), 10000, 0);
    CHECK(pairs_have(ZANKURBE_ROW_LOCKED, 10000, 19687, 0));
    CHECK(pairs_have(ZANKURBE_ROW_TERM, ZANKURBE_MOST_YEARS, 5, 0));
    REFUSED(move_kw(1, 0, 0, 1064), ZANKURBE_REFUSED_TOO_MUCH);
}

/* Next year's sheet, which opens. */
static void carrying(void)
{
    uint8_t expected[ZANKURBE_SHEET_HEADER_BYTES + ZANKURBE_RECORD_BYTES * COUNT(carried)];
    size_t length = write_sheet(expected, 1, 3, carried, COUNT(carried));

    REFUSED(carry(length - 1), ZANKURBE_REFUSED_CARRY);
    GRANTED(carry(length), 0, 0);
    CHECK(memcmp(lent.output, expected, length) == 0 && lent.output[length] == 0x5A);
    GRANTED(zankurbe_open(expected, length, lent.state, ZANKURBE_STATE_WORDS), 100000, 0);
    CHECK(pairs_have(ZANKURBE_ROW_NEW_USE, 10000, 19687, 0));
    CHECK(pairs_have(ZANKURBE_ROW_EXISTING, 0, 0, 0));
    CHECK(holders_have(ZANKURBE_ROW_STEP_5_SHARE, 40000, 10313, 20000));
    CHECK(word(ZANKURBE_ROW_UNASSIGNED, 0) == 70313);

    struct zankurbe_verdict verdict = zankurbe_same(sheet, sheet_len, expected, length);
    CHECK(verdict.refusal == 0 && !verdict.same);
    struct record split[COUNT(case_i) + 1];
    memcpy(split, case_i, sizeof case_i);
    split[1].quantity = 6000;
    split[COUNT(case_i)] = (struct record){case_i[1].key, 4000};
    length = write_sheet(expected, 1, 3, split, COUNT(split));
    verdict = zankurbe_same(sheet, sheet_len, expected, length);
    CHECK(verdict.refusal == 0 && verdict.same && verdict.kw == 0 && verdict.passes == 0);
}

/* The granted calls once more, as one list: the same state, grants and answers. */
static void whole_list(void)
{
    const uint32_t *words = calls[0];
    const size_t count = COUNT(calls) * ZANKURBE_CALL_WORDS;
    const size_t room = COUNT(calls) * ZANKURBE_ANSWER_WORDS;
    uint64_t *answers = lent.numbers;

    make_noise();
    GRANTED(open_year(ZANKURBE_STATE_WORDS), 100000, 0);
    keep();
    CHECK(!zankurbe_run_calls(words, count - 1, lent.state, ZANKURBE_STATE_WORDS, lent.grants, COUNT(lent.grants),
                              answers, room));
    CHECK(!zankurbe_run_calls(words, count, lent.state, ZANKURBE_STATE_WORDS, lent.grants, COUNT(lent.grants),
                              answers, room - 1));
    const uint32_t no_kind[ZANKURBE_CALL_WORDS] = {ZANKURBE_CALL_LOCK + 1, 0, 0, 0, 0, 0};
    CHECK(!zankurbe_run_calls(no_kind, ZANKURBE_CALL_WORDS, lent.state, ZANKURBE_STATE_WORDS, lent.grants,
                              COUNT(lent.grants), answers, room));
    CHECK(memcmp(&before, &lent, sizeof lent) == 0);

    CHECK(zankurbe_run_calls(words, count, lent.state, ZANKURBE_STATE_WORDS, lent.grants, COUNT(lent.grants),
                             answers, room));
    for (size_t call = 0; call < COUNT(calls); call++) {
        const uint64_t *answer = answers + call * ZANKURBE_ANSWER_WORDS;
        CHECK(answer[0] == 0 && answer[1] == answered_kw[call] && answer[2] == 0);
    }
    CHECK(answers[room] == NOISE);
    CHECK(memcmp(lent.state, first_run.state, sizeof lent.state) == 0);
    CHECK(memcmp(lent.grants, first_run.grants, sizeof lent.grants) == 0);
}

/* Two interties and two holders, with more asked for on intertie 0 than there is: a closing with a pass. */
static void contended_closing(void)
{
    const struct record records[] = {
        {ZANKURBE_KEY(ZANKURBE_RECORD_LIMIT, 0, 0, 0, 0), 100},
        {ZANKURBE_KEY(ZANKURBE_RECORD_LIMIT, 0, 1, 0, 0), 300},
        {ZANKURBE_KEY(ZANKURBE_RECORD_LOAD_SHARE, 0, 0, 0, 0), 1},
        {ZANKURBE_KEY(ZANKURBE_RECORD_LOAD_SHARE, 1, 0, 0, 0), 3},
    };
    uint8_t other[64];
    size_t length = write_sheet(other, 2, 2, records, COUNT(records));

    make_noise();
    GRANTED(zankurbe_open(other, length, lent.state, ZANKURBE_STATE_WORDS), 400, 0);
    GRANTED(close_stage(0, ZANKURBE_GRANTS_WORDS), 0, 0);
    GRANTED(request(0, 0, 60), 60, 0);
    GRANTED(request(1, 0, 200), 200, 0);
    GRANTED(request(1, 1, 100), 100, 0);
    GRANTED(close_stage(1, ZANKURBE_GRANTS_WORDS), 200, 1);
    const uint32_t *grants = lent.grants + ZANKURBE_GRANTS_WORDS;
    CHECK(grants[0] == 25 && grants[1] == 0 && grants[2] == 75 && grants[3] == 100 && grants[4] == NOISE);
    CHECK(pair(ZANKURBE_ROW_PLACED, 0, 0) == 25 && pair(ZANKURBE_ROW_PLACED, 1, 1) == 100);
    CHECK(word(ZANKURBE_ROW_UNASSIGNED, 0) == 0 && word(ZANKURBE_ROW_UNASSIGNED, 1) == 200);
    CHECK(word(ZANKURBE_ROW_UNPLACED, 0) == 75 && word(ZANKURBE_ROW_UNPLACED, 1) == 125);
}

/* The library linked is the header's, and the version's text is that of its number. */
static void version(void)
{
    char text[16];

    CHECK(zankurbe_version() == ZANKURBE_VERSION);
    snprintf(text, sizeof text, "%d.%d.%d", ZANKURBE_VERSION / 10000, ZANKURBE_VERSION / 100 % 100,
             ZANKURBE_VERSION % 100);
    CHECK(strcmp(text, ZANKURBE_VERSION_TEXT) == 0);
}

int main(void)
{
    version();
    sheet_len = write_sheet(sheet, 1, 3, case_i, COUNT(case_i));
    structs();
    share_outs();
    refused_sheets();
    posting();
    opening();
    trading();
    requests();
    open_stage();
    memcpy(&first_run, &lent, sizeof lent);
    carrying();
    whole_list();
    contended_closing();
    printf("%u passed, %u failed\n", passed, failed);
    return failed == 0 ? 0 : 1;
}
