/* Calls the library from C: the scope paper's example, typed, stored and cycle by cycle on a board, a sheet with advice, and a refusal of each
   operation. Prints a line for each check and returns 1 where one fails. */
#include "fasunqir.h"
#include <stdio.h>
#include <string.h>

/* One signal and one clause: anti(<signal 0>), a commitment. */
static const uint8_t sheet[] = {
    0x00, 0x1E, 0x01, 0x01, 0x01, 0x00, 0x00, 0x02, 0x01,             /* one signal, no names, two nodes, one clause */
    0x03, 0x00, 0x00, 0x00, 0x00, 0x00,                               /* node 0: signal 0 */
    0x10, 0x00, 0x00, 0x00, 0x00, 0x00,                               /* node 1: <node 0> */
    0x03, 0x01, 0x00, 0x01, 0x00, 0x00, 0x00, 0x00, 0x00, 0x00, 0x00, /* clause 0: anti, a commitment, root 1 */
};

/* The same sheet as it is typed, and as it is not: without the colon. */
static const char typed[] = "1 0\nrequire anti(<s0>:)\n";
static const char mistyped[] = "1 0\nrequire anti(<s0>)\n";

/* Two clauses: as advice the signal is never high, and as a commitment it is high in the first cycle. */
static const uint8_t advised[] = {
    0x00, 0x29, 0x01, 0x01, 0x01, 0x00, 0x00, 0x02, 0x02,             /* one signal, no names, two nodes, two clauses */
    0x03, 0x00, 0x00, 0x00, 0x00, 0x00,                               /* node 0: signal 0 */
    0x10, 0x00, 0x00, 0x00, 0x00, 0x00,                               /* node 1: <node 0> */
    0x03, 0x02, 0x00, 0x01, 0x00, 0x00, 0x00, 0x00, 0x00, 0x00, 0x00, /* clause 0: anti, advice, root 1 */
    0x01, 0x01, 0x00, 0x01, 0x00, 0x00, 0x00, 0x00, 0x00, 0x00, 0x00, /* clause 1: pref, a commitment, root 1 */
};

/* Where the role of its clause 0 stands. */
enum { ROLE = 9 + 2 * 6 + 1 };

/* Three cycles, the signal high in the last. */
static const uint8_t trace[] = {0x00, 0x08, 0x01, 0x01, 0x00, 0x00, 0x00, 0x00, 0x00, 0x01};

/* Two cycles, the signal high in both. */
static const uint8_t high[] = {0x00, 0x06, 0x01, 0x01, 0x00, 0x01, 0x00, 0x01};

/* One more of each than is needed. */
static uint64_t words[FASUNQIR_WORDS + 1];
static uint64_t rows[FASUNQIR_ROWS + 1];
static uint8_t out[FASUNQIR_OUTPUT + 1];

static int failed;

static void expect(int ok, const char *what) {
    printf("%s %s\n", ok ? "ok" : "FAILED", what);
    failed |= !ok;
}

static uint64_t answer(uint64_t tag, uint64_t value) {
    return tag + 256 * value;
}

static uint64_t with_advice(uint64_t finding, uint64_t byte) {
    return finding + 4294967296u * byte;
}

/* Fills what is lent with 7, so that every change shows. */
static void lend(void) {
    for (size_t i = 0; i <= FASUNQIR_WORDS; i++)
        words[i] = 7;
    for (size_t i = 0; i <= FASUNQIR_ROWS; i++)
        rows[i] = 7;
    for (size_t i = 0; i <= FASUNQIR_OUTPUT; i++)
        out[i] = 7;
}

static int all_words(uint64_t value) {
    for (size_t i = 0; i <= FASUNQIR_WORDS; i++)
        if (words[i] != value)
            return 0;
    return 1;
}

static int rows_kept(size_t from) {
    for (size_t i = from; i <= FASUNQIR_ROWS; i++)
        if (rows[i] != 7)
            return 0;
    return 1;
}

static int bytes_kept(size_t from) {
    for (size_t i = from; i <= FASUNQIR_OUTPUT; i++)
        if (out[i] != 7)
            return 0;
    return 1;
}

static void checks(void) {
    lend();
    uint64_t broken = fasunqir_check(sheet, sizeof sheet, trace, sizeof trace, words, FASUNQIR_WORDS + 1);
    expect(broken == answer(FASUNQIR_BROKEN, 0 * 262144 + 2 * 4096 + 2 * 64 + 2), "check: BROKEN 0 2 2 2");
    expect(all_words(0), "check: the words are zero");

    lend();
    uint64_t refused = fasunqir_check(sheet, sizeof sheet, trace, 3, words, FASUNQIR_WORDS + 1);
    expect(refused == answer(FASUNQIR_REFUSED, 10), "check: a trace of 3 bytes is refused by 10");
    expect(all_words(7), "check: refused, the words are as they were");
}

/* The sheet with advice, its clause 0 in this role. */
static uint64_t check_advised(uint8_t role, const uint8_t *cycles, size_t cycles_len) {
    uint8_t changed[sizeof advised];
    memcpy(changed, advised, sizeof advised);
    changed[ROLE] = role;
    lend();
    return fasunqir_check(changed, sizeof changed, cycles, cycles_len, words, FASUNQIR_WORDS + 1);
}

static void advice(void) {
    uint64_t holds = check_advised(2, high, sizeof high);
    expect(holds == with_advice(answer(FASUNQIR_HOLDS, 0), 1), "advice: HOLDS, and clause 0 fails");
    expect(all_words(0), "advice: the words are zero");

    uint64_t broken = check_advised(2, trace, sizeof trace);
    expect(broken == with_advice(answer(FASUNQIR_BROKEN, 1 * 262144), 1), "advice: BROKEN 1 0 0 0, and clause 0 fails");
    expect(FASUNQIR_TAG(broken) == FASUNQIR_BROKEN && FASUNQIR_VALUE(broken) == 1 * 262144 && FASUNQIR_ADVICE(broken) == 1,
           "advice: tag, value and advice by themselves");

    uint64_t commitment = check_advised(1, high, sizeof high);
    expect(commitment == answer(FASUNQIR_BROKEN, 0), "advice: BROKEN 0 0 0 0 where clause 0 is a commitment");

    uint64_t refused = check_advised(3, high, sizeof high);
    expect(refused == answer(FASUNQIR_REFUSED, 8), "advice: role 3 is refused by 8");
    expect(all_words(7), "advice: refused, the words are as they were");
}

static void tables(void) {
    lend();
    uint64_t written = fasunqir_table(sheet, sizeof sheet, trace, sizeof trace, 1, 0, 0, 0, words, FASUNQIR_WORDS + 1, rows,
                                      FASUNQIR_ROWS + 1);
    expect(written == answer(FASUNQIR_WRITTEN, 0), "table: node 1 has one");
    int right = 1;
    for (size_t b = 0; b < FASUNQIR_ROWS; b++)
        right &= rows[b] == (b == 2 ? 1 << 2 : 0);
    expect(right, "table: <signal 0> holds on [2,2] alone");
    expect(rows_kept(FASUNQIR_ROWS), "table: the 65th row keeps its value");
    expect(all_words(0), "table: the words are zero");

    lend();
    uint64_t refused = fasunqir_table(sheet, sizeof sheet, trace, sizeof trace, 1, 0, 0, 0, words, FASUNQIR_WORDS + 1, rows,
                                      FASUNQIR_ROWS - 1);
    expect(refused == answer(FASUNQIR_REFUSED, 15), "table: 63 rows are refused by 15");
    uint64_t lower = fasunqir_table(sheet, sizeof sheet, trace, 3, 1, 0, 0, 0, words, FASUNQIR_WORDS + 1, rows,
                                    FASUNQIR_ROWS - 1);
    expect(lower == answer(FASUNQIR_REFUSED, 10), "table: 63 rows and a trace of 3 bytes are refused by 10");
    uint64_t no_formula = fasunqir_table(sheet, sizeof sheet, trace, sizeof trace, 0, 0, 0, 0, words, FASUNQIR_WORDS + 1,
                                         rows, FASUNQIR_ROWS + 1);
    expect(no_formula == answer(FASUNQIR_REFUSED, 16), "table: node 0 is refused by 16");
    expect(rows_kept(0) && all_words(7), "table: refused, rows and words are as they were");
}

static void translations(void) {
    lend();
    uint64_t written = fasunqir_translate(sheet, sizeof sheet, out, FASUNQIR_OUTPUT);
    size_t length = (size_t)(written / 256);
    size_t nodes = (size_t)out[6] * 256 + out[7];
    expect(written % 256 == FASUNQIR_WRITTEN && length <= FASUNQIR_OUTPUT, "translate: a formula is written");
    expect((size_t)out[0] * 256 + out[1] + 2 == length, "translate: bytes 0-1 are its length less 2");
    expect(out[2] == 1 && out[3] == 2 && out[4] == 1 && out[5] == 0 && out[8] == 0,
           "translate: version 1, kind 2, one signal, no names, no clauses");
    expect(length == 9 + 6 * nodes && nodes <= 21, "translate: it has at most 2 + 3 + 16 nodes");
    expect(bytes_kept(length), "translate: later bytes keep their values");

    lend();
    uint64_t refused = fasunqir_translate(sheet, sizeof sheet, out, FASUNQIR_OUTPUT - 1);
    expect(refused == answer(FASUNQIR_REFUSED, 14), "translate: 8,191 bytes are refused by 14");
    expect(bytes_kept(0), "translate: refused, the bytes are as they were");
}

static uint64_t read_text(const char *text, size_t out_len) {
    return fasunqir_read_text((const uint8_t *)text, strlen(text), out, out_len);
}

static void texts(void) {
    lend();
    uint64_t written = read_text(typed, FASUNQIR_OUTPUT + 1);
    expect(written == answer(FASUNQIR_WRITTEN, sizeof sheet), "read_text: a sheet of 32 bytes is written");
    expect(memcmp(out, sheet, sizeof sheet) == 0, "read_text: it is the stored sheet");
    expect(bytes_kept(sizeof sheet), "read_text: later bytes keep their values");

    lend();
    expect(read_text(mistyped, FASUNQIR_OUTPUT) == answer(FASUNQIR_REFUSED, 19), "read_text: no colon is refused by 19");
    expect(read_text("", FASUNQIR_OUTPUT) == answer(FASUNQIR_REFUSED, 19), "read_text: no text is refused by 19");
    expect(read_text(typed, FASUNQIR_OUTPUT - 1) == answer(FASUNQIR_REFUSED, 14), "read_text: 8,191 bytes are refused by 14");
    expect(bytes_kept(0), "read_text: refused, the bytes are as they were");
}

static int same_board(const struct fasunqir_board *one, const struct fasunqir_board *other) {
    return memcmp(one->sheet, other->sheet, sizeof one->sheet) == 0 &&
           memcmp(one->cycles, other->cycles, sizeof one->cycles) == 0 && one->taken == other->taken &&
           one->verdict == other->verdict;
}

/* Feeds a board with the words as they are lent, so many of them. */
static uint64_t feed(struct fasunqir_board *board, uint16_t cycle, size_t words_len) {
    lend();
    return fasunqir_board_feed(board, cycle, words, words_len);
}

/* The feed is refused by this number, and leaves board and words as they were. */
static int refuses(struct fasunqir_board *board, uint16_t cycle, size_t words_len, uint64_t number) {
    struct fasunqir_board before = *board;
    uint64_t refused = feed(board, cycle, words_len);
    return refused == answer(FASUNQIR_REFUSED, number) && same_board(board, &before) && all_words(7);
}

static void boards(void) {
    const uint64_t holds = answer(FASUNQIR_HOLDS, 0);
    const uint64_t broken = answer(FASUNQIR_BROKEN, 0 * 262144 + 2 * 4096 + 2 * 64 + 2);
    struct fasunqir_board board, before;
    memset(&board, 7, sizeof board);
    before = board;
    expect(fasunqir_board_open(&board, sheet, 8) == answer(FASUNQIR_REFUSED, 1), "open: a sheet of 8 bytes is refused by 1");
    expect(same_board(&board, &before), "open: refused, the board is as it was");

    expect(fasunqir_board_open(&board, sheet, sizeof sheet) == answer(FASUNQIR_WRITTEN, 0), "open: a board is written");
    memset(&before, 0, sizeof before);
    memcpy(before.sheet, sheet, sizeof sheet);
    expect(same_board(&board, &before), "open: the sheet is on it, no cycle and no verdict");

    expect(feed(&board, 0, FASUNQIR_WORDS + 1) == holds && all_words(0), "feed: HOLDS, and the words are zero");
    expect(feed(&board, 0, FASUNQIR_WORDS + 1) == holds, "feed: HOLDS again");
    expect(refuses(&board, 2, FASUNQIR_WORDS + 1, 21), "feed: a bit for signal 1 of 1 is refused by 21");
    expect(refuses(&board, 2, FASUNQIR_WORDS - 1, 15), "feed: 4,095 words are refused by 15, before 21");
    expect(board.taken == 2 && board.verdict == holds, "feed: two cycles are taken, and the board says HOLDS");
    expect(feed(&board, 1, FASUNQIR_WORDS + 1) == broken, "feed: BROKEN 0 2 2 2, as the check of the trace");
    expect(board.taken == 3 && board.cycles[2] == 1 && board.verdict == broken, "feed: the board says so");

    /* A board made by hand: what follows its sheet, and its verdict, may be anything. */
    memset(&board, 7, sizeof board);
    memcpy(board.sheet, sheet, sizeof sheet);
    board.cycles[0] = board.cycles[1] = 0;
    board.taken = 2;
    expect(refuses(&board, 2, FASUNQIR_WORDS + 1, 21), "by hand: a refusal leaves what its verdict was");
    expect(feed(&board, 1, FASUNQIR_WORDS + 1) == broken && board.verdict == broken, "by hand: BROKEN 0 2 2 2");
    board.cycles[1] = 2;
    expect(refuses(&board, 0, FASUNQIR_WORDS + 1, 13), "by hand: a bit for signal 1 in a taken cycle is refused by 13");
    board.taken = (size_t)-1;
    expect(refuses(&board, 0, FASUNQIR_WORDS + 1, 13), "by hand: more than 64 cycles are refused by 13");
    memset(board.cycles, 0, sizeof board.cycles);
    board.taken = FASUNQIR_CYCLES;
    expect(refuses(&board, 0, FASUNQIR_WORDS + 1, 22), "by hand: a 65th cycle is refused by 22");
    board.sheet[2] = 2;
    expect(refuses(&board, 0, FASUNQIR_WORDS + 1, 2), "by hand: version 2 is refused by 2");
}

int main(void) {
    checks();
    advice();
    tables();
    translations();
    texts();
    boards();
    return failed;
}
