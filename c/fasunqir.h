/* The proved check, table and translator of sheets, the reader of typed sheets, and the board that takes cycles one by one, as
   libexports.a has them.

   Sheets and traces are bytes in the stored layout. Every pointer is of as many elements as the length after it says, or as
   the parameter shows, and none is null: for no bytes pass a pointer to anything and 0, not (NULL, 0). What is lent to be
   written overlaps nothing else that is passed. No pointer is kept.

   The lower 32 bits of an answer are a tag and 256 times a value. Tag 0: refused, and the value is the number of the refusal,
   1 to 22. Whatever was lent is then as it was. The upper 32 bits are 0 but for a verdict, whose advice they are: a byte,
   bit k set exactly if clause k is advice (role 2) and fails. */
#ifndef FASUNQIR_H
#define FASUNQIR_H

#include <stddef.h>
#include <stdint.h>

#ifdef __cplusplus
extern "C" {
#endif

/* The parts of an answer. */
#define FASUNQIR_TAG(answer) ((uint32_t)((answer) % 256))
#define FASUNQIR_VALUE(answer) ((uint32_t)((answer) % 4294967296u / 256))
#define FASUNQIR_ADVICE(answer) ((uint32_t)((answer) / 4294967296u))

enum {
    FASUNQIR_REFUSED = 0,
    FASUNQIR_EXCUSED = 1, /* the value is the first failing assumption */
    FASUNQIR_BROKEN = 2,  /* the value is the place: clause * 262144 + i * 4096 + j * 64 + k */
    FASUNQIR_HOLDS = 3,
    FASUNQIR_WRITTEN = 4  /* the value is the length of the sheet written, and 0 for a table and a new board */
};

enum {
    FASUNQIR_WORDS = 4096,  /* the words that check, table and feed borrow, at least */
    FASUNQIR_ROWS = 64,     /* the rows of a table; the lent ones may be more */
    FASUNQIR_OUTPUT = 8192, /* the bytes that the translator and the reader of typed sheets are lent, at least */
    FASUNQIR_SHEET = 481,   /* the bytes in which a board has its sheet, as many as the longest has */
    FASUNQIR_CYCLES = 64    /* the cycles that a board takes, at most */
};

/* The verdict of a sheet on a trace: EXCUSED, BROKEN or HOLDS, which advice doesn't touch, and beside it the advice that
   fails. The lent words are all zero afterwards. */
uint64_t fasunqir_check(const uint8_t *sheet, size_t sheet_len, const uint8_t *trace, size_t trace_len,
                        uint64_t *words, size_t words_len);

/* The table of a formula node, names 0, 1 and 2 on cycles p0, p1 and p2, those that the sheet lacks ignored: WRITTEN. Row b
   has bit e set exactly if b <= e, both are cycles of the trace and the node holds on [b,e]. The first 64 of the lent rows
   are the table's and later ones keep their values; the lent words are all zero afterwards. Under 64 rows are refused by 15,
   as under 4,096 words are. */
uint64_t fasunqir_table(const uint8_t *sheet, size_t sheet_len, const uint8_t *trace, size_t trace_len, size_t node,
                        size_t p0, size_t p1, size_t p2, uint64_t *words, size_t words_len, uint64_t *rows,
                        size_t rows_len);

/* Writes the formula of a sheet, a sheet of kind 2, into the lent bytes: WRITTEN. Advice is no part of it. Bytes from its
   length on keep their values. */
uint64_t fasunqir_translate(const uint8_t *sheet, size_t sheet_len, uint8_t *out, size_t out_len);

/* Reads a typed sheet and writes it as a stored sheet into the lent bytes: WRITTEN. Bytes from its length on keep their
   values. A text is refused by 18, 19 or 20, in this order, then by the lowest of 1 to 9 that applies to the sheet that was
   read, then by 14. */
uint64_t fasunqir_read_text(const uint8_t *text, size_t text_len, uint8_t *out, size_t out_len);

/* Opens a board on a sheet: WRITTEN. The four lent pieces are the new board: the sheet and zeros after it, no cycles, all of
   them zero, 0 taken, and the verdict 0, which is none. A sheet is refused by the lowest of 1 to 9 that applies. */
uint64_t fasunqir_open(const uint8_t *sheet, size_t sheet_len, uint8_t board_sheet[FASUNQIR_SHEET],
                       uint16_t cycles[FASUNQIR_CYCLES], size_t *taken, uint64_t *verdict);

/* Takes a cycle, bit k for signal k: the verdict of the sheet on the trace of the cycles taken so far and this one, as
   fasunqir_check answers it. The cycle then stands in cycles[taken], taken is one more, *verdict is this answer, and the lent
   words are all zero. Refused by the first that applies of 1 to 9, asked of the board's sheet; 13, where more than 64 cycles
   are taken or one of them has a bit from s up; 15; 21, where the cycle has a bit from s up; 22, where 64 are taken already.

   What is broken stays broken: after BROKEN comes BROKEN, there or at an earlier place, or EXCUSED, and after EXCUSED nothing
   else; a bit of advice stays set.

   A board may be made by hand. Its sheet ends where its bytes 0-1 say, or with the array, and what comes after it may be
   anything; so may the cycles that are not taken yet. What *verdict was is not looked at. */
uint64_t fasunqir_feed(const uint8_t board_sheet[FASUNQIR_SHEET], uint16_t cycles[FASUNQIR_CYCLES], size_t *taken,
                       uint64_t *verdict, uint16_t cycle, uint64_t *words, size_t words_len);

/* The pieces of a board together. It is asked by its verdict: the answer last given that was no refusal, and 0 where no cycle
   was taken yet. */
struct fasunqir_board {
    uint8_t sheet[FASUNQIR_SHEET];
    uint16_t cycles[FASUNQIR_CYCLES];
    size_t taken;
    uint64_t verdict;
};

static inline uint64_t fasunqir_board_open(struct fasunqir_board *board, const uint8_t *sheet, size_t sheet_len) {
    return fasunqir_open(sheet, sheet_len, board->sheet, board->cycles, &board->taken, &board->verdict);
}

static inline uint64_t fasunqir_board_feed(struct fasunqir_board *board, uint16_t cycle, uint64_t *words,
                                           size_t words_len) {
    return fasunqir_feed(board->sheet, board->cycles, &board->taken, &board->verdict, cycle, words, words_len);
}

#ifdef __cplusplus
}
#endif

#endif
