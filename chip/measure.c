/* What the library takes on the Cortex-M33, as chip/measure tells it: a line `name number` for each measurement. Instructions
 * are counted by qemu (-icount shift=0: each takes a nanosecond of emulated time, whatever it is), so that they are neither
 * cycles nor waits for a memory. SysTick counts at the board's 20 MHz, a tick to 50 instructions, and everything is repeated.
 * Stack is counted by painting it. */
#include "huskerivory.h"

#include <stdio.h>
#include <string.h>

enum { BYTES = 255, ANSWERS = 64 * (3 + 2 * BYTES), PLACES = 1100, LONGEST = 65535 };

/* ---- A transaction, with the answers of a bus that is always ready */

enum { ISR_IDLE = 0x01, ISR_BYTE_OUT = 0x03, ISR_BYTE_IN = 0x04, ISR_STOP = 0x20, ISR_NEXT = 0x80 };

static huskerivory_description description;
static uint8_t operations[4 * 64], buffer[LONGEST], answers[4 * ANSWERS], begun[HUSKERIVORY_SAVED_CALL];
static uint8_t saved[HUSKERIVORY_SAVED_CALL], entries[PLACES * HUSKERIVORY_LOG_ENTRY];
static uint32_t operations_len, buffer_len, answer_count;
static uint8_t *lent; /* the answers of the next advance */
static uint32_t lent_len, log_len;
static huskerivory_advanced last;
static uint32_t report;

static void answer(uint32_t word) {
    huskerivory_put_word(answers + 4 * answer_count++, word);
}

/* So many operations of a length each; the answers are those to the first piece of each, which is all of it up to 255 bytes. */
static void transaction(uint32_t count, uint32_t length, int reads) {
    memset(&description, 0, sizeof description);
    description.call = HUSKERIVORY_CALL_TRANSACTION;
    description.address = 0x50;
    operations_len = 4 * count;
    buffer_len = count * length;
    answer_count = 0;
    for (uint32_t i = 0; i < count; i++) {
        huskerivory_put_word(operations + 4 * i, reads ? length | HUSKERIVORY_OPERATION_READ : length);
        answer(ISR_IDLE);
        answer(0); /* CR2: the start was sent */
        for (uint32_t byte = 0; byte < length && byte < BYTES; byte++) {
            answer(reads ? ISR_BYTE_IN : ISR_BYTE_OUT);
            if (reads) {
                answer(byte);
            }
        }
        answer(i + 1 < count || length > BYTES ? ISR_NEXT : ISR_STOP);
    }
}

static void event(void) {
    memset(&description, 0, sizeof description);
    description.call = HUSKERIVORY_CALL_WAIT_FOR_EVENT;
    operations_len = buffer_len = answer_count = 0;
    answer(0x00850009); /* TXE and ADDR: a controller reads from address 0x42 */
}

/* ---- One call of the library each, as a function that can be repeated; `depth` is the stack pointer at its call */

static uint8_t *depth;

static inline void note_depth(void) {
    __asm__ volatile("mov %0, sp" : "=r"(depth));
}

static void nothing(void) {
    note_depth();
}

static void restore(void) {
    note_depth();
    memcpy(saved, begun, sizeof saved);
    __asm__ volatile("" : : : "memory");
}

static void begin(void) {
    note_depth();
    report = huskerivory_begin(&description, operations, operations_len, buffer, buffer_len, begun, sizeof begun);
}

static void next(void) {
    uint32_t value;
    note_depth();
    report = huskerivory_next(&description, operations, operations_len, begun, sizeof begun, buffer, buffer_len, &value);
}

static void advance(void) {
    note_depth();
    memcpy(saved, begun, sizeof saved);
    report = huskerivory_advance(&description, operations, operations_len, saved, sizeof saved, buffer, buffer_len, lent,
                                 lent_len, entries, log_len, &last);
}

static void timing(void) {
    uint32_t timingr;
    note_depth();
    report = huskerivory_timing(250000000, 400000, &timingr);
}

static void pack(void) {
    static const huskerivory_timing_fields fields = {6, 15, 11, 28, 57};
    uint32_t timingr;
    note_depth();
    report = huskerivory_pack(&fields, &timingr);
}

static void unpack(void) {
    huskerivory_timing_fields fields;
    note_depth();
    huskerivory_unpack(0x60FB1C39, &fields);
}

static void abi(void) {
    uint32_t sizes[HUSKERIVORY_ABI_SIZES];
    note_depth();
    report = huskerivory_abi(sizes);
}

/* A log, and paper for its page. */
static uint8_t paper[9 * HUSKERIVORY_PAGE_LINE];
static uint64_t page_len;

static void page(void) {
    note_depth();
    report = huskerivory_page(entries, log_len, paper, sizeof paper, &page_len);
}

/* The log of document 01's run, whose entries take a line each. */
static void log_worked(void) {
    static const uint32_t words[18] = {0x104, 0x020220A0, 0x18,  1, 0x04, 0x020200A0, 0x18, 3,     0x128,
                                       0x12,  0x18,       3, 0x128, 0x34, 0x18,       0x21, 0x11C, 0x20};
    log_len = sizeof words;
    for (uint32_t i = 0; i < sizeof words / sizeof words[0]; i++) {
        huskerivory_put_word(entries + 4 * i, words[i]);
    }
}

/* One entry, which takes the most lines. */
static void log_most(void) {
    log_len = HUSKERIVORY_LOG_ENTRY;
    huskerivory_put_word(entries, 0x1C);
    huskerivory_put_word(entries + 4, UINT32_MAX);
}

/* Speed bands: a table of so many bytes, and what a timing by it left. */
static uint8_t bands[HUSKERIVORY_BANDS * HUSKERIVORY_BAND];
static uint32_t bands_len, by_bands;

static void load_bands(void) {
    note_depth();
    report = huskerivory_load_bands(bands, bands_len);
}

/* The clock and frequency of `timing`, which are of the last row. */
static void timing_by_bands(void) {
    note_depth();
    report = huskerivory_timing_by_bands(bands, bands_len, 250000000, 400000, &by_bands);
}

/* So many rows, the last of them document 01's of 400 kHz. */
static void make_bands(uint32_t count) {
    huskerivory_band band = {400000, 8000000, 96, 3000000, 1000000, HUSKERIVORY_SHAPE_DOUBLE};
    bands_len = count * HUSKERIVORY_BAND;
    for (uint32_t left = count; left > 0; left--) {
        huskerivory_put_band(bands + (left - 1) * HUSKERIVORY_BAND, &band);
        band.upper -= 10000;
    }
}

/* ---- Instructions */

#define SYST_CSR (*(volatile uint32_t *)0xE000E010)
#define SYST_RVR (*(volatile uint32_t *)0xE000E014)
#define SYST_CVR (*(volatile uint32_t *)0xE000E018)

enum { PER_TICK = 50, TIMES = 1000, SYST_MOST = 0xFFFFFF };

static uint32_t ticks(void (*body)(void), uint32_t times) {
    uint32_t start = SYST_CVR;
    for (uint32_t i = 0; i < times; i++) {
        body();
    }
    return (start - SYST_CVR) & SYST_MOST; /* it counts down */
}

/* Of one call, with its arguments and without `beside`, which the body does too. */
static uint32_t instructions(void (*body)(void), void (*beside)(void), uint32_t times) {
    uint32_t empty = ticks(beside, times);
    return ((ticks(body, times) - empty) * PER_TICK + times / 2) / times;
}

static void tell(const char *name, uint32_t number) {
    printf("%s %u\n", name, (unsigned)number);
}

static void expect(const char *name, uint32_t expected) {
    if (report != expected) {
        printf("%s said %u, and not %u\n", name, (unsigned)report, (unsigned)expected);
    }
}

static void tell_advance(const char *name, uint32_t word, uint32_t expected) {
    static uint8_t one[4];
    huskerivory_put_word(one, word);
    lent = one;
    lent_len = sizeof one;
    log_len = 8 * HUSKERIVORY_LOG_ENTRY;
    tell(name, instructions(advance, restore, TIMES));
    expect(name, expected);
}

/* Advances by one answer at a time, until so many were used; the saved call is then that of `begun`. */
static void go_on(uint32_t count) {
    begin();
    expect("begin", 0);
    log_len = 8 * HUSKERIVORY_LOG_ENTRY;
    for (uint32_t used = 0, turn = 0; used < count; turn++) {
        lent = answers + 4 * used;
        lent_len = turn == 0 ? 0 : 4;
        advance();
        expect("an advance on the way", HUSKERIVORY_REPORT_WAITING);
        memcpy(begun, saved, sizeof begun);
        used += (uint32_t)last.used;
    }
}

/* One answer to an advance, in the last of so many operations. */
static void one_answer(uint32_t count, const char *idle, const char *out, const char *in, const char *in_byte) {
    transaction(count, 8, 0);
    go_on(11 * (count - 1) + 4); /* two bytes are out */
    tell_advance(idle, ISR_IDLE, HUSKERIVORY_REPORT_WAITING);
    tell_advance(out, ISR_BYTE_OUT, HUSKERIVORY_REPORT_WAITING);
    transaction(count, 8, 1);
    go_on(19 * (count - 1) + 6); /* two bytes are in */
    tell_advance(in, ISR_BYTE_IN, HUSKERIVORY_REPORT_WAITING);
    go_on(19 * (count - 1) + 7); /* and RXNE was seen */
    tell_advance(in_byte, 0xAB, HUSKERIVORY_REPORT_WAITING);
}

/* All answers and all places: instructions of an access, in tenths. */
static void uncut(const char *name, int reads) {
    transaction(1, BYTES, reads);
    begin();
    lent = answers;
    lent_len = 4 * answer_count;
    log_len = sizeof entries;
    uint32_t whole = instructions(advance, restore, 20);
    expect(name, HUSKERIVORY_REPORT_DONE);
    tell(name, 10 * whole / (uint32_t)last.written);
}

/* A page of so many bytes. */
static void tell_page(const char *name, uint32_t bytes) {
    tell(name, instructions(page, nothing, 100));
    if (report != 0 || page_len != bytes) {
        printf("%s said %u and %u bytes\n", name, (unsigned)report, (unsigned)page_len);
    }
}

/* Loading a table of so many rows, and the timing by it, which is document 01's. */
static void tell_bands(uint32_t count, const char *load, const char *timing) {
    make_bands(count);
    tell(load, instructions(load_bands, nothing, TIMES));
    expect(load, 0);
    tell(timing, instructions(timing_by_bands, nothing, TIMES));
    expect(timing, 0);
    if (by_bands != 0x60FB1C39) {
        printf("%s left %08X\n", timing, (unsigned)by_bands);
    }
}

/* ---- The same at 255 bytes and at 65,535: nothing that an advance does goes by the length of an operation */

/* Where in a saved call the number of its piece stands. */
enum { PIECE = 4 };

/* A measurement whose name is made of what was measured, the length of the operation and the number of the running piece. */
static const char *named(const char *what, uint32_t length, uint32_t piece) {
    static char name[40];
    snprintf(name, sizeof name, "%s-%u-%u", what, (unsigned)length, (unsigned)piece);
    return name;
}

/* Goes on, in the first piece of one operation, until so many answers were used, and takes that place in another piece. */
static void stand(uint32_t length, int reads, uint32_t count, uint32_t piece) {
    transaction(1, length, reads);
    go_on(count);
    huskerivory_put_word(begun + PIECE, piece);
}

/* An advance over the 200 accesses of a hundred bytes, with so many answers from the given one on. */
static void tell_hundred(const char *name, uint32_t from, uint32_t count) {
    lent = answers + 4 * from;
    lent_len = 4 * count;
    log_len = 200 * HUSKERIVORY_LOG_ENTRY;
    tell(name, instructions(advance, restore, TIMES));
    expect(name, HUSKERIVORY_REPORT_FULL);
}

/* Advances in one piece of an operation: one answer each, at its third byte; a hundred bytes in one; and the one that goes on to the
 * next piece, if there is one. */
static void in_piece(uint32_t length, uint32_t piece) {
    stand(length, 0, 4, piece);
    tell_advance(named("idle", length, piece), ISR_IDLE, HUSKERIVORY_REPORT_WAITING);
    tell_advance(named("out", length, piece), ISR_BYTE_OUT, HUSKERIVORY_REPORT_WAITING);
    tell_hundred(named("hundred-out", length, piece), 4, 100);
    stand(length, 1, 6, piece);
    tell_advance(named("in", length, piece), ISR_BYTE_IN, HUSKERIVORY_REPORT_WAITING);
    tell_hundred(named("hundred-in", length, piece), 6, 200);
    stand(length, 1, 7, piece);
    tell_advance(named("in-byte", length, piece), 0xAB, HUSKERIVORY_REPORT_WAITING);
    if (BYTES * (piece + 1) < length) {
        stand(length, 0, 2 + BYTES, piece);
        tell_advance(named("next-piece", length, piece), ISR_NEXT, HUSKERIVORY_REPORT_WAITING);
    }
}

/* The last of the most pieces, 320: 63 operations of no byte and one of 65,535 bytes. */
static void in_last_piece(void) {
    stand(LONGEST, 0, 4, 319);
    memset(operations, 0, sizeof operations);
    operations_len = sizeof operations;
    huskerivory_put_word(operations + 4 * 63, LONGEST);
    tell_advance("idle-most", ISR_IDLE, HUSKERIVORY_REPORT_WAITING);
    tell_advance("out-most", ISR_BYTE_OUT, HUSKERIVORY_REPORT_WAITING);
}

static void tell_pieces(void) {
    in_piece(BYTES, 0);
    in_piece(2 * BYTES, 0);
    in_piece(2 * BYTES, 1);
    in_piece(LONGEST, 0);
    in_piece(LONGEST, 128);
    in_piece(LONGEST, 255);
    in_piece(LONGEST, 256);
    in_last_piece();
}

static void tell_instructions(void) {
    SYST_RVR = SYST_MOST;
    SYST_CVR = 0;
    SYST_CSR = 5; /* on, by the core's clock, without an interrupt */
    one_answer(1, "idle-1", "out-1", "in-1", "in-byte-1");
    one_answer(64, "idle-64", "out-64", "in-64", "in-byte-64");
    uncut("uncut-out", 0);
    uncut("uncut-in", 1);
    transaction(1, 8, 0);
    tell("begin-1", instructions(begin, nothing, TIMES));
    tell("next-1", instructions(next, nothing, TIMES));
    transaction(64, 8, 0);
    tell("begin-64", instructions(begin, nothing, TIMES));
    tell("next-64", instructions(next, nothing, TIMES));
    event();
    tell("event-begin", instructions(begin, nothing, TIMES));
    tell_advance("event", 0x00850009, HUSKERIVORY_REPORT_EVENT_READ);
    tell("timing", instructions(timing, nothing, TIMES));
    tell("pack", instructions(pack, nothing, TIMES));
    tell("unpack", instructions(unpack, nothing, TIMES));
    tell("abi", instructions(abi, nothing, TIMES));
    tell_bands(2, "load-2", "by-bands-2");
    tell_bands(HUSKERIVORY_BANDS, "load-16", "by-bands-16");
    log_worked();
    tell_page("page-worked", 9 * HUSKERIVORY_PAGE_LINE);
    log_most();
    tell_page("page-most", HUSKERIVORY_PAGE_ENTRY);
    tell_pieces();
}

/* ---- Stack */

enum { PAINT = 0xC5 };
extern uint8_t stack_limit[];

/* What a call of the library took below the stack pointer of its caller. */
__attribute__((noinline)) static void tell_stack(const char *name, void (*body)(void)) {
    nothing();
    for (volatile uint8_t *at = stack_limit; at < depth; at++) {
        *at = PAINT;
    }
    body();
    uint8_t *lowest = stack_limit;
    while (lowest < depth && *lowest == PAINT) {
        lowest++;
    }
    /* what is saved there may look like paint; a stack is aligned to 8 bytes */
    tell(name, ((uint32_t)(depth - lowest) + 7) / 8 * 8);
}

static void tell_stacks(void) {
    transaction(64, BYTES, 0);
    begin();
    tell_stack("stack-begin", begin);
    tell_stack("stack-next", next);
    go_on(2);
    lent = answers + 4 * 2;
    lent_len = 4;
    tell_stack("stack-advance-1", advance);
    expect("an advance with one answer", HUSKERIVORY_REPORT_WAITING);
    begin();
    lent = answers;
    lent_len = 4 * answer_count - 1; /* a part of an answer at the end takes the most */
    log_len = sizeof entries;
    tell_stack("stack-advance", advance);
    expect("an advance with all answers", HUSKERIVORY_REPORT_FULL);
    tell_stack("stack-timing", timing);
    tell_stack("stack-pack", pack);
    tell_stack("stack-unpack", unpack);
    tell_stack("stack-abi", abi);
    make_bands(HUSKERIVORY_BANDS);
    tell_stack("stack-load_bands", load_bands);
    tell_stack("stack-timing_by_bands", timing_by_bands);
    log_most();
    tell_stack("stack-page", page);
}

int main(void) {
    tell_instructions();
    tell_stacks();
    return 0;
}
