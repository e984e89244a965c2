/* Drives the library from C and holds it to document 01: version and sizes, the layout of the structs, the worked timings, the worked
 * run of its section on the bench, cut in two ways, operations that go in pieces (document 02, R-1), service pages, a board's own
 * speed bands, what a target's write counts, and refusals, which must leave everything as it was. Prints a line for each group
 * of checks; the exit status is 1 if one failed. It runs on a core of 32 bits as well: calls are kept in static memory, since their logs are
 * too long for a small stack, and numbers are printed as `unsigned long`, which every printf knows. */
#include "huskerivory.h"

#include <stddef.h>
#include <stdio.h>
#include <string.h>

/* ---- Layout: what the library was built with */

#define PLACE(type, field, place) _Static_assert(offsetof(type, field) == (place), #type "." #field)
#define SIZE(type, size) _Static_assert(sizeof(type) == (size), #type)

SIZE(huskerivory_description, 64);
PLACE(huskerivory_description, call, 0);
PLACE(huskerivory_description, address, 4);
PLACE(huskerivory_description, ten, 8);
PLACE(huskerivory_description, listen, 12);
PLACE(huskerivory_description, timingr, 16);
PLACE(huskerivory_description, configured, 20);
PLACE(huskerivory_description, own, 24);
PLACE(huskerivory_description, own_ten, 28);
PLACE(huskerivory_description, secondary, 32);
PLACE(huskerivory_description, mask, 36);
PLACE(huskerivory_description, reserved, 40);
SIZE(huskerivory_advanced, 32);
PLACE(huskerivory_advanced, value, 0);
PLACE(huskerivory_advanced, awaited, 8);
PLACE(huskerivory_advanced, used, 16);
PLACE(huskerivory_advanced, written, 24);
SIZE(huskerivory_timing_fields, 5);
PLACE(huskerivory_timing_fields, presc, 0);
PLACE(huskerivory_timing_fields, scldel, 1);
PLACE(huskerivory_timing_fields, sdadel, 2);
PLACE(huskerivory_timing_fields, sclh, 3);
PLACE(huskerivory_timing_fields, scll, 4);
SIZE(huskerivory_band, 24);
PLACE(huskerivory_band, upper, 0);
PLACE(huskerivory_band, least_clock, 4);
PLACE(huskerivory_band, d, 8);
PLACE(huskerivory_band, sdadel, 12);
PLACE(huskerivory_band, scldel, 16);
PLACE(huskerivory_band, shape, 20);

/* ---- Checks in groups */

static int failed_groups;
static int failed_line; /* of the group's first failed check */
static const char *failed_check;

#define CHECK(condition) check((condition), #condition, __LINE__)

static void check(int holds, const char *what, int line) {
    if (!holds && failed_line == 0) {
        failed_line = line;
        failed_check = what;
    }
}

static void run_group(const char *name, void (*body)(void)) {
    failed_line = 0;
    body();
    if (failed_line == 0) {
        printf("ok      %s\n", name);
    } else {
        printf("FAILED  %s: line %d: %s\n", name, failed_line, failed_check);
        failed_groups++;
    }
}

/* ---- A call with all that is lent to it; its log is that of all its advances, and `used` counts their answers */

enum { PLACES = 1040, BYTES = 511, BLANK = 0xA5 };

/* Places in a saved call: the accesses, the step and the bytes put out. */
enum { ACCESSES = 16, STEP = 28, OUT = 32 };

/* Stands where a number is to be written, and is no such number. */
#define UNWRITTEN UINT32_C(0xA5A5A5A5)

typedef struct {
    huskerivory_description description;
    uint8_t operations[8];
    size_t operations_len;
    uint8_t buffer[BYTES];
    size_t buffer_len;
    uint8_t saved[HUSKERIVORY_SAVED_CALL];
    uint8_t log[PLACES * HUSKERIVORY_LOG_ENTRY];
    size_t entries;
    size_t used;
} call;

static uint32_t begin_in(call *c, size_t saved_len) {
    return huskerivory_begin(&c->description, c->operations, c->operations_len, c->buffer, c->buffer_len, c->saved, saved_len);
}

static uint32_t begin(call *c) {
    return begin_in(c, sizeof c->saved);
}

/* The next access, with its register's offset or the number of the refusal. */
typedef struct {
    uint32_t kind, value;
} next_access;

/* So many bytes of the saved call are lent. */
static next_access next_of(const call *c, size_t saved_len) {
    next_access access = {UNWRITTEN, UNWRITTEN};
    access.kind = huskerivory_next(&c->description, c->operations, c->operations_len, c->saved, saved_len, c->buffer,
                                   c->buffer_len, &access.value);
    return access;
}

static next_access next(const call *c) {
    return next_of(c, sizeof c->saved);
}

/* A report with the numbers that came with it. */
typedef struct {
    uint32_t report;
    huskerivory_advanced answer;
} advanced;

/* One advance with what is lent to it; the numbers are told only if they are written. */
static advanced advance_with(call *c, size_t saved_len, const uint8_t *answers, size_t answers_len, uint8_t *log, size_t log_len) {
    advanced a = {UNWRITTEN, {UNWRITTEN, UNWRITTEN, UNWRITTEN, UNWRITTEN}};
    a.report = huskerivory_advance(&c->description, c->operations, c->operations_len, c->saved, saved_len, c->buffer,
                                   c->buffer_len, answers, answers_len, log, log_len, &a.answer);
    return a;
}

/* One advance with a log of so many places; its entries are added to the call's. */
static advanced advance(call *c, const uint8_t *answers, size_t answers_len, size_t places) {
    advanced a = advance_with(c, sizeof c->saved, answers, answers_len, c->log + c->entries * HUSKERIVORY_LOG_ENTRY,
                              places * HUSKERIVORY_LOG_ENTRY);
    c->entries += (size_t)a.answer.written;
    c->used += (size_t)a.answer.used;
    return a;
}

/* Document 01's bench file of one call: number, argument, head words, answer words; the operations and bytes; the answers. */
static const uint32_t worked_file[14] = {1, 7, 0x50, 4, 5, 1, 2, 0x12, 0x34, 1, 0x020200A0, 3, 3, 0x21};

static const char worked_text[] = "7 done 0 5 9\n"
                                  "w 04 020220A0\n"
                                  "r 18 00000001\n"
                                  "r 04 020200A0\n"
                                  "r 18 00000003\n"
                                  "w 28 00000012\n"
                                  "r 18 00000003\n"
                                  "w 28 00000034\n"
                                  "r 18 00000021\n"
                                  "w 1C 00000020\n"
                                  "b 1234\n";

static const uint32_t *const worked_answers = worked_file + 9;

static void make_worked(call *c) {
    memset(c, 0, sizeof *c);
    memset(c->log, BLANK, sizeof c->log);
    c->description.call = worked_file[1];
    c->description.address = worked_file[2];
    c->operations_len = 4 * worked_file[5];
    huskerivory_put_word(c->operations, worked_file[6]);
    c->buffer_len = worked_file[6];
    for (size_t i = 0; i < c->buffer_len; i++) {
        c->buffer[i] = (uint8_t)worked_file[7 + i];
    }
}

/* What the bench would print of a call that ended. */
static void print_call(char *text, size_t size, const call *c, advanced last) {
    static const char *const outcomes[] = {"done",          "bus",        "arbitration", "nack",      "stopped", "expected-write",
                                           "expected-read", "event-read", "event-write", "event-stop"};
    size_t at = (size_t)snprintf(text, size, "%lu %s %lu %lu %lu\n", (unsigned long)c->description.call,
                                 last.report < 10 ? outcomes[last.report] : "?", (unsigned long)last.answer.value,
                                 (unsigned long)c->used, (unsigned long)c->entries);
    for (size_t i = 0; i < c->entries && at < size; i++) {
        uint32_t code = huskerivory_get_word(c->log + i * HUSKERIVORY_LOG_ENTRY);
        uint32_t value = huskerivory_get_word(c->log + i * HUSKERIVORY_LOG_ENTRY + 4);
        at += (size_t)snprintf(text + at, size - at, "%c %02lX %08lX\n", code & HUSKERIVORY_LOG_WRITE ? 'w' : 'r',
                               (unsigned long)(code & ~HUSKERIVORY_LOG_WRITE), (unsigned long)value);
    }
    for (size_t i = 0; i < c->buffer_len && at < size; i++) {
        at += (size_t)snprintf(text + at, size - at, "%s%02X", i == 0 ? "b " : "", (unsigned)c->buffer[i]);
    }
    if (at < size) {
        snprintf(text + at, size - at, "\n");
    }
}

static void check_text(const call *c, advanced last) {
    static char text[512];
    print_call(text, sizeof text, c, last);
    CHECK(strcmp(text, worked_text) == 0);
    for (size_t i = c->entries * HUSKERIVORY_LOG_ENTRY; i < sizeof c->log; i++) {
        CHECK(c->log[i] == BLANK);
    }
    CHECK(huskerivory_get_word(c->saved) == 7);
    CHECK(huskerivory_get_word(c->saved + ACCESSES) == 9);
    CHECK(huskerivory_get_word(c->saved + STEP) == 0);
    CHECK(huskerivory_get_word(c->saved + OUT) == 0);
}

/* Answers what the next access asks for, as firmware does: a read is made, and its word lent to one advance. */
static advanced answer_once(call *c, size_t places) {
    uint8_t answer[4];
    next_access access = next(c);
    huskerivory_put_word(answer, worked_answers[c->used < 5 ? c->used : 4]);
    return advance(c, answer, access.kind == HUSKERIVORY_ACCESS_READ ? sizeof answer : 0, places);
}

/* ---- The groups */

/* What the library says of itself is what the header says of it, and what the compiler made of the header. */
static void check_abi(void) {
    static const uint32_t expected[HUSKERIVORY_ABI_SIZES] = HUSKERIVORY_ABI_EXPECTED;
    static const uint32_t here[HUSKERIVORY_ABI_SIZES] = {
        sizeof(huskerivory_description), 36, sizeof(huskerivory_advanced), 8, 64, 65535, HUSKERIVORY_REPORT_FULL + 1, 46};
    uint32_t sizes[HUSKERIVORY_ABI_SIZES];
    for (size_t i = 0; i < HUSKERIVORY_ABI_SIZES; i++) {
        sizes[i] = UNWRITTEN;
    }
    CHECK(huskerivory_abi(sizes) == HUSKERIVORY_ABI);
    for (size_t i = 0; i < HUSKERIVORY_ABI_SIZES; i++) {
        CHECK(sizes[i] == expected[i]);
        CHECK(sizes[i] == here[i]);
    }
}

/* What a clock and a frequency come to: a refusal and 0, or 0 and a TIMINGR word. */
typedef struct {
    uint32_t clock, frequency, refusal, timingr;
} timing_case;

static const timing_case worked_timings[14] = {
    {250000000, 400000, 0, 0x60FB1C39}, {250000000, 100000, 0, 0xF0F74D4D}, {8000000, 400000, 0, 0x0072050B},
    {2000000, 100000, 0, 0x00410909},   {153601536, 100001, 0, 0xF0831F3F}, {153701537, 100001, 5, 0},
    {65784000, 8000, 0, 0xF072FFFF},    {65792000, 8000, 5, 0},             {2000000, 1953, 0, 0x30417F7F},
    {2000000, 1951, 6, 0},              {2000000, 0, 1, 0},                 {250000001, 400000, 2, 0},
    {399999, 100000, 3, 0},             {1999999, 100000, 4, 0},
};

static void check_timings(void) {
    for (size_t i = 0; i < 14; i++) {
        uint32_t timingr = UNWRITTEN;
        CHECK(huskerivory_timing(worked_timings[i].clock, worked_timings[i].frequency, &timingr) == worked_timings[i].refusal);
        CHECK(timingr == worked_timings[i].timingr);
    }
}

static void check_unpacked(uint32_t timingr, huskerivory_timing_fields expected) {
    huskerivory_timing_fields f = {BLANK, BLANK, BLANK, BLANK, BLANK};
    huskerivory_unpack(timingr, &f);
    CHECK(memcmp(&f, &expected, sizeof f) == 0);
}

static void check_packed(huskerivory_timing_fields fields, uint32_t refusal, uint32_t timingr) {
    uint32_t word = UNWRITTEN;
    CHECK(huskerivory_pack(&fields, &word) == refusal);
    CHECK(word == timingr);
}

static void check_packing(void) {
    static const huskerivory_timing_fields worked = {6, 15, 11, 28, 57}, most = {15, 15, 15, 255, 255};
    static const huskerivory_timing_fields wide[3] = {{16, 0, 0, 0, 0}, {0, 16, 0, 0, 0}, {0, 0, 16, 0, 0}};
    check_unpacked(0x60FB1C39, worked);
    check_packed(worked, 0, 0x60FB1C39);
    check_unpacked(0xFFFFFFFF, most);
    check_packed(most, 0, 0xF0FFFFFF);
    for (int i = 0; i < 3; i++) {
        check_packed(wide[i], HUSKERIVORY_REFUSAL_FIELD_WIDE, 0);
    }
}

/* One answer to each advance: it says which register is read next, as huskerivory_next does. */
static void check_worked_run(void) {
    static const uint32_t awaited[5] = {0x18, 0x04, 0x18, 0x18, 0x18};
    static call c, over;
    make_worked(&c);
    CHECK(begin(&c) == 0);
    next_access access = next(&c);
    CHECK(access.kind == HUSKERIVORY_ACCESS_WRITE && access.value == 0x04);
    advanced a = answer_once(&c, 8);
    for (size_t i = 0; i < 5; i++) {
        CHECK(a.report == HUSKERIVORY_REPORT_WAITING && a.answer.value == 0 && a.answer.awaited == awaited[i]);
        access = next(&c);
        CHECK(access.kind == HUSKERIVORY_ACCESS_READ && access.value == awaited[i]);
        a = answer_once(&c, 8);
        CHECK(a.answer.used == 1 && a.answer.written >= 1);
    }
    CHECK(a.report == HUSKERIVORY_REPORT_DONE && a.answer.awaited == 0);
    access = next(&c);
    CHECK(access.kind == HUSKERIVORY_ACCESS_OVER && access.value == 0);
    check_text(&c, a);

    over = c;
    a = answer_once(&c, 8);
    CHECK(a.report == HUSKERIVORY_REPORT_DONE && a.answer.value == 0 && a.answer.used == 0 && a.answer.written == 0);
    CHECK(memcmp(&c, &over, sizeof c) == 0);
}

/* One log place to each advance, and none to some: the same accesses. */
static void check_places(void) {
    static call c;
    make_worked(&c);
    CHECK(begin(&c) == 0);
    for (size_t i = 0; i < 9; i++) {
        advanced a = answer_once(&c, 0);
        CHECK(a.report == HUSKERIVORY_REPORT_FULL && a.answer.used == 0 && a.answer.written == 0);
        a = answer_once(&c, 1);
        CHECK(a.answer.written == 1 && c.entries == i + 1);
        CHECK(a.report == (uint32_t)(i < 8 ? HUSKERIVORY_REPORT_FULL : HUSKERIVORY_REPORT_DONE));
        if (i == 8) {
            check_text(&c, a);
        }
    }
}

/* The reserved words are not looked at: with any others the run is the same. */
static void check_reserved(void) {
    static call c;
    make_worked(&c);
    memset(c.description.reserved, BLANK, sizeof c.description.reserved);
    CHECK(begin(&c) == 0);
    advanced a = answer_once(&c, 8);
    while (a.report == HUSKERIVORY_REPORT_WAITING) {
        a = answer_once(&c, 8);
    }
    check_text(&c, a);
}

/* What the registers answer to a call. */
typedef struct {
    uint8_t words[4 * PLACES];
    size_t count;
} answers;

static void answer(answers *a, uint32_t word) {
    huskerivory_put_word(a->words + 4 * a->count++, word);
}

static void answer_all(answers *a, const uint32_t *words, size_t count) {
    for (size_t i = 0; i < count; i++) {
        answer(a, words[i]);
    }
}

/* Advances with so many answers, and then with so many at a time, until the call has ended or none is left. */
static advanced advance_by(call *c, const answers *a, size_t first, size_t at_once) {
    size_t count = first;
    advanced last;
    do {
        size_t left = a->count - c->used;
        last = advance(c, a->words + 4 * c->used, 4 * (count < left ? count : left), PLACES - c->entries);
        count = at_once;
    } while (last.report == HUSKERIVORY_REPORT_WAITING && c->used < a->count);
    return last;
}

/* Those to one piece of a transaction, on a bus that is always ready: TXE, CR2 without START, then TXIS for each byte or RXNE and the
 * byte, then the flag that ends it. */
static void answer_piece(answers *a, uint32_t reads, size_t bytes, uint32_t end) {
    answer(a, 0x01);
    answer(a, 0);
    for (size_t i = 0; i < bytes; i++) {
        answer(a, reads ? 0x04 : 0x02);
        if (reads) {
            answer(a, (uint32_t)i);
        }
    }
    answer(a, end);
}

/* A transaction of one operation, or two, over zero bytes. */
static void make_list(call *c, uint32_t first, uint32_t second) {
    make_worked(c);
    huskerivory_put_word(c->operations, first);
    huskerivory_put_word(c->operations + 4, second);
    c->operations_len = second == 0 ? 4 : 8;
    c->buffer_len = (first & 0xFFFF) + (second & 0xFFFF);
    memset(c->buffer, 0, sizeof c->buffer);
}

/* Advances until the call has ended, with all answers that are left and a log of so many places each time. */
static void run_long(call *c, uint32_t bytes, const answers *a, size_t places) {
    make_list(c, bytes, 0);
    for (size_t i = 0; i < bytes; i++) {
        c->buffer[i] = (uint8_t)(i + 1);
    }
    CHECK(begin(c) == 0);
    advanced last;
    do {
        size_t left = PLACES - c->entries;
        last = advance(c, a->words + 4 * c->used, 4 * (a->count - c->used), left < places ? left : places);
    } while (last.report == HUSKERIVORY_REPORT_FULL && last.answer.written == places);
    CHECK(last.report == HUSKERIVORY_REPORT_DONE && last.answer.value == 0);
}

/* So many bytes out, in one advance and in many: each byte once and in order, and the same accesses however it is cut. */
static void check_long_of(uint32_t bytes, const answers *a, size_t entries) {
    static const size_t places[] = {1, 2, 7, 8, 9, 127, 128, 129, 135, 136, 137, 300, 514, 515, 516, 522, 523};
    static call whole, cut;
    size_t out = 0;
    run_long(&whole, bytes, a, PLACES);
    CHECK(whole.used == a->count && whole.entries == entries);
    for (size_t i = 0; i < whole.entries; i++) {
        const uint8_t *entry = whole.log + i * HUSKERIVORY_LOG_ENTRY;
        if (huskerivory_get_word(entry) == (HUSKERIVORY_LOG_WRITE | 0x28)) {
            out++;
            CHECK(huskerivory_get_word(entry + 4) == (uint8_t)out);
        }
    }
    CHECK(out == bytes);
    for (size_t i = 0; i < sizeof places / sizeof places[0]; i++) {
        run_long(&cut, bytes, a, places[i]);
        CHECK(memcmp(&cut, &whole, sizeof cut) == 0);
    }
}

/* One piece, the longest: 515 accesses over 258 answers. Two pieces: 523 accesses over 263 answers. */
static void check_long(void) {
    static answers one, two;
    answer_piece(&one, 0, 255, 0x20);
    check_long_of(255, &one, 515);
    answer_piece(&two, 0, 255, 0x80);
    answer_piece(&two, 0, 2, 0x20);
    check_long_of(257, &two, 523);
}

/* The words that a log writes to CR2, as far as there is room; returns how many there are. */
static size_t written_to_cr2(const call *c, uint32_t *words, size_t room) {
    size_t count = 0;
    for (size_t i = 0; i < c->entries; i++) {
        const uint8_t *entry = c->log + i * HUSKERIVORY_LOG_ENTRY;
        if (huskerivory_get_word(entry) == (HUSKERIVORY_LOG_WRITE | 0x04)) {
            if (count < room) {
                words[count] = huskerivory_get_word(entry + 4);
            }
            count++;
        }
    }
    return count;
}

/* Runs a call of zero bytes to its end: `done 0 USED ENTRIES` on the bench, and these words written to CR2. */
static void check_pieces_of(call *c, const answers *a, size_t used, size_t entries, const uint32_t *expected, size_t count) {
    uint32_t words[3] = {UNWRITTEN, UNWRITTEN, UNWRITTEN};
    CHECK(begin(c) == 0);
    advanced last = advance(c, a->words, 4 * a->count, PLACES);
    CHECK(last.report == HUSKERIVORY_REPORT_DONE && last.answer.value == 0);
    CHECK(a->count == used && c->used == used && c->entries == entries);
    CHECK(written_to_cr2(c, words, 3) == count && memcmp(words, expected, count * sizeof words[0]) == 0);
}

/* An operation over 255 bytes goes on with RELOAD and a second write of CR2, without START; one of no byte is one empty piece. */
static void check_pieces(void) {
    static const uint32_t two[2] = {0x01FF20A0, 0x02010000}, empty[1] = {0x020020A0};
    static const uint32_t ten_bits[3] = {0x00012923, 0x01FF3D23, 0x02010400};
    static call c;
    static answers a;
    make_list(&c, 256, 0);
    a.count = 0;
    answer_piece(&a, 0, 255, 0x80);
    answer_piece(&a, 0, 1, 0x20);
    check_pieces_of(&c, &a, 262, 521, two, 2);

    make_list(&c, 1, HUSKERIVORY_OPERATION_READ | 256);
    c.description.address = 0x123;
    c.description.ten = 1;
    a.count = 0;
    answer_piece(&a, 0, 1, 0x40);
    answer_piece(&a, 1, 255, 0x80);
    answer_piece(&a, 1, 1, 0x20);
    check_pieces_of(&c, &a, 522, 527, ten_bits, 3);
    for (size_t i = 0; i < 256; i++) {
        CHECK(c.buffer[1 + i] == (i < 255 ? i : 0));
    }

    make_list(&c, 0, 0);
    a.count = 0;
    answer_piece(&a, 0, 0, 0x20);
    check_pieces_of(&c, &a, 3, 5, empty, 1);
}

/* The longest buffer, and one byte more. */
static uint8_t longest[HUSKERIVORY_BUFFER + 1];

/* The longest operation, out or in, one answer to an advance. The bus is always ready: CR2 has no START when it is read, and once a
 * piece is through TCR is up, after the last STOPF. */
static void check_longest_of(uint32_t reads) {
    static uint8_t saved[HUSKERIVORY_SAVED_CALL];
    static huskerivory_description d;
    uint8_t *buffer = longest, operation[4], word[4], log[8 * HUSKERIVORY_LOG_ENTRY];
    huskerivory_advanced a = {0, 0, 0, 0};
    uint32_t report, direction = reads ? 0x400 : 0, pieces = 0, moved = 0, accesses = 0, used = 0;
    for (size_t i = 0; i < HUSKERIVORY_BUFFER; i++) {
        buffer[i] = (uint8_t)(reads ? BLANK : i % 251);
    }
    huskerivory_put_word(operation, HUSKERIVORY_BUFFER | (reads ? HUSKERIVORY_OPERATION_READ : 0));
    d.call = HUSKERIVORY_CALL_TRANSACTION;
    d.address = 0x50;
    CHECK(huskerivory_begin(&d, operation, sizeof operation, buffer, HUSKERIVORY_BUFFER, saved, sizeof saved) == 0);
    do {
        uint32_t isr = moved < 255 * pieces ? (reads ? 0x04 : 0x02) : pieces < 257 ? 0x80 : 0x20;
        huskerivory_put_word(word, a.awaited == 0x18 ? isr : a.awaited == 0x24 ? moved % 251 : 0);
        report = huskerivory_advance(&d, operation, sizeof operation, saved, sizeof saved, buffer, HUSKERIVORY_BUFFER, word,
                                     accesses == 0 ? 0 : sizeof word, log, sizeof log, &a);
        for (const uint8_t *entry = log; entry < log + a.written * HUSKERIVORY_LOG_ENTRY; entry += HUSKERIVORY_LOG_ENTRY) {
            uint32_t code = huskerivory_get_word(entry), value = huskerivory_get_word(entry + 4);
            if (code == (HUSKERIVORY_LOG_WRITE | 0x04)) {
                CHECK(moved == 255 * pieces);
                CHECK(value == ((pieces == 0 ? 0x01FF20A0U : pieces < 256 ? 0x01FF0000U : 0x02FF0000U) | direction));
                pieces++;
            } else if (code == (HUSKERIVORY_LOG_WRITE | 0x28) || code == 0x24) {
                CHECK(value == moved % 251);
                moved++;
            }
        }
        accesses += (uint32_t)a.written;
        used += (uint32_t)a.used;
    } while (report == HUSKERIVORY_REPORT_WAITING && accesses < 200000);
    CHECK(report == HUSKERIVORY_REPORT_DONE && a.value == 0);
    CHECK(pieces == 257 && moved == HUSKERIVORY_BUFFER && accesses == 132099 && used == (reads ? 131841 : 66306));
    for (size_t i = 0; i < HUSKERIVORY_BUFFER; i++) {
        CHECK(buffer[i] == i % 251);
    }
}

static void check_longest(void) {
    check_longest_of(0);
    check_longest_of(1);
}

static void check_bytes_in(void) {
    static const uint32_t read_two[7] = {1, 0, 4, 0xFFFFFFAB, 4, 0x1CD, 0x20};
    static call c;
    uint8_t answers[4 * 7];
    make_worked(&c);
    huskerivory_put_word(c.operations, HUSKERIVORY_OPERATION_READ | 2);
    for (int i = 0; i < 7; i++) {
        huskerivory_put_word(answers + 4 * i, read_two[i]);
    }
    CHECK(begin(&c) == 0);
    advanced a = advance(&c, answers, sizeof answers, PLACES);
    CHECK(a.report == HUSKERIVORY_REPORT_DONE && a.answer.used == 7 && a.answer.written == 9);
    CHECK(c.buffer[0] == 0xAB && c.buffer[1] == 0xCD && c.buffer[2] == 0);
}

/* OAR1 for own address 0x42, and OAR2 for 0x21 with mask 2. */
static void check_addresses(void) {
    static call c;
    make_worked(&c);
    c.description.call = HUSKERIVORY_CALL_CONFIGURE_TARGET_ADDRESSES;
    c.description.own = 0x42;
    c.description.secondary = 0x21;
    c.description.mask = 2;
    CHECK(begin(&c) == 0);
    advanced a = advance(&c, c.operations, 0, PLACES);
    CHECK(a.report == HUSKERIVORY_REPORT_DONE && a.answer.used == 0 && a.answer.written == 2);
    CHECK(huskerivory_get_word(c.log) == (HUSKERIVORY_LOG_WRITE | 0x08) && huskerivory_get_word(c.log + 4) == 0x84);
    CHECK(huskerivory_get_word(c.log + 8) == (HUSKERIVORY_LOG_WRITE | 0x0C) && huskerivory_get_word(c.log + 12) == 0x342);
}

/* Each event that a target listens to sets its own bit: what `listen` says is read, and no other word. */
static void check_listen(void) {
    static const struct {
        uint32_t listen, offset, bit;
    } events[] = {
        {HUSKERIVORY_LISTEN_GENERAL_CALL, 0x00, 1u << 19},
        {HUSKERIVORY_LISTEN_PRIMARY_ADDRESS, 0x08, 1u << 15},
        {HUSKERIVORY_LISTEN_SECONDARY_ADDRESS, 0x0C, 1u << 15},
    };
    static call c;
    for (size_t i = 0; i < sizeof events / sizeof events[0]; i++) {
        uint8_t none[4] = {0, 0, 0, 0};
        make_worked(&c);
        c.description.call = HUSKERIVORY_CALL_ENABLE_TARGET_EVENT;
        c.description.listen = events[i].listen;
        CHECK(begin(&c) == 0);
        next_access access = next(&c);
        CHECK(access.kind == HUSKERIVORY_ACCESS_READ && access.value == events[i].offset);
        advanced a = advance(&c, none, sizeof none, PLACES);
        CHECK(a.report == HUSKERIVORY_REPORT_DONE && a.answer.used == 1 && a.answer.written == 2);
        CHECK(huskerivory_get_word(c.log + 8) == (HUSKERIVORY_LOG_WRITE | events[i].offset));
        CHECK(huskerivory_get_word(c.log + 12) == events[i].bit);
    }
}

/* A target's call over so many bytes. */
static void make_target(call *c, uint32_t number, size_t bytes) {
    make_worked(c);
    c->description.call = number;
    c->buffer_len = bytes;
    memset(c->buffer, BLANK, bytes);
}

/* Events of ADDCODE 0x78 and 0x7B: OAR1 is read, and its OA1 is the address if OA1MODE is 1, else ADDCODE is, which the saved call keeps where the
 * call is cut before that read. All answers in one advance, and one in each. */
static void check_events(void) {
    enum { AUTO_ACK = HUSKERIVORY_CALL_WAIT_FOR_EVENT, MANUAL_ACK = AUTO_ACK + HUSKERIVORY_MANUAL_ACK };
    static const struct {
        uint32_t call, answers[4], used, written, report, value;
    } events[] = {
        {AUTO_ACK, {0xF00009, 0x80F0}, 2, 3, HUSKERIVORY_REPORT_EVENT_WRITE, 0x78},
        {AUTO_ACK, {0xF00009, 0x8523}, 2, 3, HUSKERIVORY_REPORT_EVENT_WRITE, 0x123},
        {AUTO_ACK, {0xF70009, 0x03FF}, 2, 3, HUSKERIVORY_REPORT_EVENT_READ, 0x7B},
        {MANUAL_ACK, {0xF10009, 0, 0, 0x80F0}, 4, 7, HUSKERIVORY_REPORT_EVENT_READ, 0x78},
        {MANUAL_ACK, {0xF10009, 0, 0, 0x0523}, 4, 7, HUSKERIVORY_REPORT_EVENT_READ, 0x123},
    };
    static call c;
    static answers a;
    for (size_t i = 0; i < sizeof events / sizeof events[0]; i++) {
        a.count = 0;
        answer_all(&a, events[i].answers, events[i].used);
        for (size_t at_once = 1; at_once <= 4; at_once += 3) {
            make_target(&c, events[i].call, 0);
            CHECK(begin(&c) == 0);
            advanced last = advance_by(&c, &a, at_once, at_once);
            CHECK(last.report == events[i].report && last.answer.value == events[i].value);
            CHECK(c.used == events[i].used && c.entries == events[i].written);
        }
    }
}

/* The calls that carry the number of bytes put out. */
enum {
    MANUAL_WRITE = HUSKERIVORY_CALL_WRITE + HUSKERIVORY_MANUAL_ACK,
    MANUAL_WAIT_AND_WRITE = HUSKERIVORY_CALL_WAIT_FOR_TARGET_WRITE + HUSKERIVORY_MANUAL_ACK
};

/* A target's writes that end by a NACK: so many bytes are lent, so many blocks are put out whole, and then come the last answers, in the
 * next block. The count that has to come of them, the bytes put out as they are held, and the accesses of call 26. */
static const struct {
    size_t bytes, blocks;
    uint32_t last[6];
    size_t last_count;
    uint32_t value, out;
    size_t entries;
} writes[] = {
    {256, 1, {0x11, 1, 1}, 3, 254, 255, 519},
    {511, 1, {0x11, 1, 1}, 3, 254, 255, 519},
    {511, 2, {0x11, 1, 1}, 3, 509, 510, 1031},
    {1, 0, {2, 2, 0x10, 0, 1}, 5, 1, 2, 11},    /* a filling zero is put out too */
    {1, 0, {2, 2, 2, 0x10, 1, 1}, 6, 1, 2, 13}, /* no more than the byte is counted */
    {1, 0, {2, 0x10, 2, 1}, 4, 0, 1, 10},       /* the flush is not put out */
    {1, 0, {0x10, 1, 1}, 3, 0, 0, 7},
};

/* One of them, by a call that writes, uncut, cut in two at each answer, and one answer at a time. An automatic one is a single block, for
 * which CR2 is not read; a call that waits begins with a read event. Only a manual one carries the bytes put out. */
static void check_write(size_t i, uint32_t number, const uint32_t *event, size_t event_count, size_t event_entries) {
    static call whole, cut;
    static answers a;
    int manual = number >= HUSKERIVORY_MANUAL_ACK;
    size_t entries = event_entries + writes[i].entries - (manual ? 0 : 2 * (writes[i].blocks + 1) + 1);
    a.count = 0;
    answer_all(&a, event, event_count);
    for (size_t block = 0; block <= writes[i].blocks; block++) {
        if (manual) {
            answer(&a, 0);
        }
        for (size_t byte = 0; block < writes[i].blocks && byte < 255; byte++) {
            answer(&a, 2);
        }
    }
    answer_all(&a, writes[i].last, writes[i].last_count);
    for (size_t first = a.count + 1; first-- > 0;) {
        make_target(&cut, number, writes[i].bytes);
        CHECK(begin(&cut) == 0);
        advanced last = advance_by(&cut, &a, first, first == 0 ? 1 : a.count);
        CHECK(last.report == HUSKERIVORY_REPORT_DONE && last.answer.value == writes[i].value);
        if (first == a.count) {
            CHECK(cut.used == a.count && cut.entries == entries);
            CHECK(huskerivory_get_word(cut.saved + OUT) == (manual ? writes[i].out : 0));
            whole = cut;
        }
        CHECK(memcmp(&cut, &whole, sizeof cut) == 0);
    }
}

static void check_writes(void) {
    static const uint32_t event[3] = {0xA10009, 0, 0};
    for (size_t i = 0; i < sizeof writes / sizeof writes[0]; i++) {
        check_write(i, MANUAL_WRITE, event, 0, 0);
        check_write(i, MANUAL_WAIT_AND_WRITE, event, 3, 6);
        check_write(i, HUSKERIVORY_CALL_WRITE, event, 0, 0);
        check_write(i, HUSKERIVORY_CALL_WAIT_FOR_TARGET_WRITE, event, 1, 2);
    }
}

/* A refused advance, with an answer and places lent: nothing changes. So many bytes of `saved` are lent. */
static void check_refused(call *c, size_t saved_len, uint32_t number) {
    static call before;
    uint8_t answer[4] = {3, 0, 0, 0};
    before = *c;
    advanced a = advance_with(c, saved_len, answer, sizeof answer, c->log, sizeof c->log);
    CHECK(a.report == HUSKERIVORY_REPORT_REFUSED && a.answer.value == number);
    CHECK(a.answer.awaited == 0 && a.answer.used == 0 && a.answer.written == 0);
    next_access access = next_of(c, saved_len);
    CHECK(access.kind == HUSKERIVORY_ACCESS_REFUSED && access.value == number);
    CHECK(memcmp(c, &before, sizeof before) == 0);
}

/* A call that has begun and awaits its second answer. */
static void make_half_way(call *c) {
    make_worked(c);
    CHECK(begin(c) == 0);
    answer_once(c, 8);
    answer_once(c, 8);
}

static void check_damaged(void) {
    static const struct {
        uint32_t place, word, other_place, other_word;
    } damages[] = {
        {0, 8, 0, 8},    /* another call's number */
        {0, 0, 28, 0},   /* that of a refused begin */
        {4, 1, 4, 1},    /* no such piece */
        {8, 4, 8, 4},    /* no such byte */
        {8, 2, 28, 5},   /* the byte that is to be moved is not there */
        {20, 10, 24, 0}, /* no such outcome */
        {20, 1, 24, 1},  /* a bus error with a value */
        {28, 21, 28, 21}, /* a step of other calls */
        {28, 46, 28, 46}, /* no such step */
        {28, 0xFFFFFFFF, 20, 0xFFFFFFFF},
    };
    static call c;
    for (size_t i = 0; i < sizeof damages / sizeof damages[0]; i++) {
        make_half_way(&c);
        huskerivory_put_word(c.saved + damages[i].place, damages[i].word);
        huskerivory_put_word(c.saved + damages[i].other_place, damages[i].other_word);
        check_refused(&c, sizeof c.saved, HUSKERIVORY_REFUSAL_SAVED_CALL);
    }
    make_half_way(&c);
    check_refused(&c, sizeof c.saved - 1, HUSKERIVORY_REFUSAL_SAVED_CALL);
    check_refused(&c, 32, HUSKERIVORY_REFUSAL_SAVED_CALL); /* as version 2 stored them */
    check_refused(&c, 0, HUSKERIVORY_REFUSAL_SAVED_CALL);
}

/* A call over so many bytes that has begun, with another number of bytes put out. */
static void make_out(call *c, uint32_t number, size_t bytes, uint32_t out) {
    if (number == HUSKERIVORY_CALL_TRANSACTION) {
        make_list(c, (uint32_t)bytes, 0);
    } else {
        make_target(c, number, bytes);
    }
    CHECK(begin(c) == 0);
    huskerivory_put_word(c->saved + OUT, out);
}

/* The bytes put out, in saved calls that are made up: before its end a manual write takes up to one more than its buffer has, and after it
 * any number, as every other call does at any time. */
static void check_out(void) {
    static const uint32_t numbers[] = {0, 3, 4, 5, 0x100, 0x10000, 0x10004, 0x80000000, 0xFFFFFFFF};
    static const uint32_t calls[] = {
        MANUAL_WRITE,
        MANUAL_WAIT_AND_WRITE,
        HUSKERIVORY_CALL_TRANSACTION,
        HUSKERIVORY_CALL_READ,
        HUSKERIVORY_CALL_WRITE,
        HUSKERIVORY_CALL_WAIT_FOR_TARGET_WRITE,
        HUSKERIVORY_CALL_NACK_TRANSFER,
        HUSKERIVORY_CALL_WAIT_FOR_EVENT + HUSKERIVORY_MANUAL_ACK,
        HUSKERIVORY_CALL_READ + HUSKERIVORY_MANUAL_ACK,
        HUSKERIVORY_CALL_WAIT_FOR_TARGET_READ + HUSKERIVORY_MANUAL_ACK,
    };
    static call c;
    for (size_t i = 0; i < sizeof calls / sizeof calls[0]; i++) {
        for (size_t j = 0; j < sizeof numbers / sizeof numbers[0]; j++) {
            make_out(&c, calls[i], 3, numbers[j]);
            if (numbers[j] > 4 && (calls[i] == MANUAL_WRITE || calls[i] == MANUAL_WAIT_AND_WRITE)) {
                check_refused(&c, sizeof c.saved, HUSKERIVORY_REFUSAL_SAVED_CALL);
            } else {
                CHECK(next(&c).kind != HUSKERIVORY_ACCESS_REFUSED);
                CHECK(advance(&c, c.operations, 0, 8).report == HUSKERIVORY_REPORT_WAITING);
            }
            huskerivory_put_word(c.saved + STEP, 0);
            CHECK(next(&c).kind == HUSKERIVORY_ACCESS_OVER);
            CHECK(advance(&c, c.operations, 0, 8).report == HUSKERIVORY_REPORT_DONE);
        }
    }
}

/* A manual write counts from the number that it carries; one that waits for its event starts it at 0 with the transfer. A manual read
 * carries none. */
static void check_out_carried(void) {
    static const uint32_t words[8] = {0xA10009, 0, 0, 0, 2, 0x10, 1, 1}, counts[5] = {0, 1, 2, 3, 3}, in[5] = {0, 4, 0x71, 4, 0x72};
    static call c;
    static answers a;
    for (uint32_t out = 0; out <= 4; out++) {
        a.count = 0;
        answer_all(&a, words + 3, 5);
        make_out(&c, MANUAL_WRITE, 3, out);
        CHECK(advance_by(&c, &a, 1, 1).answer.value == counts[out]);
        a.count = 0;
        answer_all(&a, words, 8);
        make_out(&c, MANUAL_WAIT_AND_WRITE, 3, out);
        CHECK(advance_by(&c, &a, 1, 1).answer.value == 0);
        CHECK(c.used == 8 && huskerivory_get_word(c.saved + OUT) == 1);
    }
    a.count = 0;
    answer_all(&a, in, 5);
    make_out(&c, HUSKERIVORY_CALL_READ + HUSKERIVORY_MANUAL_ACK, 2, 0);
    CHECK(advance_by(&c, &a, 1, 1).answer.value == 2 && huskerivory_get_word(c.saved + OUT) == 0);
}

static int is_filled(const uint8_t *bytes, size_t size, uint8_t with) {
    for (size_t i = 0; i < size; i++) {
        if (bytes[i] != with) {
            return 0;
        }
    }
    return 1;
}

/* A refused begin clears the saved call, and what it left is no saved call; an advance of a call begun before changes nothing. */
static void check_refused_call(call *c, uint32_t number) {
    check_refused(c, sizeof c->saved, number);
    memset(c->saved, BLANK, sizeof c->saved);
    CHECK(begin_in(c, sizeof c->saved - 1) == number);
    CHECK(is_filled(c->saved, sizeof c->saved, BLANK));
    CHECK(begin(c) == number);
    CHECK(is_filled(c->saved, sizeof c->saved, 0));
    check_refused(c, sizeof c->saved, number);
}

static void check_descriptions(void) {
    static call c, before;
    make_half_way(&c);
    c.description.call = 30;
    check_refused_call(&c, HUSKERIVORY_REFUSAL_NO_SUCH_CALL);
    make_half_way(&c);
    c.description.address = 128;
    check_refused_call(&c, HUSKERIVORY_REFUSAL_ADDRESS);
    make_half_way(&c);
    c.buffer_len = 3;
    check_refused_call(&c, HUSKERIVORY_REFUSAL_LIST);
    make_half_way(&c);
    c.description.call = HUSKERIVORY_CALL_READ;
    c.buffer_len = 0;
    check_refused_call(&c, HUSKERIVORY_REFUSAL_BUFFER);
    make_half_way(&c);
    before = c;
    CHECK(begin_in(&c, sizeof c.saved - 1) == HUSKERIVORY_REFUSAL_SAVED_CALL);
    CHECK(memcmp(&c, &before, sizeof c) == 0);
}

/* 64 counts operations and not their pieces; a list that agrees with a buffer over 65,535 bytes is refused for the buffer. */
static void check_lists(void) {
    static uint8_t operations[4 * 66], saved[HUSKERIVORY_SAVED_CALL];
    static huskerivory_description d;
    d.call = HUSKERIVORY_CALL_TRANSACTION;
    CHECK(huskerivory_begin(&d, operations, 4 * HUSKERIVORY_OPERATIONS + 3, longest, 0, saved, sizeof saved) == 0);
    CHECK(huskerivory_begin(&d, operations, 4 * 65, longest, 0, saved, sizeof saved) == HUSKERIVORY_REFUSAL_LIST);
    CHECK(huskerivory_begin(&d, operations, 4 * 66, longest, 0, saved, sizeof saved) == HUSKERIVORY_REFUSAL_LIST);
    huskerivory_put_word(operations, 256);
    CHECK(huskerivory_begin(&d, operations, 4, longest, 256, saved, sizeof saved) == 0);
    CHECK(huskerivory_begin(&d, operations, 4, longest, 255, saved, sizeof saved) == HUSKERIVORY_REFUSAL_LIST);
    huskerivory_put_word(operations, 0xFFFF);
    CHECK(huskerivory_begin(&d, operations, 4, longest, 65535, saved, sizeof saved) == 0);
    CHECK(huskerivory_begin(&d, operations, 4, longest, 65536, saved, sizeof saved) == HUSKERIVORY_REFUSAL_LIST);
    huskerivory_put_word(operations, 0x8000);
    huskerivory_put_word(operations + 4, 0x8000);
    CHECK(huskerivory_begin(&d, operations, 8, longest, 65536, saved, sizeof saved) == HUSKERIVORY_REFUSAL_BUFFER);
    CHECK(huskerivory_begin(&d, operations, 8, longest, 65535, saved, sizeof saved) == HUSKERIVORY_REFUSAL_LIST);
    huskerivory_put_word(operations, 0x20000);
    CHECK(huskerivory_begin(&d, operations, 4, longest, 0, saved, sizeof saved) == HUSKERIVORY_REFUSAL_LIST);
}

/* The most pieces, 320: 63 empty operations and one of 65,535 bytes. A saved call that stands at the last one is taken, and one that
 * stands behind it is none. */
static void check_last_piece(void) {
    static uint8_t operations[4 * HUSKERIVORY_OPERATIONS], saved[HUSKERIVORY_SAVED_CALL];
    static huskerivory_description d;
    static const struct {
        uint32_t piece, kind, value;
    } cases[] = {
        {62, HUSKERIVORY_ACCESS_WRITE, 0x04},
        {63, HUSKERIVORY_ACCESS_WRITE, 0x04},
        {319, HUSKERIVORY_ACCESS_WRITE, 0x04},
        {320, HUSKERIVORY_ACCESS_REFUSED, HUSKERIVORY_REFUSAL_SAVED_CALL},
        {320 + 256, HUSKERIVORY_ACCESS_REFUSED, HUSKERIVORY_REFUSAL_SAVED_CALL},
        {0x10000, HUSKERIVORY_ACCESS_REFUSED, HUSKERIVORY_REFUSAL_SAVED_CALL},
    };
    d.call = HUSKERIVORY_CALL_TRANSACTION;
    huskerivory_put_word(operations + 4 * 63, 0xFFFF);
    CHECK(huskerivory_begin(&d, operations, sizeof operations, longest, HUSKERIVORY_BUFFER, saved, sizeof saved) == 0);
    for (size_t i = 0; i < sizeof cases / sizeof cases[0]; i++) {
        uint32_t value = UNWRITTEN;
        huskerivory_put_word(saved + 4, cases[i].piece);
        uint32_t kind = huskerivory_next(&d, operations, sizeof operations, saved, sizeof saved, longest, HUSKERIVORY_BUFFER, &value);
        CHECK(kind == cases[i].kind && value == cases[i].value);
    }
}

/* The longest buffer of another call, and one byte more. */
static void check_long_buffers(void) {
    static uint8_t saved[HUSKERIVORY_SAVED_CALL];
    static huskerivory_description d;
    d.call = HUSKERIVORY_CALL_WRITE;
    CHECK(huskerivory_begin(&d, longest, 0, longest, HUSKERIVORY_BUFFER, saved, sizeof saved) == 0);
    CHECK(huskerivory_begin(&d, longest, 0, longest, HUSKERIVORY_BUFFER + 1, saved, sizeof saved) == HUSKERIVORY_REFUSAL_BUFFER);
}

/* ---- Pages */

static uint8_t paper[12 * HUSKERIVORY_PAGE_LINE];

/* A log in so many bytes of paper: the returned number and length are these, and the page is these lines, each filled up with spaces. All
 * other bytes stay as they were. */
static void check_page(const uint8_t *log, size_t log_len, size_t room, uint32_t number, const char *const *lines, size_t count) {
    uint64_t length = UNWRITTEN;
    memset(paper, BLANK, sizeof paper);
    CHECK(huskerivory_page(log, log_len, paper, room, &length) == number);
    CHECK(length == count * HUSKERIVORY_PAGE_LINE);
    for (size_t i = 0; i < count; i++) {
        const uint8_t *line = paper + i * HUSKERIVORY_PAGE_LINE;
        size_t words = strlen(lines[i]);
        CHECK(memcmp(line, lines[i], words) == 0);
        CHECK(is_filled(line + words, HUSKERIVORY_PAGE_LINE - 1 - words, ' '));
        CHECK(line[HUSKERIVORY_PAGE_LINE - 1] == '\n');
    }
    CHECK(is_filled(paper + count * HUSKERIVORY_PAGE_LINE, sizeof paper - count * HUSKERIVORY_PAGE_LINE, BLANK));
}

static void check_no_page(const uint8_t *log, size_t log_len, size_t room) {
    check_page(log, log_len, room, HUSKERIVORY_REFUSAL_PAGE, NULL, 0);
}

static const char *const worked_page[9] = {
    "000001 write CR2     020220A0 AUTOEND NBYTES=2 START SADD=160",
    "000002 read  ISR     00000001 ADDCODE=0 TXE",
    "000003 read  CR2     020200A0 AUTOEND NBYTES=2 SADD=160",
    "000004 read  ISR     00000003 ADDCODE=0 TXIS TXE",
    "000005 write TXDR    00000012 TXDATA=18",
    "000006 read  ISR     00000003 ADDCODE=0 TXIS TXE",
    "000007 write TXDR    00000034 TXDATA=52",
    "000008 read  ISR     00000021 ADDCODE=0 STOPF TXE",
    "000009 write ICR     00000020 STOPCF",
};

/* The log of the worked run, as its advances left it: nine lines, 729 bytes. A byte less of paper, a part of an entry at the end, or a
 * code of no register, in any entry, and nothing is laid out. */
static void check_worked_page(void) {
    static const uint32_t codes[] = {0x14, 0x20, 0x2C, 0x114, 0x218, 0x10018, 0x80000018, 0xFFFFFFFF};
    static call c;
    make_worked(&c);
    CHECK(begin(&c) == 0);
    while (answer_once(&c, 8).report == HUSKERIVORY_REPORT_WAITING) {
    }
    size_t log_len = c.entries * HUSKERIVORY_LOG_ENTRY;
    CHECK(log_len == 72);
    check_page(c.log, log_len, 729, 0, worked_page, 9);
    check_page(c.log, log_len, sizeof paper, 0, worked_page, 9);
    check_no_page(c.log, log_len, 728);
    check_no_page(c.log, log_len, 0);
    for (size_t less = 1; less < HUSKERIVORY_LOG_ENTRY; less++) {
        check_no_page(c.log, log_len - less, sizeof paper);
    }
    check_page(c.log, log_len - HUSKERIVORY_LOG_ENTRY, sizeof paper, 0, worked_page, 8);
    check_page(c.log, 0, 0, 0, NULL, 0);
    check_page(c.log, 0, sizeof paper, 0, NULL, 0);
    for (size_t i = 0; i < sizeof codes / sizeof codes[0]; i++) {
        uint8_t *code = c.log + i * HUSKERIVORY_LOG_ENTRY;
        uint32_t before = huskerivory_get_word(code);
        huskerivory_put_word(code, codes[i]);
        check_no_page(c.log, log_len, sizeof paper);
        check_no_page(c.log, log_len, 1);
        huskerivory_put_word(code, before);
    }
    check_page(c.log, log_len, 729, 0, worked_page, 9);
}

/* Bits of no field, fields that are 0, a line to column 80, breaks, and an entry of nothing. Then the longest entry, which takes five
 * lines. */
static void check_long_lines(void) {
    static const uint32_t words[12] = {0, 0xFFFFFFFF, 0x110, 0x0F000000, 4, 0x06FF33FF, 4, 0x06FF17FF, 0x11C, 0, 0x24, 0x100};
    static const char *const rules[11] = {
        "000001 read  CR1     FFFFFFFF STOPFACLR ADDRACLR bit29 bit28 bit27 bit26 bit25",
        "                              FMP PECEN ALERTEN SMBDEN SMBHEN GCEN WUPEN",
        "                              NOSTRETCH SBC RXDMAEN TXDMAEN bit13 ANFOFF DNF=15",
        "                              ERRIE TCIE STOPIE NACKIE ADDRIE RXIE TXIE PE",
        "000002 write TIMINGR 0F000000 PRESC=0 bit27 bit26 bit25 bit24 SCLDEL=0 SDADEL=0",
        "                              SCLH=0 SCLL=0",
        "000003 read  CR2     06FF33FF PECBYTE AUTOEND NBYTES=255 START HEAD10R SADD=1023",
        "000004 read  CR2     06FF17FF PECBYTE AUTOEND NBYTES=255 HEAD10R RD_WRN",
        "                              SADD=1023",
        "000005 write ICR     00000000",
        "000006 read  RXDR    00000100 bit8 RXDATA=0",
    };
    static const char *const most[5] = {
        "000001 read  ICR     FFFFFFFF bit31 bit30 bit29 bit28 bit27 bit26 bit25 bit24",
        "                              bit23 bit22 bit21 bit20 bit19 bit18 bit17 bit16",
        "                              bit15 bit14 ALERTCF TIMOUTCF PECCF OVRCF ARLOCF",
        "                              BERRCF bit7 bit6 STOPCF NACKCF ADDRCF bit2 bit1",
        "                              bit0",
    };
    uint8_t log[sizeof words];
    for (size_t i = 0; i < sizeof words / sizeof words[0]; i++) {
        huskerivory_put_word(log + 4 * i, words[i]);
    }
    check_page(log, sizeof log, 891, 0, rules, 11);
    check_no_page(log, sizeof log, 890);
    huskerivory_put_word(log, 0x1C);
    check_page(log, HUSKERIVORY_LOG_ENTRY, HUSKERIVORY_PAGE_ENTRY, 0, most, 5);
    check_no_page(log, HUSKERIVORY_LOG_ENTRY, HUSKERIVORY_PAGE_ENTRY - 1);
}

/* ---- The board's own speed bands */

/* The two rows of the worked timings by bands, and document 01's five. */
static const huskerivory_band own_bands[2] = {
    {50000, 1000000, 32, 1000000, 250000, HUSKERIVORY_SHAPE_EQUAL},
    {200000, 4000000, 200, 2000000, 800000, HUSKERIVORY_SHAPE_DOUBLE},
};
static const huskerivory_band plain_bands[5] = {
    {7999, 2000000, 256, 2000000, 500000, HUSKERIVORY_SHAPE_EQUAL},
    {79999, 2000000, 128, 2000000, 500000, HUSKERIVORY_SHAPE_EQUAL},
    {100000, 2000000, 64, 2000000, 500000, HUSKERIVORY_SHAPE_EQUAL},
    {400000, 8000000, 96, 3000000, 1000000, HUSKERIVORY_SHAPE_DOUBLE},
    {0xFFFFFFFF, 17000000, 96, 8000000, 4000000, HUSKERIVORY_SHAPE_DOUBLE},
};

/* A table in bytes, at an odd address, and one row longer than any that is accepted. */
enum { MOST_ROWS = HUSKERIVORY_BANDS + 1 };
static uint8_t table_bytes[1 + MOST_ROWS * HUSKERIVORY_BAND];
static uint8_t *const table = table_bytes + 1;

static void put_bands(const huskerivory_band *bands, size_t count) {
    for (size_t i = 0; i < count; i++) {
        huskerivory_put_band(table + i * HUSKERIVORY_BAND, &bands[i]);
    }
}

/* So many rows that rise by 10,000 hertz, the first of the worked ones in all else. */
static void put_rising(size_t count) {
    for (size_t i = 0; i < count; i++) {
        huskerivory_band band = own_bands[0];
        band.upper = 10000 * ((uint32_t)i + 1);
        huskerivory_put_band(table + i * HUSKERIVORY_BAND, &band);
    }
}

/* A timing by so many bytes of a table: the returned number and the word are these, and the table stays as it was. */
static void check_timed(const uint8_t *bands, size_t length, timing_case expected) {
    static uint8_t before[MOST_ROWS * HUSKERIVORY_BAND];
    uint32_t timingr = UNWRITTEN;
    memcpy(before, bands, length);
    CHECK(huskerivory_timing_by_bands(bands, length, expected.clock, expected.frequency, &timingr) == expected.refusal);
    CHECK(timingr == expected.timingr);
    CHECK(memcmp(bands, before, length) == 0);
}

/* So many bytes of the table are accepted. Handed to a timing they are not refused as 16, but a frequency of 0 is, as 1. */
static void check_accepted(size_t length) {
    CHECK(huskerivory_load_bands(table, length) == 0);
    check_timed(table, length, (timing_case){9, 0, HUSKERIVORY_REFUSAL_NO_SPEED, 0});
}

/* They are refused as 16: loaded, handed in with a good clock and frequency, and with what would be refused as 1, 2, 17 or 3. */
static void check_bad(size_t length) {
    CHECK(huskerivory_load_bands(table, length) == HUSKERIVORY_REFUSAL_BAD_BANDS);
    check_timed(table, length, (timing_case){8000000, 50000, HUSKERIVORY_REFUSAL_BAD_BANDS, 0});
    check_timed(table, length, (timing_case){9, 0, HUSKERIVORY_REFUSAL_BAD_BANDS, 0});
    check_timed(table, length, (timing_case){250000001, 50000, HUSKERIVORY_REFUSAL_BAD_BANDS, 0});
    check_timed(table, length, (timing_case){9, 0xFFFFFFFF, HUSKERIVORY_REFUSAL_BAD_BANDS, 0});
}

/* The worked timings, then each refusal where the next one fits too. A table of structs, lent as it lies in memory, gives the same as
 * one of bytes. Two rows up to the same frequency are no table. */
static void check_own_bands(void) {
    static const timing_case cases[] = {
        {8000000, 50000, 0, 0x40510F0F}, {8000000, 50001, 0, 0x00943469}, {250000000, 100000, 0, 0xC0F93F7F},
        {4111999, 500, 0, 0xF041FFFF},   {4112000, 500, 5, 0},            {250000000, 75000, 5, 0},
        {100, 200001, 17, 0},            {250000001, 200001, 2, 0},       {250000001, 0, 1, 0},
        {799999, 200001, 17, 0},         {799999, 200000, 3, 0},          {999999, 1, 4, 0},
        {1000000, 1, 5, 0},              {1000000, 2000, 6, 0},
    };
    put_bands(own_bands, 2);
    CHECK(huskerivory_load_bands((const uint8_t *)own_bands, sizeof own_bands) == 0);
    check_accepted(2 * HUSKERIVORY_BAND);
    for (size_t i = 0; i < sizeof cases / sizeof cases[0]; i++) {
        check_timed(table, 2 * HUSKERIVORY_BAND, cases[i]);
        check_timed((const uint8_t *)own_bands, sizeof own_bands, cases[i]);
    }
    huskerivory_put_band(table + HUSKERIVORY_BAND, &own_bands[0]);
    check_bad(2 * HUSKERIVORY_BAND);
}

/* In a row of either shape no setup time can be counted where the row's own scldel says so. A prescaler over 16 is held in an equal row,
 * and refused in a double one. */
static void check_shapes(void) {
    static const struct {
        huskerivory_band band;
        timing_case cases[3];
    } rows[] = {
        {{1000000, 0, 100, 1, 10000000, HUSKERIVORY_SHAPE_EQUAL},
         {{9999999, 1000000, 6, 0}, {10000000, 1000000, 0, 0x004F0404}, {19999999, 190000, 6, 0}}},
        {{1000000, 0, 100, 1, 10000000, HUSKERIVORY_SHAPE_DOUBLE},
         {{9999999, 1000000, 6, 0}, {10000000, 1000000, 0, 0x004F0205}, {19999999, 190000, 6, 0}}},
        {{1000000, 0, 8, 1, 1, HUSKERIVORY_SHAPE_EQUAL},
         {{128000000, 1000000, 0, 0xF0FF0303}, {129000000, 1000000, 0, 0xF0FF0303}, {250000000, 1000000, 0, 0xF0FF0606}}},
        {{1000000, 0, 8, 1, 1, HUSKERIVORY_SHAPE_DOUBLE},
         {{128000000, 1000000, 0, 0xF0FF0103}, {129000000, 1000000, 5, 0}, {250000000, 1000000, 5, 0}}},
    };
    for (size_t i = 0; i < sizeof rows / sizeof rows[0]; i++) {
        put_bands(&rows[i].band, 1);
        for (size_t j = 0; j < 3; j++) {
            check_timed(table, HUSKERIVORY_BAND, rows[i].cases[j]);
        }
    }
}

/* 1 to 16 rows and no part of one; what follows the lent bytes is not looked at, be it rows or none. */
static void check_lengths(void) {
    put_rising(MOST_ROWS);
    for (size_t length = 0; length <= MOST_ROWS * HUSKERIVORY_BAND; length++) {
        size_t rows = length / HUSKERIVORY_BAND;
        if (length % HUSKERIVORY_BAND == 0 && rows >= 1 && rows <= HUSKERIVORY_BANDS) {
            check_accepted(length);
            check_timed(table, length, (timing_case){100, 10000 * (uint32_t)rows + 1, HUSKERIVORY_REFUSAL_NO_BAND, 0});
        } else {
            check_bad(length);
        }
    }
    memset(table, 0, MOST_ROWS * HUSKERIVORY_BAND);
    put_rising(1);
    check_accepted(HUSKERIVORY_BAND);
    check_bad(2 * HUSKERIVORY_BAND);
}

/* Each word of a row at its edges, in each of 16 rows. */
static void check_rows(void) {
    enum { UPPER = 0, LEAST_CLOCK = 4, D = 8, SDADEL = 12, SCLDEL = 16, SHAPE = 20 };
    static const struct {
        uint32_t place, word;
        int accepted;
    } words[] = {
        {LEAST_CLOCK, 0, 1}, {LEAST_CLOCK, 0xFFFFFFFF, 1},
        {D, 0, 0}, {D, 7, 0}, {D, 8, 1}, {D, 256, 1}, {D, 257, 0}, {D, 0x108, 0}, {D, 0xFFFFFFFF, 0},
        {SDADEL, 0, 0}, {SDADEL, 1, 1}, {SDADEL, 0x10000, 1}, {SDADEL, 0xFFFFFFFF, 1},
        {SCLDEL, 0, 0}, {SCLDEL, 1, 1}, {SCLDEL, 0x10000, 1}, {SCLDEL, 0xFFFFFFFF, 1},
        {SHAPE, 0, 1}, {SHAPE, 1, 1}, {SHAPE, 2, 0}, {SHAPE, 0x100, 0}, {SHAPE, 0x10001, 0}, {SHAPE, 0xFFFFFFFF, 0},
    };
    for (size_t row = 0; row < HUSKERIVORY_BANDS; row++) {
        for (size_t i = 0; i < sizeof words / sizeof words[0]; i++) {
            put_rising(HUSKERIVORY_BANDS);
            huskerivory_put_word(table + row * HUSKERIVORY_BAND + words[i].place, words[i].word);
            if (words[i].accepted) {
                check_accepted(HUSKERIVORY_BANDS * HUSKERIVORY_BAND);
            } else {
                check_bad(HUSKERIVORY_BANDS * HUSKERIVORY_BAND);
            }
        }
        put_rising(HUSKERIVORY_BANDS);
        huskerivory_put_word(table + row * HUSKERIVORY_BAND + UPPER, 10000 * (uint32_t)row);
        if (row == 0) {
            check_accepted(HUSKERIVORY_BANDS * HUSKERIVORY_BAND); /* up to 0 */
        } else {
            check_bad(HUSKERIVORY_BANDS * HUSKERIVORY_BAND); /* up to where the row before goes */
        }
    }
}

/* The row is the first that goes up to the frequency: each has a least clock of its own, so that another row would tell. */
static void check_chosen(void) {
    put_rising(HUSKERIVORY_BANDS);
    for (uint32_t row = 0; row < HUSKERIVORY_BANDS; row++) {
        huskerivory_put_word(table + row * HUSKERIVORY_BAND + 4, 10000001 + row);
    }
    for (uint32_t row = 0; row < HUSKERIVORY_BANDS; row++) {
        uint32_t clock = 10000001 + row, frequencies[2] = {row == 0 ? 5000 : 10000 * row + 1, 10000 * (row + 1)};
        for (int i = 0; i < 2; i++) {
            uint32_t timingr = UNWRITTEN;
            check_timed(table, HUSKERIVORY_BANDS * HUSKERIVORY_BAND, (timing_case){clock - 1, frequencies[i], 4, 0});
            CHECK(huskerivory_timing_by_bands(table, HUSKERIVORY_BANDS * HUSKERIVORY_BAND, clock, frequencies[i], &timingr) == 0);
            CHECK(timingr != UNWRITTEN && timingr != 0);
        }
    }
}

/* By document 01's five bands the timing is huskerivory_timing, on the worked timings and at the edges of each band. */
static void check_plain_bands(void) {
    static const uint32_t clocks[] = {0, 1999999, 2000000, 7999999, 8000000, 16999999, 17000000, 250000000, 250000001, 0xFFFFFFFF};
    static const uint32_t frequencies[] = {0,      1,      1000,   7999,   8000,    79999,    80000,      100000,
                                           100001, 162602, 400000, 400001, 1000000, 62500000, 0xFFFFFFFE, 0xFFFFFFFF};
    const size_t length = 5 * HUSKERIVORY_BAND;
    put_bands(plain_bands, 5);
    check_accepted(length);
    for (size_t i = 0; i < 14; i++) {
        check_timed(table, length, worked_timings[i]);
    }
    for (size_t i = 0; i < sizeof clocks / sizeof clocks[0]; i++) {
        for (size_t j = 0; j < sizeof frequencies / sizeof frequencies[0]; j++) {
            timing_case plain = {clocks[i], frequencies[j], UNWRITTEN, UNWRITTEN};
            plain.refusal = huskerivory_timing(plain.clock, plain.frequency, &plain.timingr);
            check_timed(table, length, plain);
        }
    }
}

int main(void) {
    run_group("version and sizes", check_abi);
    if (failed_groups != 0) {
        return 1; /* a library that is not the header's is not called again */
    }
    run_group("timing", check_timings);
    run_group("packing and unpacking", check_packing);
    run_group("timing by a board's own bands", check_own_bands);
    run_group("bands of either shape", check_shapes);
    run_group("tables of 1 to 16 rows, and no others", check_lengths);
    run_group("rows that are accepted, and rows that are not", check_rows);
    run_group("the row that is chosen", check_chosen);
    run_group("timing by document 01's five bands", check_plain_bands);
    run_group("the worked run, one answer at a time", check_worked_run);
    run_group("the worked run, one log place at a time", check_places);
    run_group("the worked run, with other reserved words", check_reserved);
    run_group("a long transaction, in one advance and in many", check_long);
    run_group("operations in pieces", check_pieces);
    run_group("the longest operation, out and in", check_longest);
    run_group("bytes that come in", check_bytes_in);
    run_group("own addresses", check_addresses);
    run_group("events to listen to", check_listen);
    run_group("events at a ten-bit header", check_events);
    run_group("what a target's write counts, cut at each answer", check_writes);
    run_group("damaged saved calls", check_damaged);
    run_group("bytes put out, in made-up saved calls", check_out);
    run_group("bytes put out, as they are carried on", check_out_carried);
    run_group("refused descriptions", check_descriptions);
    run_group("lists, and what is wrong with them", check_lists);
    run_group("the last of the most pieces", check_last_piece);
    run_group("buffers that are too long", check_long_buffers);
    run_group("the page of the worked run, and logs that have none", check_worked_page);
    run_group("pages with broken lines", check_long_lines);
    return failed_groups == 0 ? 0 : 1;
}
