/* Makes calls, pages and speed bands up, damages some of them, and prints sums over everything that the library said or wrote, at whatever
 * address it was lent. The same program on another machine has to print the same. */
#include "huskerivory.h"

#include <stdio.h>
#include <string.h>

enum { ROUNDS = 50000, SUMS = 10, ADVANCES = 12 };

/* ---- Numbers that are the same on every machine. C leaves open in which order arguments are worked out, so that no expression
 * here asks for two of them. */

static uint64_t state = 1;

static uint32_t below(uint32_t n) {
    state = state * 6364136223846793005U + 1442695040888963407U;
    return (uint32_t)((state >> 32) * n >> 32);
}

static int once_in(uint32_t n) {
    return below(n) == 0;
}

/* Mostly below n, now and then anything. */
static uint32_t about(uint32_t n) {
    return once_in(16) ? below(UINT32_MAX) : below(n);
}

/* ---- Sums */

static uint32_t sum = 1;

static void add_byte(uint8_t byte) {
    sum = (sum ^ byte) * 16777619U;
}

static void add_bytes(const uint8_t *bytes, size_t size) {
    for (size_t i = 0; i < size; i++) {
        add_byte(bytes[i]);
    }
}

static void add_number(uint64_t number) {
    for (int i = 0; i < 8; i++) {
        add_byte((uint8_t)(number >> (8 * i)));
    }
}

/* ---- What is lent: room for any alignment, and bytes around it that have to stay as they are */

enum { OPERATIONS = 70, BYTES = 700, ANSWERS = 80, PLACES = 90, AROUND = 16, LINES = 12, ROWS = 18 };

typedef struct {
    uint8_t operations[4 * OPERATIONS + AROUND], buffer[BYTES + AROUND], saved[HUSKERIVORY_SAVED_CALL + AROUND];
    uint8_t answers[4 * ANSWERS + AROUND], log[HUSKERIVORY_LOG_ENTRY * PLACES + AROUND];
} memory;

static memory all;

/* Not among the others, whose bytes are all drawn and added up for every call. */
static uint8_t paper[LINES * HUSKERIVORY_PAGE_LINE + AROUND];
static uint32_t written;  /* entries that the last advance wrote */
static unsigned pages[2]; /* laid out, and refused */

static uint8_t table[HUSKERIVORY_BAND * ROWS + AROUND];
static unsigned tables[2];   /* accepted, and refused */
static unsigned timings[18]; /* by bands, given and by their refusals */

static huskerivory_description description;
static uint8_t *operations, *buffer, *saved, *answers, *entries;
static uint32_t operations_len, buffer_len, saved_len;
static unsigned reports[13];

static void lend(void) {
    uint8_t *bytes = (uint8_t *)&all;
    for (size_t i = 0; i < sizeof all; i++) {
        bytes[i] = (uint8_t)below(256);
    }
    operations = all.operations + below(8);
    buffer = all.buffer + below(8);
    saved = all.saved + below(8);
    answers = all.answers + below(8);
    entries = all.log + below(8);
}

/* ---- A description, its operations and lengths */

static void describe(void) {
    description.call = once_in(3) ? HUSKERIVORY_CALL_TRANSACTION : 1 + below(30);
    description.address = about(130);
    description.ten = once_in(4);
    description.listen = about(4);
    description.timingr = below(UINT32_MAX);
    description.configured = once_in(2);
    description.own = about(130);
    description.own_ten = once_in(3);
    description.secondary = once_in(2) ? HUSKERIVORY_NONE : about(130);
    description.mask = once_in(2) ? HUSKERIVORY_NONE : about(8);
    for (int i = 0; i < 6; i++) {
        description.reserved[i] = about(2);
    }
}

static void list_operations(void) {
    uint32_t most = once_in(20) ? OPERATIONS : 5, count = below(most), total = 0;
    for (uint32_t i = 0; i < count; i++) {
        uint32_t longest = once_in(10) ? 600 : 8, word = below(longest);
        total += word;
        if (once_in(2)) {
            word |= HUSKERIVORY_OPERATION_READ;
        }
        if (once_in(200)) {
            word |= 0x20000;
        }
        huskerivory_put_word(operations + 4 * i, word);
    }
    operations_len = 4 * count + below(4);
    int as_listed = description.call == HUSKERIVORY_CALL_TRANSACTION && !once_in(20);
    buffer_len = as_listed ? total : below(600);
    if (buffer_len > BYTES) {
        buffer_len = BYTES;
    }
    saved_len = once_in(50) ? below(40) : HUSKERIVORY_SAVED_CALL;
}

/* ---- A round: a call begun and advanced, and a timing */

/* Mostly flags with which a call goes on. */
static uint32_t answer_word(void) {
    static const uint32_t flags[] = {0x01, 0x03, 0x03, 0x03, 0x04, 0x05, 0x20, 0x21, 0x80, 0x40, 0x08, 0x10};
    uint32_t word = flags[below(sizeof flags / sizeof flags[0])];
    if (once_in(8)) {
        word |= 1U << below(16);
    }
    word |= below(256) << 16; /* DIR and ADDCODE */
    return once_in(12) ? below(UINT32_MAX) : word;
}

/* 0 where the call is over. */
static int advance(void) {
    uint32_t count = below(ANSWERS), log_len = below(HUSKERIVORY_LOG_ENTRY * PLACES + 1), value;
    huskerivory_advanced a;
    for (uint32_t i = 0; i < count; i++) {
        huskerivory_put_word(answers + 4 * i, answer_word());
    }
    if (once_in(40)) {
        uint32_t byte = below(HUSKERIVORY_SAVED_CALL);
        saved[byte] ^= (uint8_t)(1U << below(8));
    }
    add_number(huskerivory_next(&description, operations, operations_len, saved, saved_len, buffer, buffer_len, &value));
    add_number(value);
    uint32_t report = huskerivory_advance(&description, operations, operations_len, saved, saved_len, buffer, buffer_len,
                                          answers, 4 * count + below(4), entries, log_len, &a);
    add_number(report);
    add_number(a.value);
    add_number(a.awaited);
    add_number(a.used);
    add_number(a.written);
    add_bytes((const uint8_t *)&all, sizeof all);
    written = (uint32_t)a.written;
    reports[report < 13 ? report : 0]++;
    return report == HUSKERIVORY_REPORT_WAITING || report == HUSKERIVORY_REPORT_FULL;
}

/* Entries of any register, now and then of none. */
static void make_entries_up(uint32_t count) {
    static const uint32_t offsets[] = {0x00, 0x04, 0x08, 0x0C, 0x10, 0x18, 0x1C, 0x24, 0x28};
    for (uint32_t i = 0; i < count; i++) {
        uint32_t code = offsets[below(sizeof offsets / sizeof offsets[0])], value = below(UINT32_MAX);
        if (once_in(2)) {
            code |= HUSKERIVORY_LOG_WRITE;
        }
        if (once_in(30)) {
            code ^= 1U << below(32);
        }
        if (once_in(3)) {
            value &= below(UINT32_MAX);
        }
        huskerivory_put_word(entries + i * HUSKERIVORY_LOG_ENTRY, code);
        huskerivory_put_word(entries + i * HUSKERIVORY_LOG_ENTRY + 4, value);
    }
}

/* The page of what the last advance wrote, or of entries that are made up, on paper that is mostly long enough. What it holds of earlier
 * pages has to stay after this one. */
static void lay_out(void) {
    uint32_t most = once_in(3) ? LINES : 4, count = below(most), room = LINES * HUSKERIVORY_PAGE_LINE;
    uint8_t *page = paper + below(8);
    uint64_t length;
    if (once_in(3)) {
        count = written;
    } else {
        make_entries_up(count);
    }
    uint32_t log_len = HUSKERIVORY_LOG_ENTRY * count;
    if (once_in(10)) {
        log_len += below(8);
    }
    if (once_in(4)) {
        room = below(room);
    }
    uint32_t number = huskerivory_page(entries, log_len, page, room, &length);
    add_number(number);
    add_number(length);
    add_bytes(paper, sizeof paper);
    add_bytes(entries, log_len);
    pages[number != 0]++;
}

/* A row above the one before, now and then not; its other numbers mostly within what is accepted, and often at the edge. */
static huskerivory_band make_band_up(uint32_t before) {
    static const uint32_t edges[] = {7, 8, 96, 255, 256, 257};
    huskerivory_band band;
    uint32_t rise = once_in(2) ? 200000 : 5000, most = once_in(2) ? 20000000 : 1000;
    band.upper = once_in(60) ? before : before + 1 + below(rise);
    band.least_clock = about(20000000);
    band.d = once_in(20) ? edges[below(sizeof edges / sizeof edges[0])] : 8 + below(249);
    band.sdadel = once_in(100) ? 0 : 1 + about(most);
    band.scldel = once_in(100) ? 0 : 1 + about(most);
    band.shape = once_in(80) ? about(4) : below(2);
    return band;
}

/* Rows of a table, of which the upper frequencies of the last two are left in `uppers`. */
static void make_bands_up(uint8_t *bands, uint32_t count, uint32_t uppers[2]) {
    uppers[0] = uppers[1] = 0;
    for (uint32_t i = 0; i < count; i++) {
        huskerivory_band band = make_band_up(uppers[1]);
        uppers[0] = uppers[1];
        uppers[1] = band.upper;
        huskerivory_put_band(bands + i * HUSKERIVORY_BAND, &band);
    }
}

/* A table of bands, loaded, and timings by it, be it accepted or not: at the edge of a row, within the table or anywhere. */
static void time_by_bands(void) {
    uint32_t most = once_in(4) ? ROWS : 4, count = once_in(20) ? below(2) : 1 + below(most), uppers[2];
    uint8_t *bands = table + below(8);
    make_bands_up(bands, count, uppers);
    uint32_t length = HUSKERIVORY_BAND * count;
    if (once_in(30)) {
        length -= below(length + 1);
    }
    uint32_t loaded = huskerivory_load_bands(bands, length);
    add_number(loaded);
    tables[loaded != 0]++;
    for (int i = 0; i < 4; i++) {
        uint32_t fastest = once_in(2) ? 260000000 : 30000000, clock = about(fastest), frequency = about(uppers[1]), timingr;
        if (once_in(2)) {
            frequency = uppers[below(2)];
            frequency += below(2);
        }
        uint32_t refusal = huskerivory_timing_by_bands(bands, length, clock, frequency, &timingr);
        add_number(refusal);
        add_number(timingr);
        timings[refusal < 18 ? refusal : 0]++;
    }
    add_bytes(table, sizeof table);
}

static void time_and_pack(void) {
    uint32_t clock = about(260000000), fastest = once_in(2) ? 1000000 : 9000, timingr;
    huskerivory_timing_fields fields;
    add_number(huskerivory_timing(clock, about(fastest), &timingr));
    add_number(timingr);
    huskerivory_unpack(below(UINT32_MAX), &fields);
    add_bytes((const uint8_t *)&fields, sizeof fields);
    fields.sdadel = (uint8_t)below(18);
    add_number(huskerivory_pack(&fields, &timingr));
    add_number(timingr);
}

/* Now and then a call goes on near the end of a piece or a block, or at the beginning of one, where few would come otherwise. A manual write
 * also has a number of bytes put out, often the most that it takes or one more, and stands at any step: at its event it would start anew. */
static void move_on(void) {
    int writes = description.call == HUSKERIVORY_CALL_WRITE + HUSKERIVORY_MANUAL_ACK ||
                 description.call == HUSKERIVORY_CALL_WAIT_FOR_TARGET_WRITE + HUSKERIVORY_MANUAL_ACK;
    if ((writes || description.call == HUSKERIVORY_CALL_TRANSACTION) && buffer_len > 240 && once_in(2)) {
        uint32_t piece = below(3);
        huskerivory_put_word(saved + 4, piece);
        huskerivory_put_word(saved + 8, once_in(3) ? 0 : 240 + below(18));
    }
    if (writes && once_in(2)) {
        huskerivory_put_word(saved + 28, below(HUSKERIVORY_STEPS));
        huskerivory_put_word(saved + 32, once_in(2) ? buffer_len + below(3) : about(buffer_len + 3));
    }
}

static void make_one_up(void) {
    lend();
    describe();
    list_operations();
    add_number(huskerivory_begin(&description, operations, operations_len, buffer, buffer_len, saved, saved_len));
    move_on();
    for (int i = 0; i < ADVANCES && advance(); i++) {
    }
    lay_out();
    time_and_pack();
    time_by_bands();
}

int main(void) {
    for (int sums = 1; sums <= SUMS; sums++) {
        for (int i = 0; i < ROUNDS / SUMS; i++) {
            make_one_up();
        }
        printf("after %d calls %08X\n", sums * (ROUNDS / SUMS), (unsigned)sum);
    }
    for (int i = 0; i < 13; i++) {
        printf("report %d: %u\n", i, reports[i]);
    }
    printf("pages: %u laid out, %u refused\n", pages[0], pages[1]);
    printf("tables of bands: %u accepted, %u refused\n", tables[0], tables[1]);
    for (int i = 0; i < 18; i++) {
        if (timings[i] != 0) {
            printf("timings by them, refusal %d: %u\n", i, timings[i]);
        }
    }
    return 0;
}
