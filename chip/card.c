/* The entry terminal sends cards of eighteen holes to the scoreboard, from C without an operating system: an example to copy
 * from. The function `make` is all that a firmware does for the driver; `main` says what is to be done. The registers stand
 * behind i2c_read and i2c_write, here simulated (board.c).
 *
 *     chip/run        builds and runs it on an emulated Cortex-M33, and holds what it prints to chip/card.stdout */
#include "board.h"
#include "huskerivory.h"

#include <stdio.h>
#include <string.h>

/* ---- A call, from its beginning to its end */

/* A bus that hangs answers nothing, for ever. The driver then waits, and how long is the firmware's to say: here in polls, so many
 * for a call and for each of its bytes, on a chip rather by a timer. A call that is given up is simply not advanced any more;
 * HUSKERIVORY_CALL_RESET then resets the peripheral. */
enum { PATIENCE = 1000, GIVEN_UP = 100 };

/* One answer to an advance takes eight log entries at most. */
enum { LOG_ENTRIES = 8 };

typedef struct {
    huskerivory_description description;
    uint8_t operations[2 * 4];
    uint32_t operations_len;
    uint8_t *buffer;
    uint32_t buffer_len;
} call;

/* The log's writes, in their order. Its reads are those that were already made. */
static void carry_out(const uint8_t *log, uint64_t entries) {
    for (uint64_t i = 0; i < entries; i++, log += HUSKERIVORY_LOG_ENTRY) {
        uint32_t code = huskerivory_get_word(log);
        if (code & HUSKERIVORY_LOG_WRITE) {
            i2c_write(code & ~HUSKERIVORY_LOG_WRITE, huskerivory_get_word(log + 4));
        }
    }
}

/* How a call ended: one of HUSKERIVORY_REPORT_.., or GIVEN_UP, and the number that goes with it. */
typedef struct {
    uint32_t report, value;
} ending;

/* Blocks until the call has ended. Firmware that must not block keeps `saved` and `awaited` beside the call, and goes round the
 * loop once at each interrupt of the peripheral. */
static ending make(call *c) {
    uint8_t saved[HUSKERIVORY_SAVED_CALL], log[LOG_ENTRIES * HUSKERIVORY_LOG_ENTRY], answer[4];
    huskerivory_advanced advanced;
    uint32_t awaited;

    uint32_t refusal =
        huskerivory_begin(&c->description, c->operations, c->operations_len, c->buffer, c->buffer_len, saved, sizeof saved);
    if (refusal != 0) {
        return (ending){HUSKERIVORY_REPORT_REFUSED, refusal};
    }
    int reads = huskerivory_next(&c->description, c->operations, c->operations_len, saved, sizeof saved, c->buffer,
                                 c->buffer_len, &awaited) == HUSKERIVORY_ACCESS_READ;
    uint32_t patience = PATIENCE * (1 + c->buffer_len);
    for (uint32_t poll = 0; poll < patience; poll++) {
        if (reads) {
            huskerivory_put_word(answer, i2c_read(awaited));
        }
        uint32_t report = huskerivory_advance(&c->description, c->operations, c->operations_len, saved, sizeof saved, c->buffer,
                                              c->buffer_len, answer, reads ? sizeof answer : 0, log, sizeof log, &advanced);
        carry_out(log, advanced.written);
        if (report == HUSKERIVORY_REPORT_WAITING) {
            awaited = (uint32_t)advanced.awaited;
            reads = 1;
        } else if (report == HUSKERIVORY_REPORT_FULL) {
            reads = 0;
        } else {
            return (ending){report, (uint32_t)advanced.value};
        }
    }
    return (ending){GIVEN_UP, 0};
}

/* ---- What the terminal asks for */

static ending set_up(uint32_t timingr) {
    uint8_t none[1] = {0}; /* a pointer is never null, not even one to no bytes */
    call c = {.description = {.call = HUSKERIVORY_CALL_NEW, .timingr = timingr}, .buffer = none};
    return make(&c);
}

static call to_scoreboard(uint8_t *buffer, uint32_t buffer_len) {
    call c = {.description = {.call = HUSKERIVORY_CALL_TRANSACTION, .address = SCOREBOARD_ADDRESS}};
    c.buffer = buffer;
    c.buffer_len = buffer_len;
    return c;
}

/* A write of the whole buffer, of up to 65,535 bytes. */
static ending send(uint8_t *buffer, uint32_t buffer_len) {
    call c = to_scoreboard(buffer, buffer_len);
    huskerivory_put_word(c.operations, buffer_len);
    c.operations_len = 4;
    return make(&c);
}

/* A write of the buffer's first byte, a repeated start, and the others read. */
static ending ask(uint8_t *buffer, uint32_t buffer_len) {
    call c = to_scoreboard(buffer, buffer_len);
    huskerivory_put_word(c.operations, 1);
    huskerivory_put_word(c.operations + 4, (buffer_len - 1) | HUSKERIVORY_OPERATION_READ);
    c.operations_len = 8;
    return make(&c);
}

/* ---- The terminal */

static const char *how(uint32_t report) {
    switch (report) {
    case HUSKERIVORY_REPORT_DONE:
        return "done";
    case HUSKERIVORY_REPORT_BUS:
        return "a bus error";
    case HUSKERIVORY_REPORT_ARBITRATION:
        return "arbitration was lost";
    case HUSKERIVORY_REPORT_NACK:
        return "not acknowledged";
    case HUSKERIVORY_REPORT_REFUSED:
        return "refused";
    case GIVEN_UP:
        return "given up";
    default:
        return "ended otherwise";
    }
}

static int say(const char *what, ending e) {
    printf("%s: %s", what, how(e.report));
    if (e.report == HUSKERIVORY_REPORT_REFUSED) {
        printf(" as %u", (unsigned)e.value);
    }
    printf("\n");
    return e.report == HUSKERIVORY_REPORT_DONE;
}

static void show_scoreboard(void) {
    const uint8_t *at = scoreboard();
    printf("the scoreboard holds card %u:", at[0]);
    for (int hole = 1; hole <= 18; hole++) {
        printf(hole == 10 ? "  %u" : " %u", at[hole]);
    }
    printf("  total %u\n", at[19]);
}

/* A competition's card is text, a row for each hole with its name and the strokes. It is longer than the 255 bytes that NBYTES
 * counts, and still one operation: the driver sends it in pieces, with one START. */
static uint32_t competition(uint8_t *card, uint32_t room) {
    static const char *const holes[18] = {"Lane End",      "The Spinney", "Short Carry", "Mill Race",  "Parson's Oak", "Long Meadow",
                                          "Quarry",        "Beacon Hill", "The Turn",    "Heron Pool", "Gorse Bank",   "Drovers' Way",
                                          "Postage Stamp", "Windmill",    "Old Wall",    "Lime Kiln",  "Chapel Walk",  "Home"};
    static const unsigned strokes[18] = {4, 5, 3, 6, 4, 5, 4, 4, 5, 4, 4, 6, 3, 5, 4, 2, 5, 5};
    uint32_t at = 0;
    for (int i = 0; i < 18; i++) {
        at += (uint32_t)snprintf((char *)card + at, room - at, "%d;%s;%u\n", i + 1, holes[i], strokes[i]);
    }
    return at;
}

/* A library of another version would take other arguments. */
static int is_the_headers_library(void) {
    static const uint32_t expected[HUSKERIVORY_ABI_SIZES] = HUSKERIVORY_ABI_EXPECTED;
    uint32_t sizes[HUSKERIVORY_ABI_SIZES];
    return huskerivory_abi(sizes) == HUSKERIVORY_ABI && memcmp(sizes, expected, sizeof sizes) == 0;
}

int main(void) {
    /* the place where a card begins; its number, the strokes on its holes, and their total */
    uint8_t card_17[] = {0, 17, 4, 5, 3, 4, 4, 6, 3, 5, 4, 5, 4, 3, 4, 5, 4, 4, 3, 5, 75};
    uint8_t card_18[] = {0, 18, 5, 5, 4, 4, 5, 6, 3, 5, 5, 5, 4, 4, 4, 5, 4, 5, 3, 6, 82};
    uint8_t total[] = {19, 0};
    static uint8_t names[SCOREBOARD_PLACES]; /* the place where it begins, and a competition's card */
    uint32_t timingr;

    if (!is_the_headers_library()) {
        printf("the library is not the one of this header\n");
        return 1;
    }
    /* 400 kHz from a kernel clock of 250 MHz */
    if (huskerivory_timing(250000000, 400000, &timingr) != 0) {
        printf("no timing for this clock\n");
        return 1;
    }
    int well = say("set up", set_up(timingr));

    well &= say("card 17", send(card_17, sizeof card_17));
    show_scoreboard();

    well &= say("its total", ask(total, sizeof total));
    printf("the scoreboard says %u\n", total[1]);

    /* The place, the number and six holes are taken; hole 7 is not. */
    scoreboard_gives_up_after(8);
    well &= !say("card 18", send(card_18, sizeof card_18));
    show_scoreboard();

    scoreboard_gives_up_after(sizeof names);
    uint32_t length = competition(names + 1, sizeof names - 1);
    well &= say("the competition's card", send(names, 1 + length));
    well &= memcmp(scoreboard(), names + 1, length) == 0;
    printf("the scoreboard holds its %u bytes, the last row %s", (unsigned)length, (const char *)scoreboard() + length - strlen("18;Home;5\n"));
    return well ? 0 : 1;
}
