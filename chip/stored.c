/* Drives the stored calls, calls.txt in the folder that it is started in, and prints their text, which has to be what the Rust
 * driver wrote, text.txt. Each call is made three times: uncut, with one answer to an advance, and cut at random between
 * answers and log places; the three have to leave the same accesses, bytes and outcome. */
#include "huskerivory.h"

#include <stdio.h>
#include <stdlib.h>
#include <string.h>

enum { OPERATIONS = 80, BYTES = HUSKERIVORY_BUFFER + 2, ANSWERS = 2048, PLACES = 2048 };

/* ---- A stored call, and what came of it */

typedef struct {
    huskerivory_description description;
    uint8_t operations[4 * OPERATIONS], buffer[BYTES], answers[4 * ANSWERS];
    uint32_t operation_count, buffer_len, answer_count;
} call;

typedef struct {
    uint32_t report, value, used, entries;
    uint8_t buffer[BYTES], saved[HUSKERIVORY_SAVED_CALL], log[PLACES * HUSKERIVORY_LOG_ENTRY];
} result;

/* How many answers and log places the next advance gets. */
typedef struct {
    const char *name;
    uint32_t answers, places;
    int at_random; /* these numbers at most */
} cut;

static const cut cuts[] = {{"uncut", ANSWERS, PLACES, 0}, {"one answer to an advance", 1, 8, 0}, {"cut at random", 3, 5, 1}};

static _Noreturn void fail(const char *what, const char *why) {
    fflush(stdout);
    fprintf(stderr, "FAILED: %s: %s\n", what, why);
    exit(1);
}

/* ---- A call made with a cut */

static uint32_t least(uint32_t m, uint32_t n) {
    return m < n ? m : n;
}

/* The same numbers on every machine. */
static uint32_t up_to(uint32_t most) {
    static uint32_t state = 1;
    state = state * 1664525 + 1013904223;
    return (state >> 16) % (most + 1);
}

static void make(const call *c, const cut *how, result *r) {
    memset(r, 0, sizeof *r);
    memcpy(r->buffer, c->buffer, sizeof r->buffer);
    r->value = huskerivory_begin(&c->description, c->operations, 4 * c->operation_count, r->buffer, c->buffer_len, r->saved,
                                 sizeof r->saved);
    r->report = r->value == 0 ? HUSKERIVORY_REPORT_FULL : HUSKERIVORY_REPORT_REFUSED;
    for (uint32_t turn = 0; r->report == HUSKERIVORY_REPORT_FULL || r->report == HUSKERIVORY_REPORT_WAITING; turn++) {
        uint32_t answers = least(c->answer_count - r->used, how->at_random ? up_to(how->answers) : how->answers);
        uint32_t places = least(PLACES - r->entries, how->at_random ? up_to(how->places) : how->places);
        huskerivory_advanced a;
        r->report = huskerivory_advance(&c->description, c->operations, 4 * c->operation_count, r->saved, sizeof r->saved,
                                        r->buffer, c->buffer_len, c->answers + 4 * r->used, 4 * answers,
                                        r->log + r->entries * HUSKERIVORY_LOG_ENTRY, places * HUSKERIVORY_LOG_ENTRY, &a);
        r->value = (uint32_t)a.value;
        r->used += (uint32_t)a.used;
        r->entries += (uint32_t)a.written;
        if (r->report == HUSKERIVORY_REPORT_WAITING && r->used == c->answer_count) {
            break;
        }
        if (turn > 20 * (ANSWERS + PLACES)) {
            fail(how->name, "a call that comes to no end");
        }
    }
    if (huskerivory_get_word(r->saved + 16) != r->entries) {
        fail(how->name, "the saved call counts other accesses");
    }
}

static void print(const call *c, const result *r) {
    static const char *const words[] = {"done",          "bus",        "arbitration", "nack",       "stopped", "expected-write",
                                        "expected-read", "event-read", "event-write", "event-stop", "waiting", "refused"};
    if (r->report > HUSKERIVORY_REPORT_REFUSED) {
        fail("text", "a report without a word");
    }
    printf("%u %s %u %u %u\n", (unsigned)c->description.call, words[r->report], (unsigned)r->value, (unsigned)r->used,
           (unsigned)r->entries);
    for (uint32_t i = 0; i < r->entries; i++) {
        uint32_t code = huskerivory_get_word(r->log + i * HUSKERIVORY_LOG_ENTRY);
        printf("%c %02X %08X\n", code & HUSKERIVORY_LOG_WRITE ? 'w' : 'r', (unsigned)(code & ~HUSKERIVORY_LOG_WRITE),
               (unsigned)huskerivory_get_word(r->log + i * HUSKERIVORY_LOG_ENTRY + 4));
    }
    printf("b");
    for (uint32_t i = 0; i < c->buffer_len; i++) {
        printf(i == 0 ? " %02X" : "%02X", r->buffer[i]);
    }
    printf("\n");
}

static void make_and_print(const call *c) {
    static result whole, other;
    make(c, &cuts[0], &whole);
    for (size_t i = 1; i < sizeof cuts / sizeof cuts[0]; i++) {
        make(c, &cuts[i], &other);
        if (memcmp(&whole, &other, sizeof whole) != 0) {
            fail(cuts[i].name, "something else came of it");
        }
    }
    print(c, &whole);
}

/* ---- calls.txt: names, each followed by its numbers; a flag has none; `run` ends a call; # begins a comment */

enum { WORD = 16 };

static call now;

static void forget_call(void) {
    memset(&now, 0, sizeof now);
    now.description.secondary = HUSKERIVORY_NONE;
    now.description.mask = HUSKERIVORY_NONE;
}

/* The words of the description by their names in the file, NULL for a name of something else. */
typedef struct {
    const char *name;
    uint32_t *word;
    int is_flag;
} field;

static const field *field_of(const char *name) {
    static const field fields[] = {
        {"call", &now.description.call, 0},
        {"address", &now.description.address, 0},
        {"ten", &now.description.ten, 1},
        {"listen", &now.description.listen, 0},
        {"timing", &now.description.timingr, 0},
        {"configured", &now.description.configured, 1},
        {"own", &now.description.own, 0},
        {"own-ten", &now.description.own_ten, 1},
        {"secondary", &now.description.secondary, 0},
        {"mask", &now.description.mask, 0},
    };
    for (size_t i = 0; i < sizeof fields / sizeof fields[0]; i++) {
        if (strcmp(name, fields[i].name) == 0) {
            return &fields[i];
        }
    }
    return NULL;
}

static void take_number(const char *name, uint32_t number) {
    const field *f = field_of(name);
    if (f != NULL) {
        *f->word = number;
    } else if (strcmp(name, "ops") == 0 && now.operation_count < OPERATIONS) {
        huskerivory_put_word(now.operations + 4 * now.operation_count++, number);
    } else if (strcmp(name, "bytes") == 0 && now.buffer_len < BYTES) {
        now.buffer[now.buffer_len++] = (uint8_t)number;
    } else if (strcmp(name, "zeros") == 0 && number <= BYTES - now.buffer_len) {
        now.buffer_len += number;
    } else if (strcmp(name, "answers") == 0 && now.answer_count < ANSWERS) {
        huskerivory_put_word(now.answers + 4 * now.answer_count++, number);
    } else {
        fail(name, "no such name in calls.txt, or too many of its numbers");
    }
}

/* 0 at the end of the file. */
static int next_word(FILE *file, char word[WORD]) {
    size_t length = 0;
    for (int c = getc(file); c != EOF; c = getc(file)) {
        if (c == '#') {
            do {
                c = getc(file);
            } while (c != '\n' && c != EOF);
        }
        if (c > ' ') {
            word[length++] = (char)c;
            if (length == WORD) {
                fail("calls.txt", "a word that is too long");
            }
        } else if (length > 0) {
            break;
        }
    }
    word[length] = 0;
    return length > 0;
}

int main(void) {
    char word[WORD], name[WORD] = "";
    unsigned count = 0;
    FILE *file = fopen("calls.txt", "r");
    if (file == NULL) {
        fail("calls.txt", "it cannot be read");
    }
    forget_call();
    while (next_word(file, word)) {
        char *end;
        uint32_t number = (uint32_t)strtoul(word, &end, 0);
        if (*end == 0) {
            take_number(name, number);
        } else if (strcmp(word, "run") == 0) {
            make_and_print(&now);
            forget_call();
            count++;
        } else {
            memcpy(name, word, sizeof name);
            const field *f = field_of(name);
            if (f != NULL && f->is_flag) {
                *f->word = 1;
            }
        }
    }
    fclose(file);
    printf("calls %u\n", count);
    return 0;
}
