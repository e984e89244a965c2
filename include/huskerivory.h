/* Huskerivory: a proved I2C driver for the STM32H5, for C.
 *
 * The driver touches no register. A call (transaction, read, wait_for_event ..) is begun and then advanced. An advance is lent
 * what the registers answered and a log; it goes on from the saved call, writes into the log which registers were read and
 * which are to be written, and says how far it came. The caller makes the accesses:
 *
 *     huskerivory_abi(..)                                once: the library is the one that this header describes
 *     huskerivory_begin(..)                              0, or the number of a refusal
 *     offset of the first read, if the first access is one, by huskerivory_next(..)
 *     loop:
 *         read the awaited register, if there is one; its word is the one answer
 *         huskerivory_advance(..)                        8 log entries are enough for one answer
 *         carry out the log's writes in their order; the entry of the read is the access already made
 *         waiting: `awaited` is the register to read next; go round
 *         full:    go round without reading
 *         else the call is over, or refused
 *
 * No function asks anything of its caller but valid pointers: every number, list, length and saved call has an answer, if only
 * a numbered refusal. A refusal uses no answer and writes neither log, buffer nor saved call; only a refused begin
 * clears the saved call, so that nothing can be advanced by mistake.
 *
 * Pointers. A slice is a pointer and its length in bytes, which is 64 bits wide on every machine. No pointer is null, not
 * even that of a slice of length 0; one to a struct or a number is aligned as C aligns these. Pointers without `const` are
 * written through: what they point to may overlap nothing else that is lent to the same call. What is only read may overlap
 * what is only read. Nothing is kept: after the return all of it is the caller's again.
 *
 * Words. Operations, answers, log entries, the saved call and speed bands are 32-bit words in little-endian bytes, without alignment.
 * Bytes after the last whole word, or after the last whole log entry, are neither read nor written; only huskerivory_page refuses a
 * log that has such bytes, and a table of bands is refused that is not whole rows. The numbers of a struct are the machine's own.
 *
 * The library is, for x86-64, target/staticlib/libboundary.a, which `tools/built boundary_c` writes; for the Cortex-M33,
 * target/chip/libhuskerivory-thumbv8m.a, and the same name with -hard for callers that pass floating-point numbers in
 * registers, which `chip/build` writes. This header is the same for all of them: only pointers and numbers of 32 and 64 bits
 * cross. */
#ifndef HUSKERIVORY_H
#define HUSKERIVORY_H

#include <stdint.h>

#ifdef __cplusplus
extern "C" {
#endif

/* ---- Version and sizes */

/* What this header was written for. With version 3 a saved call got its ninth word. One that was stored by version 2 has 32 bytes and is
 * refused as 13, for its length: begin the call anew. Do not fill it up with zeros: a manual write would count too few bytes. */
#define HUSKERIVORY_ABI 3

#define HUSKERIVORY_DESCRIPTION 64 /* bytes of a description */
#define HUSKERIVORY_SAVED_CALL 36  /* bytes of a saved call */
#define HUSKERIVORY_ADVANCED 32    /* bytes of what an advance leaves besides its report */
#define HUSKERIVORY_LOG_ENTRY 8    /* bytes of a log entry */
#define HUSKERIVORY_OPERATIONS 64  /* operations of a transaction, at most */
#define HUSKERIVORY_BUFFER 65535   /* bytes of a buffer, at most */
#define HUSKERIVORY_REPORTS 13     /* reports: they are numbered from 0 on */
#define HUSKERIVORY_STEPS 46       /* steps of a saved call, numbered so too */

/* These eight in their order, as `huskerivory_abi` leaves them. */
#define HUSKERIVORY_ABI_SIZES 8
#define HUSKERIVORY_ABI_EXPECTED                                                                                     \
    {                                                                                                                \
        HUSKERIVORY_DESCRIPTION, HUSKERIVORY_SAVED_CALL, HUSKERIVORY_ADVANCED, HUSKERIVORY_LOG_ENTRY,                \
            HUSKERIVORY_OPERATIONS, HUSKERIVORY_BUFFER, HUSKERIVORY_REPORTS, HUSKERIVORY_STEPS                       \
    }

/* Returns the version of the library that is linked, and leaves its sizes. Where they are not those of this header call nothing
 * else. */
uint32_t huskerivory_abi(uint32_t sizes[HUSKERIVORY_ABI_SIZES]);

/* ---- Words */

/* A word in four bytes, on every machine and at any alignment: for operations and answers, and to look at a log. These two are
 * the header's own; the library has no part in them. */
static inline void huskerivory_put_word(uint8_t *bytes, uint32_t word) {
    int i;
    for (i = 0; i < 4; i++) {
        bytes[i] = (uint8_t)(word >> (8 * i));
    }
}

static inline uint32_t huskerivory_get_word(const uint8_t *bytes) {
    uint32_t word = 0;
    int i;
    for (i = 0; i < 4; i++) {
        word |= (uint32_t)bytes[i] << (8 * i);
    }
    return word;
}

/* ---- Calls */

/* The calls, named after the functions of stm32h5xx-hal. The six from WAIT_FOR_EVENT to WAIT_FOR_STOP have an AutoAck form,
 * these numbers, and a ManualAck form, 16 more (24 to 29). Every other number is refused as 12. */
enum {
    HUSKERIVORY_CALL_NEW = 1,
    HUSKERIVORY_CALL_TARGET_NEW = 2,
    HUSKERIVORY_CALL_CONFIGURE_TARGET_ADDRESSES = 3,
    HUSKERIVORY_CALL_ENABLE_TARGET_EVENT = 4,
    HUSKERIVORY_CALL_DISABLE_TARGET_EVENT = 5,
    HUSKERIVORY_CALL_RESET = 6,
    HUSKERIVORY_CALL_TRANSACTION = 7,
    HUSKERIVORY_CALL_WAIT_FOR_EVENT = 8,
    HUSKERIVORY_CALL_READ = 9,
    HUSKERIVORY_CALL_WRITE = 10,
    HUSKERIVORY_CALL_WAIT_FOR_TARGET_READ = 11,
    HUSKERIVORY_CALL_WAIT_FOR_TARGET_WRITE = 12,
    HUSKERIVORY_CALL_WAIT_FOR_STOP = 13,
    HUSKERIVORY_CALL_ACK_TRANSFER = 14,
    HUSKERIVORY_CALL_NACK_TRANSFER = 15,
    HUSKERIVORY_MANUAL_ACK = 16 /* is added to 8 .. 13 */
};

/* What a target listens to: `listen` of calls 4 and 5. */
enum {
    HUSKERIVORY_LISTEN_GENERAL_CALL = 0,
    HUSKERIVORY_LISTEN_PRIMARY_ADDRESS = 1,
    HUSKERIVORY_LISTEN_SECONDARY_ADDRESS = 2
};

/* No secondary address, no mask. */
#define HUSKERIVORY_NONE UINT32_C(0xFFFFFFFF)

/* What is asked. A call looks only at the fields that belong to it, whose numbers stand here; the others may hold anything.
 * The description, the operations and the buffer's length stay the same from begin to the call's end. */
typedef struct {
    uint32_t call;        /* the call's number */
    uint32_t address;     /* 7: the target's address, unshifted: up to 127, or up to 1,023 with ten bits */
    uint32_t ten;         /* 7: not 0 if the address has ten bits */
    uint32_t listen;      /* 4, 5: which event, 0 .. 2 */
    uint32_t timingr;     /* 1, 2: the TIMINGR word; bits 24 to 27 are ignored, and call 2 leaves SCLH and SCLL out */
    uint32_t configured;  /* 1: not 0 if there are own addresses (2 and 3 always have them) */
    uint32_t own;         /* 1, 2, 3: the own address, unshifted */
    uint32_t own_ten;     /* 1, 2, 3: not 0 if the own address has ten bits */
    uint32_t secondary;   /* 1, 2, 3: a second own address, of seven bits, or HUSKERIVORY_NONE */
    uint32_t mask;        /* 1, 2, 3: how many low bits of the second one are not compared, up to 6, or HUSKERIVORY_NONE */
    uint32_t reserved[6]; /* set these to 0: this version does not look at them; to a later one that does, 0 means as before */
} huskerivory_description;

/* An operation of a transaction is a word: its length (up to 65,535 bytes) and, if bytes are to come in, this bit. A
 * transaction has at most HUSKERIVORY_OPERATIONS of them. Their bytes stand in the buffer one operation after the other, so that the
 * lengths sum up to the buffer's. No other call looks at the operations.
 *
 * NBYTES counts to 255, so an operation goes in pieces: 255 bytes as long as more than 255 are left, then the last 1 to 255; an
 * operation of no byte is one empty piece. CR2 is written once for each piece. RELOAD joins the pieces of an operation, and those of
 * neighbours that go the same way, so that a START is sent for the first piece and where the direction changes, and nowhere else. A
 * list has 320 pieces at most; HUSKERIVORY_OPERATIONS counts operations alone. */
#define HUSKERIVORY_OPERATION_READ UINT32_C(0x10000)

/* The buffer holds a transaction's bytes, those put out and the places of those that come in; for 10 and 12 (26, 28) the bytes to
 * put out; for 9 and 11 (25, 27) the places to fill. It has at most HUSKERIVORY_BUFFER bytes, and at least one for 9 to 12. Only places of
 * bytes that come in are ever written. */

/* ---- Refusals */

/* The first of these that fits is given, in the order in which they stand. 1 to 6 come from huskerivory_timing, these and 16 and 17 from
 * huskerivory_timing_by_bands, 16 from huskerivory_load_bands too, 7 from huskerivory_pack, 15 from huskerivory_page, the others from
 * begin, next and advance; 13 from next and advance, and for a wrong `saved_len`. 9 is out of use: it was an operation over 255 bytes.
 * 14 is a bench file, which does not cross here. */
enum {
    HUSKERIVORY_REFUSAL_BAD_BANDS = 16,    /* bad bands: the table is none that huskerivory_load_bands accepts */
    HUSKERIVORY_REFUSAL_NO_SPEED = 1,      /* no speed: the bus frequency is 0 */
    HUSKERIVORY_REFUSAL_CLOCK_OVER = 2,    /* clock over: the kernel clock is above 250 MHz */
    HUSKERIVORY_REFUSAL_NO_BAND = 17,      /* no band: the frequency is above the upper frequency of the last row */
    HUSKERIVORY_REFUSAL_RATIO = 3,         /* ratio: the clock is not four times the frequency */
    HUSKERIVORY_REFUSAL_CLOCK_SLOW = 4,    /* clock slow: below the least clock for such a frequency */
    HUSKERIVORY_REFUSAL_SPEED_LOW = 5,     /* speed low: the clock is too many times the frequency */
    HUSKERIVORY_REFUSAL_NO_SETUP = 6,      /* no setup: no data setup time can be counted */
    HUSKERIVORY_REFUSAL_FIELD_WIDE = 7,    /* field wide: presc, scldel or sdadel is above 15 */
    HUSKERIVORY_REFUSAL_NO_SUCH_CALL = 12, /* no such call: the call's number or the listen kind is not listed */
    HUSKERIVORY_REFUSAL_ADDRESS = 8,       /* address: too wide for its seven or ten bits, or a mask above 6 */
    HUSKERIVORY_REFUSAL_LIST = 10,         /* list: over 64 operations, bits 17 to 31 set, or lengths that are not the buffer's */
    HUSKERIVORY_REFUSAL_BUFFER = 11,       /* buffer: none for an AutoAck transfer (9 to 12), or over 65,535 bytes */
    HUSKERIVORY_REFUSAL_SAVED_CALL = 13,   /* saved call: its bytes are no saved call, or none that this call can come to */
    HUSKERIVORY_REFUSAL_PAGE = 15          /* page: a part of an entry, a code of no register, or a page longer than its room */
};

/* ---- The saved call */

/* A call between two advances: HUSKERIVORY_SAVED_CALL bytes, nine words. They can be stored and handed back later, by another program too:
 *
 *     bytes  0 ..  3   the call's number; 0 after a refused begin, which no advance takes
 *     bytes  4 ..  7   piece: which piece is running, counted through the whole list, or which block of a target's transfer
 *     bytes  8 .. 11   byte: which byte of it
 *     bytes 12 .. 15   word: what the last half-done modify read
 *     bytes 16 .. 19   accesses made so far, held at 4,294,967,295
 *     bytes 20 .. 23   outcome: the number (0 .. 9) of what the call ended with or, before its end, of what is on its way
 *     bytes 24 .. 27   the outcome's value: a count for 0, an address for 7 and 8, 0 for the others
 *     bytes 28 .. 31   step: the access that comes next (1 .. 45), 0 at the end
 *     bytes 32 .. 35   out: the bytes that a manual write (26, 28) has put out, held at the buffer's length + 1; else 0, and not looked at
 *
 * Bytes that are none are refused as 13: another length, an outcome above 9, a value with an outcome that has none, a step above
 * 45; and so is what this call never comes to: another call's number or, before the end, a step that it never takes, a piece
 * that is not there, a byte number outside the piece or, in a manual write, more bytes put out than the buffer's length + 1. */

/* ---- Begin */

/* Begins a call: 0 and the saved call, or the number of a refusal and a saved call of zero bytes. Where `saved_len` is not
 * HUSKERIVORY_SAVED_CALL it writes nothing and refuses, as 13 if nothing else is wrong. The buffer's bytes are not looked at. */
uint32_t huskerivory_begin(const huskerivory_description *description,
                           const uint8_t *operations, uint64_t operations_len,
                           const uint8_t *buffer, uint64_t buffer_len,
                           uint8_t *saved, uint64_t saved_len);

/* ---- Next */

/* Which access the next advance makes first. */
enum {
    HUSKERIVORY_ACCESS_OVER = 0,   /* none, the call has ended */
    HUSKERIVORY_ACCESS_READ = 1,   /* a read: the next advance takes its word as the first answer */
    HUSKERIVORY_ACCESS_WRITE = 2,  /* a write: the next advance needs no answer for it */
    HUSKERIVORY_ACCESS_REFUSED = 3 /* none, an advance would be refused */
};

/* Returns one of these four, and leaves in `value` the register's offset, or the number of the refusal, else 0. Nothing else is
 * written. */
uint32_t huskerivory_next(const huskerivory_description *description,
                          const uint8_t *operations, uint64_t operations_len,
                          const uint8_t *saved, uint64_t saved_len,
                          const uint8_t *buffer, uint64_t buffer_len,
                          uint32_t *value);

/* ---- Advance */

/* How an advance came out. 0 to 9 are the call's outcome: it is over, and a further advance says the same again.
 *
 * What a target's transfer counts. If bytes come in (9, 11, 25, 27): those that came. If they go out (10, 12, 26, 28), until the controller's
 * NACK: those put out in the whole call, less one, since the last is taken to be in TXDR still; never below 0, and at most the buffer's
 * length. The blocks of a manual call count together. Filling zeros are put out too; the zero that flushes TXDR after the NACK is not.
 *
 * The address of 7 and 8 is unshifted: ISR's ADDCODE or, where ADDCODE is 0x78 to 0x7B and the OAR1 that is read then has OA1MODE 1, its
 * OA1, of ten bits. So a board of seven bits at 0x78 is called at 0x78; and on one whose own address has ten bits, a call of a secondary
 * address 0x78 to 0x7B is told as one of the own address. */
enum {
    HUSKERIVORY_REPORT_DONE = 0,           /* done; value: the bytes that a target's transfer counts, else 0 */
    HUSKERIVORY_REPORT_BUS = 1,            /* a bus error */
    HUSKERIVORY_REPORT_ARBITRATION = 2,    /* arbitration was lost */
    HUSKERIVORY_REPORT_NACK = 3,           /* the address or a byte was not acknowledged */
    HUSKERIVORY_REPORT_STOPPED = 4,        /* a stop or a new start came before the end */
    HUSKERIVORY_REPORT_EXPECTED_WRITE = 5, /* 11, 13: not what was waited for, the controller reads: the target is to write */
    HUSKERIVORY_REPORT_EXPECTED_READ = 6,  /* 12, 13: not what was waited for, the controller writes: the target is to read */
    HUSKERIVORY_REPORT_EVENT_READ = 7,     /* the controller reads; value: the address that it called */
    HUSKERIVORY_REPORT_EVENT_WRITE = 8,    /* the controller writes; value: the address that it called */
    HUSKERIVORY_REPORT_EVENT_STOP = 9,     /* a stop */
    HUSKERIVORY_REPORT_WAITING = 10,       /* the next access is a read, and no answer is left for it */
    HUSKERIVORY_REPORT_REFUSED = 11,       /* nothing was done; value: the number of the refusal */
    HUSKERIVORY_REPORT_FULL = 12           /* the log has no place for the next access */
};

/* What an advance leaves besides its report. Each number has 64 bits on every machine. */
typedef struct {
    uint64_t value;   /* a count, an address or the number of a refusal, else 0 */
    uint64_t awaited; /* waiting: the offset of the register whose word the next advance takes first; else 0 */
    uint64_t used;    /* answers used, in words */
    uint64_t written; /* log entries written */
} huskerivory_advanced;

/* A log entry is two words: the register's offset, plus this bit for a write, and the value read or to be written. */
#define HUSKERIVORY_LOG_WRITE UINT32_C(0x100)

/* Goes on from the saved call, which it updates, until the call has ended, the log has no place for the next access (`full`,
 * looked at first), or the next access is a read and no answer is left (`waiting`). One access takes one log entry, a read one
 * answer too. However a call is cut into advances, it makes the same accesses. Entries after the last one written stay as they
 * were.
 *
 * It returns one of the thirteen reports, and leaves the rest of what it has to say in `answer`, whatever that held. A refused
 * advance changes nothing else. */
uint32_t huskerivory_advance(const huskerivory_description *description,
                             const uint8_t *operations, uint64_t operations_len,
                             uint8_t *saved, uint64_t saved_len,
                             uint8_t *buffer, uint64_t buffer_len,
                             const uint8_t *answers, uint64_t answers_len,
                             uint8_t *log, uint64_t log_len,
                             huskerivory_advanced *answer);

/* ---- Page */

#define HUSKERIVORY_PAGE_LINE 81   /* bytes of a page's line: 80 characters and LF */
#define HUSKERIVORY_PAGE_ENTRY 405 /* bytes that an entry takes at most: 5 lines */

/* Lays a log out on a service page, for paper of 80 columns. `log` is what advances have written, their entries one after the other
 * as they came. Every entry begins a line:
 *
 *     columns  1 ..  6   its number in this log, six digits: 000001 for the first; of a longer number the last six, so that
 *                        000000 follows 999999
 *     columns  8 .. 12   `read` or `write`
 *     columns 14 .. 20   the register, as RM0492 names it
 *     columns 22 .. 29   the value, eight hexadecimal digits in capitals
 *     from column 31 on  what the value holds, from its top bit down, one space apart: the name of each field of one bit that is
 *                        set; every field of more bits, 0 too, as name, `=` and decimal number; `bit` and its number, as bit27,
 *                        for each bit that is set and in no field
 *
 * What would pass column 80 goes on in column 31 of a new line, broken between two of these and never within one. Each line has 80
 * characters, spaces at its end, and then LF; there is no other character, and no 0 at the page's end:
 *
 *     000001 write CR2     020220A0 AUTOEND NBYTES=2 START SADD=160
 *     000002 read  ISR     00000001 ADDCODE=0 TXE
 *     000003 write ICR     00000000
 *     000004 read  CR1     FFFF0001 STOPFACLR ADDRACLR bit29 bit28 bit27 bit26 bit25
 *                                   FMP PECEN ALERTEN SMBDEN SMBHEN GCEN WUPEN
 *                                   NOSTRETCH SBC DNF=0 PE
 *
 * An entry takes one to five lines, so a page has HUSKERIVORY_PAGE_LINE to HUSKERIVORY_PAGE_ENTRY bytes for each entry: a buffer with
 * HUSKERIVORY_PAGE_ENTRY for each is always long enough. Two logs with the same page are the same log.
 *
 * Returns 0: `length` is the page's length in bytes, the page stands at the start of `page`, and every byte after it is as it was. Or
 * returns refusal 15: `length` is 0, and every byte of `page` is as it was. That is so if `log_len` is not a multiple of
 * HUSKERIVORY_LOG_ENTRY, if the code of an entry is, as a whole word, neither the offset of one of the nine registers nor such an
 * offset plus HUSKERIVORY_LOG_WRITE, or if the page is longer than `page_len`; and in no other case. A log of no entry has a page of
 * length 0, in a buffer of any length, 0 too. */
uint32_t huskerivory_page(const uint8_t *log, uint64_t log_len,
                          uint8_t *page, uint64_t page_len,
                          uint64_t *length);

/* ---- Timing */

/* The fields of TIMINGR. */
typedef struct {
    uint8_t presc, scldel, sdadel, sclh, scll;
} huskerivory_timing_fields;

/* Leaves the TIMINGR word for a kernel clock and a bus frequency in hertz and returns 0; or returns one of the refusals 1 to 6 and
 * leaves 0. */
uint32_t huskerivory_timing(uint32_t clock, uint32_t frequency, uint32_t *timingr);

/* Leaves the TIMINGR word of five fields and returns 0; or returns refusal 7 and leaves 0. */
uint32_t huskerivory_pack(const huskerivory_timing_fields *fields, uint32_t *timingr);

/* Leaves the fields of a TIMINGR word; bits 24 to 27 belong to none. */
void huskerivory_unpack(uint32_t timingr, huskerivory_timing_fields *fields);

/* ---- The board's own speed bands */

#define HUSKERIVORY_BAND 24  /* bytes of a row */
#define HUSKERIVORY_BANDS 16 /* rows of a table, at most */

/* How SCLH and SCLL share a period: the shape of a row. */
enum {
    HUSKERIVORY_SHAPE_EQUAL = 0, /* both halves the same */
    HUSKERIVORY_SHAPE_DOUBLE = 1 /* low twice as long as high */
};

/* Where cables are longer, or edges slower, than huskerivory_timing allows for, the board's maker supplies speed bands of the board's own:
 * a table of 1 to HUSKERIVORY_BANDS rows, one after the other, HUSKERIVORY_BAND bytes each, six words:
 *
 *     bytes  0 ..  3   upper: the row is for bus frequencies up to this one, in hertz, and above that of the row before
 *     bytes  4 ..  7   least_clock: the least kernel clock, in hertz
 *     bytes  8 .. 11   d: 8 to 256, for the prescaler
 *     bytes 12 .. 15   sdadel: a divisor of the clock, for the data hold time
 *     bytes 16 .. 19   scldel: another, for the data setup time
 *     bytes 20 .. 23   shape: HUSKERIVORY_SHAPE_EQUAL or HUSKERIVORY_SHAPE_DOUBLE
 *
 * A row's fields of TIMINGR are, all divisions whole, with r = clock / frequency:
 *
 *     p = (r - 1) / d + 1, and in a row of shape equal at most 16; c = r / p
 *     PRESC = p - 1
 *     SCLDEL = clock / scldel / p - 1, held to 4 .. 15
 *     SDADEL = clock / sdadel / p, held to 1 .. 15
 *     equal:  SCLH = (c - 2) / 2, SCLL = SCLH
 *     double: SCLH = (c - 3) / 3, SCLL = 2 (SCLH + 1) - 1
 *
 * A row with names to its words. On a little-endian machine, as both are that the library is made for, an array of these is a table as
 * it stands, which can stay in flash: (const uint8_t *)bands, sizeof bands. */
typedef struct {
    uint32_t upper, least_clock, d, sdadel, scldel, shape;
} huskerivory_band;

/* A row in its 24 bytes, on every machine and at any alignment. This is the header's own; the library has no part in it. */
static inline void huskerivory_put_band(uint8_t *bytes, const huskerivory_band *band) {
    huskerivory_put_word(bytes, band->upper);
    huskerivory_put_word(bytes + 4, band->least_clock);
    huskerivory_put_word(bytes + 8, band->d);
    huskerivory_put_word(bytes + 12, band->sdadel);
    huskerivory_put_word(bytes + 16, band->scldel);
    huskerivory_put_word(bytes + 20, band->shape);
}

/* Says whether a table can be used: returns 0, it is accepted, or refusal 16. It is accepted if it has 1 to HUSKERIVORY_BANDS rows, no byte
 * less or more, every upper frequency is above that of the row before, each d is 8 to 256, no sdadel and no scldel is 0, and each shape
 * is 0 or 1; and in no other case. An upper frequency of 0 and any least clock are taken.
 *
 * Nothing is kept and nothing written: the bytes stay with the caller, who lends them again for each timing. */
uint32_t huskerivory_load_bands(const uint8_t *bands, uint64_t length);

/* Leaves the TIMINGR word for a kernel clock and a bus frequency in hertz, by the board's own bands, and returns 0; or returns a refusal
 * and leaves 0. The whole table is looked at first, each time, so that it need not have been loaded; one that huskerivory_load_bands
 * accepts is never refused as 16. The refusals, in their order, each where none before it fits:
 *
 *     16   huskerivory_load_bands refuses the table
 *      1   the frequency is 0
 *      2   the clock is above 250 MHz
 *     17   the frequency is above the upper frequency of the last row; every other one has a row, the first that goes up to it
 *      3   the clock is not four times the frequency
 *      4   the clock is below the row's least one
 *      5   p is above 16, in a row of shape double, or SCLH or SCLL above 255, in any row
 *      6   clock / scldel / p is 0, in any row: no data setup time can be counted
 *
 * With these five rows it returns and leaves what huskerivory_timing does, for every clock and frequency:
 *
 *     upper          least_clock     d      sdadel      scldel   shape
 *             7,999    2,000,000   256   2,000,000     500,000   equal
 *            79,999    2,000,000   128   2,000,000     500,000   equal
 *           100,000    2,000,000    64   2,000,000     500,000   equal
 *           400,000    8,000,000    96   3,000,000   1,000,000   double
 *     4,294,967,295   17,000,000    96   8,000,000   4,000,000   double
 */
uint32_t huskerivory_timing_by_bands(const uint8_t *bands, uint64_t length, uint32_t clock, uint32_t frequency, uint32_t *timingr);

/* ---- Layout */

/* To the library the first three structs are arrays of numbers, and a band is the bytes of a row. All members of one have one size, so no
 * compiler has a reason to leave a gap; if one did, this would not compile. */
#if defined(__cplusplus) && __cplusplus >= 201103L
#define HUSKERIVORY_SIZE(type, size) static_assert(sizeof(type) == (size), #type)
#elif !defined(__cplusplus) && defined(__STDC_VERSION__) && __STDC_VERSION__ >= 201112L
#define HUSKERIVORY_SIZE(type, size) _Static_assert(sizeof(type) == (size), #type)
#else
#define HUSKERIVORY_SIZE(type, size) typedef char type##_size[sizeof(type) == (size) ? 1 : -1]
#endif
HUSKERIVORY_SIZE(huskerivory_description, HUSKERIVORY_DESCRIPTION);
HUSKERIVORY_SIZE(huskerivory_advanced, HUSKERIVORY_ADVANCED);
HUSKERIVORY_SIZE(huskerivory_timing_fields, 5);
HUSKERIVORY_SIZE(huskerivory_band, HUSKERIVORY_BAND);
#undef HUSKERIVORY_SIZE

#ifdef __cplusplus
}
#endif

#endif
