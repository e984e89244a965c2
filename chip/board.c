/* A simulated I2C peripheral, with a scoreboard on its bus. Time passes when ISR is read: the bus needs two such polls for an
 * address and for each byte, so that the driver is idle now and then, as it is on a bus. */
#include "board.h"

enum { CR1 = 0x00, CR2 = 0x04, ISR = 0x18, ICR = 0x1C, RXDR = 0x24, TXDR = 0x28 };

#define CR2_SADD 0x3FFU
#define CR2_RD_WRN (1U << 10)
#define CR2_START (1U << 13)
#define CR2_NBYTES(word) ((word) >> 16 & 0xFFU)
#define CR2_RELOAD (1U << 24)
#define CR2_AUTOEND (1U << 25)

#define ISR_TXE (1U << 0)
#define ISR_TXIS (1U << 1)
#define ISR_RXNE (1U << 2)
#define ISR_NACKF (1U << 4)
#define ISR_STOPF (1U << 5)
#define ISR_TC (1U << 6)
#define ISR_TCR (1U << 7)

enum { POLLS = 2, NO_PLACE = SCOREBOARD_PLACES };

static uint32_t cr1, cr2, isr = ISR_TXE;
static enum { RESTING, ADDRESSING, SENDING, RECEIVING } bus;
static unsigned polls; /* until what the bus does is done */
static unsigned left;  /* bytes of the running transfer */
static uint8_t moving; /* the byte on the bus */

static uint8_t places[SCOREBOARD_PLACES];
static unsigned place;            /* of the next byte; NO_PLACE until a write has said it */
static unsigned patience = 65535; /* bytes that the scoreboard still acknowledges */

const uint8_t *scoreboard(void) {
    return places;
}

void scoreboard_gives_up_after(unsigned bytes) {
    patience = bytes;
}

/* ---- The scoreboard */

static uint8_t *next_place(void) {
    uint8_t *here = &places[place % SCOREBOARD_PLACES];
    place = (place + 1) % SCOREBOARD_PLACES;
    return here;
}

static int scoreboard_takes(uint8_t byte) {
    if (patience == 0) {
        return 0;
    }
    patience--;
    if (place == NO_PLACE) {
        place = byte % SCOREBOARD_PLACES;
    } else {
        *next_place() = byte;
    }
    return 1;
}

/* ---- The bus */

static void begins(int what) {
    bus = what;
    polls = POLLS;
}

static void not_acknowledged(void) {
    isr |= ISR_NACKF | ISR_STOPF;
}

/* What the peripheral asks for before the next byte, or says after the last one. */
static void go_on(void) {
    if (left > 0 && cr2 & CR2_RD_WRN) {
        begins(RECEIVING);
    } else if (left > 0) {
        isr |= ISR_TXIS;
    } else {
        isr |= cr2 & CR2_AUTOEND ? ISR_STOPF : cr2 & CR2_RELOAD ? ISR_TCR : ISR_TC;
    }
}

static void addressed(void) {
    cr2 &= ~CR2_START;
    if ((cr2 & CR2_SADD) != SCOREBOARD_ADDRESS << 1) {
        not_acknowledged();
        return;
    }
    if (!(cr2 & CR2_RD_WRN)) {
        place = NO_PLACE;
    }
    go_on();
}

static void sent(void) {
    left--;
    if (scoreboard_takes(moving)) {
        go_on();
    } else {
        not_acknowledged();
    }
}

static void received(void) {
    left--;
    moving = *next_place();
    isr |= ISR_RXNE;
}

static void time_passes(void) {
    if (bus == RESTING || --polls > 0) {
        return;
    }
    int done = bus;
    bus = RESTING;
    if (done == ADDRESSING) {
        addressed();
    } else if (done == SENDING) {
        sent();
    } else {
        received();
    }
}

/* ---- The registers */

uint32_t i2c_read(uint32_t offset) {
    switch (offset) {
    case CR1:
        return cr1;
    case CR2:
        return cr2;
    case ISR:
        time_passes();
        return isr;
    case RXDR:
        isr &= ~ISR_RXNE;
        go_on();
        return moving;
    default:
        return 0;
    }
}

static void write_cr2(uint32_t value) {
    cr2 = value;
    left = CR2_NBYTES(value);
    isr &= ~(ISR_TC | ISR_TCR);
    if (value & CR2_START) {
        begins(ADDRESSING);
    } else {
        go_on();
    }
}

void i2c_write(uint32_t offset, uint32_t value) {
    switch (offset) {
    case CR1:
        cr1 = value;
        break;
    case CR2:
        write_cr2(value);
        break;
    case ISR:
        isr |= value & ISR_TXE;
        break;
    case ICR:
        isr &= ~value;
        break;
    case TXDR:
        isr &= ~ISR_TXIS;
        moving = (uint8_t)value;
        begins(SENDING);
        break;
    default: /* timing and own addresses change nothing on this bus */
        break;
    }
}
