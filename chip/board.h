/* The I2C peripheral as firmware sees it: two accesses by a register's offset. board.c simulates one with a scoreboard on its
 * bus. On an STM32H5 nothing of board.c is needed, and these are the two functions, with I2C1_BASE of ST's device header:
 *
 *     uint32_t i2c_read(uint32_t offset) { return *(volatile uint32_t *)(I2C1_BASE + offset); }
 *     void i2c_write(uint32_t offset, uint32_t value) { *(volatile uint32_t *)(I2C1_BASE + offset) = value; }
 *
 * Clocks, pins and the peripheral's reset are the firmware's to set up before. */
#ifndef BOARD_H
#define BOARD_H

#include <stdint.h>

uint32_t i2c_read(uint32_t offset);
void i2c_write(uint32_t offset, uint32_t value);

/* The scoreboard beyond the bus, a memory of so many bytes: the number of a card, its eighteen holes and their total, or a card that
 * is text. The first byte of a write says from which place on it is written or read. */
enum { SCOREBOARD_ADDRESS = 0x50, SCOREBOARD_PLACES = 600 };

const uint8_t *scoreboard(void);
void scoreboard_gives_up_after(unsigned bytes); /* it acknowledges so many more bytes */

#endif
