//! The entry terminal sends cards to a scoreboard, over simulated registers. It is built as
//! firmware is: without the standard library, with a panic handler of its own, so that it could not
//! be built if a crate below it used `std`.

#![no_std]
#![no_main]

mod board;

use core::fmt::{self, Write};
use core::panic::PanicInfo;

use board::Board;
use huskerivory::{Address, Error, I2c, Operation, RawTimingr};

// The host's C library stands in for a serial line.
#[link(name = "c")]
extern "C" {
    fn putchar(character: i32) -> i32;
    fn abort() -> !;
}

struct Line;

impl Write for Line {
    fn write_str(&mut self, text: &str) -> fmt::Result {
        for byte in text.bytes() {
            // SAFETY: it takes any number.
            unsafe { putchar(i32::from(byte)) };
        }
        Ok(())
    }
}

#[panic_handler]
fn panic(_: &PanicInfo) -> ! {
    // SAFETY: it takes nothing and does not return.
    unsafe { abort() }
}

const SCOREBOARD: Address = Address::SevenBit(board::ADDRESS);

/// The place in the board's memory where a card begins; its number, the strokes on its holes, and
/// their total.
const CARDS: [[u8; 21]; 2] = [
    [
        0, 17, 4, 5, 3, 4, 4, 6, 3, 5, 4, 5, 4, 3, 4, 5, 4, 4, 3, 5, 75,
    ],
    [
        0, 18, 5, 5, 4, 4, 5, 6, 3, 5, 5, 5, 4, 4, 4, 5, 4, 5, 3, 6, 82,
    ],
];

/// A competition's card with the names of its holes, a row for each. It is longer than the 255 bytes
/// that NBYTES counts.
const COMPETITION: &[u8] = include_bytes!("../../../examples/competition.csv");

fn say(what: &str, result: Result<(), Error>, i2c: &mut I2c<Board>) -> fmt::Result {
    match result {
        Ok(()) => write!(Line, "{what}: done")?,
        Err(error) => write!(Line, "{what}: {error}")?,
    }
    let news = i2c.registers().news();
    writeln!(
        Line,
        " (bytes taken {}, accesses {}, starts {})",
        news.taken, news.accesses, news.starts
    )
}

fn send_cards() -> Result<(), Error> {
    let timing = RawTimingr::for_bus(250_000_000, 400_000)?;
    let mut i2c = I2c::new(Board::new(), timing, None)?;
    let _ = say("set up", Ok(()), &mut i2c);

    // Two operations that go the same way are one write on the bus.
    let mut card = CARDS[0];
    let parts = [Operation::write(1), Operation::write(20)];
    let sent = i2c.transaction(SCOREBOARD, &parts, &mut card);
    let _ = say("card 17", sent, &mut i2c);

    // The place that is asked for, a repeated start, and the byte there.
    let mut total = [19, 0];
    let asked = i2c.write_read(SCOREBOARD, &mut total, 1);
    let _ = say("its total", asked, &mut i2c);
    let _ = writeln!(Line, "the board says {}", total[1]);

    // A card of any length is one call, and one write on the bus.
    let mut card = [0; 1 + COMPETITION.len()];
    card[1..].copy_from_slice(COMPETITION);
    let sent = i2c.write(SCOREBOARD, &mut card);
    let _ = say("the competition's card", sent, &mut i2c);

    // The place where it begins, a repeated start, and all its bytes.
    card[1..].fill(0);
    let asked = i2c.write_read(SCOREBOARD, &mut card, 1);
    let _ = say("the same read back", asked, &mut i2c);
    let _ = write!(Line, "{}", str::from_utf8(&card[1..]).unwrap_or("no text"));

    i2c.registers().gives_up_after(7);
    let mut card = CARDS[1];
    let sent = i2c.write(SCOREBOARD, &mut card);
    let _ = say("card 18", sent, &mut i2c);

    let sent = i2c.write(Address::SevenBit(0x51), &mut card);
    let _ = say("card 18 to another board", sent, &mut i2c);

    let sent = i2c.write(Address::SevenBit(0x80), &mut card);
    let _ = say("card 18 to no address", sent, &mut i2c);
    Ok(())
}

#[no_mangle]
extern "C" fn main() -> i32 {
    i32::from(send_cards().is_err())
}
