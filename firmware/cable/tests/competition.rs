//! A competition's card, which is longer than NBYTES counts, crosses the cable: both ends are simulated
//! peripherals driven by the proved driver, and the cable stays in.

use std::task::Poll;

use cable::bus;
use cable::driver::{Answer, Proved};
use cable::end::End;
use cable::exchange::{Direction, Exchange, Place};
use cable::peripheral::SimulatedI2c;
use huskerivory::{Ack, Registers, Running};

/// 566 bytes. They are sent as two operations of 283 bytes, each of two pieces, and read back as one of
/// three.
const CARD: &[u8] = include_bytes!("../../../examples/competition.csv");

/// The terminal makes so many accesses, and then so many steps on the bus.
fn terminal_turn(
    exchange: &Exchange,
    terminal: &mut End,
    scoreboard: &mut SimulatedI2c,
    steps: usize,
) {
    for _ in 0..steps {
        terminal.access(exchange, Place::Terminal, &Proved);
    }
    for _ in 0..steps {
        bus::step(&mut terminal.i2c, Some(scoreboard));
    }
}

fn has_ended(exchange: &Exchange, place: Place, end: &End) -> bool {
    exchange.call(place, &end.answers).is_none()
}

/// No exchange takes more turns.
const TURNS: usize = 50_000;

/// Plays an exchange until neither end has a call left. The terminal, with the bus, and the scoreboard
/// take turns of so many steps.
fn play(exchange: &Exchange, [there, here]: [usize; 2]) -> (End, End) {
    let (mut terminal, mut scoreboard) = exchange.ends().unwrap();
    for _ in 0..TURNS {
        terminal_turn(exchange, &mut terminal, &mut scoreboard.i2c, there);
        for _ in 0..here {
            scoreboard.access(exchange, Place::Scoreboard, &Proved);
        }
        if has_ended(exchange, Place::Terminal, &terminal)
            && has_ended(exchange, Place::Scoreboard, &scoreboard)
        {
            return (terminal, scoreboard);
        }
    }
    panic!("it has not ended: {terminal:?}, {scoreboard:?}");
}

/// The scoreboard's registers in a call that blocks: the terminal has its turn before each access.
struct Blocking<'a> {
    exchange: &'a Exchange,
    terminal: End,
    i2c: SimulatedI2c,
    steps: usize,
    turns: usize,
}

impl Blocking<'_> {
    fn wait(&mut self) {
        self.turns += 1;
        assert!(self.turns < TURNS, "it has not ended: {:?}", self.terminal);
        terminal_turn(self.exchange, &mut self.terminal, &mut self.i2c, self.steps);
    }
}

impl Registers for Blocking<'_> {
    fn read(&mut self, offset: u32) -> u32 {
        self.wait();
        self.i2c.read(offset)
    }

    fn write(&mut self, offset: u32, value: u32) {
        self.wait();
        self.i2c.write(offset, value);
    }
}

/// Plays an exchange whose scoreboard makes its first call, without ever leaving it, and no other. What
/// that call said comes with both ends.
fn play_blocking(exchange: &Exchange, steps: usize) -> (End, SimulatedI2c, Answer) {
    let (terminal, mut scoreboard) = exchange.ends().unwrap();
    let mut registers = Blocking {
        exchange,
        terminal,
        i2c: scoreboard.i2c,
        steps,
        turns: 0,
    };
    let call = exchange.call(Place::Scoreboard, &[]).unwrap();
    let buffer = &mut scoreboard.buffer;
    let mut running = Running::begin(call.description, call.operations, buffer).unwrap();
    let ended = loop {
        if let Poll::Ready(ended) = running.poll(&mut registers) {
            break ended.into();
        }
    };
    while !has_ended(exchange, Place::Terminal, &registers.terminal) {
        registers.wait();
    }
    (registers.terminal, registers.i2c, ended)
}

#[test]
fn the_card_is_sent() {
    let count = Answer::Done(CARD.len() as u32);
    for turn in [1, 2, 3, 7] {
        let exchange = Exchange::new(Direction::Send, Ack::Manual, CARD);
        let (terminal, scoreboard) = play(&exchange, [turn; 2]);
        assert_eq!(terminal.answers, [Answer::Done(0)]);
        assert_eq!(
            scoreboard.answers,
            [count, Answer::Done(0), Answer::Done(0)],
            "received, acknowledged and stopped"
        );
        assert_eq!(scoreboard.buffer, CARD);

        // With AutoAck a buffer that is just full may be refused its last byte (docs/PROMISES.md,
        // "What no driver can know"), so that there is a place to spare.
        let exchange = Exchange::new(Direction::Send, Ack::Auto, CARD).with_spare(1);
        let (terminal, scoreboard) = play(&exchange, [turn; 2]);
        assert_eq!(terminal.answers, [Answer::Done(0)]);
        assert_eq!(scoreboard.answers, [count, Answer::Done(0)]);
        assert_eq!(&scoreboard.buffer[..CARD.len()], CARD);
    }
}

#[test]
fn the_card_is_read_back() {
    // An exchange reads the first half back.
    let twice = [CARD, CARD].concat();
    for ack in [Ack::Auto, Ack::Manual] {
        for turn in [1, 2, 3, 7] {
            let exchange = Exchange::new(Direction::ReadBack, ack, &twice);
            let (terminal, _) = play(&exchange, [turn; 2]);
            assert_eq!(terminal.answers, [Answer::Done(0)]);
            assert_eq!(terminal.buffer, CARD);
        }
    }
}

/// Document 02, R-6: the terminal stops reading at the end of a block, or a byte or two before it, or one
/// after. A quick scoreboard has one byte more in TXDR by then, and counts what has left its chip: where
/// 254 have, the block is put out, and the next has begun. A slow one waits for each byte to leave before
/// it puts the next one out, and counts one fewer.
#[test]
fn a_read_that_stops_between_two_blocks() {
    for (length, holes) in [(256, 253..=256), (511, 253..=256), (511, 508..=511)] {
        for (holes, ack) in holes.flat_map(|holes| [(holes, Ack::Auto), (holes, Ack::Manual)]) {
            let exchange = Exchange::reading(holes, ack, &CARD[..length]);
            for (turns, fewer) in [([1, 1], 0), ([2, 2], 0), ([40, 1], 1)] {
                let (terminal, scoreboard) = play(&exchange, turns);
                let polled = (terminal, scoreboard.i2c, scoreboard.answers[0]);
                for (terminal, i2c, count) in [polled, play_blocking(&exchange, turns[0])] {
                    assert_eq!(terminal.answers, [Answer::Done(0)]);
                    assert_eq!(terminal.buffer, exchange.holes());
                    assert_eq!(i2c.bytes_out(), u32::from(holes));
                    assert_eq!(count, Answer::Done(u32::from(holes) - fewer));
                }
            }
        }
    }
}

/// The card of `examples/competition.txt` is this one.
#[test]
fn the_bench_has_the_same_card() {
    let text = include_str!("../../../examples/competition.stdout");
    let bytes: String = CARD.iter().map(|byte| format!("{byte:02X}")).collect();
    let buffers = text.lines().filter_map(|line| line.strip_prefix("b "));
    assert_eq!(buffers.collect::<Vec<_>>(), [bytes.as_str(); 3]);
}
