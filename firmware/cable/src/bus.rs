//! The bus: the lines of two peripherals, joined by a cable that can be pulled.

use crate::peripheral::{BusStep, SimulatedI2c};

/// The cable, which joins SCL and SDA of both ends. It is pulled once at most and put back once at
/// most. Both lines part and join together: a contact that breaks for one line only, or that
/// bounces more than once, is out of the model.
#[derive(Clone, Copy, Debug, PartialEq, Eq, Hash, PartialOrd, Ord)]
pub enum Cable {
    In,
    /// Each end has its own lines. Pull-ups make a line high that its end does not hold low.
    Out,
    PutBack,
}

/// What an end sees as the contacts part or join, besides the new levels of its lines. What a
/// peripheral makes of it is in RM0492, I2C, "Error conditions".
#[derive(Clone, Copy, Debug, PartialEq, Eq, PartialOrd, Ord)]
pub enum Contact {
    /// Nothing.
    Clean,
    /// The terminal held SCL low. It rises at the scoreboard, and falls as the contact bounces or
    /// joins again: a clock pulse that the terminal did not make, with SDA as it is there.
    Pulse,
    /// SDA rises at the scoreboard while SCL is high, which is a STOP.
    Stop,
    /// SDA falls at the scoreboard while SCL is high, which is a START.
    Start,
    /// SDA moves at the terminal while SCL is high: BERR in a transfer.
    TerminalBusError,
    /// SDA is low at the terminal where it sends a one: ARLO in a transfer.
    TerminalArbitration,
}

/// What a pull can look like.
pub const PULLS: [Contact; 6] = [
    Contact::Clean,
    Contact::Pulse,
    Contact::Stop,
    Contact::Start,
    Contact::TerminalBusError,
    Contact::TerminalArbitration,
];

/// What putting the cable back can look like: the lines of the scoreboard can only fall then.
pub const PUT_BACKS: [Contact; 2] = [Contact::Clean, Contact::Start];

impl Contact {
    /// For a reader of the page.
    pub fn words(self) -> &'static str {
        match self {
            Contact::Clean => "nothing amiss",
            Contact::Pulse => "a clock pulse too many at the scoreboard",
            Contact::Stop => "a false stop at the scoreboard",
            Contact::Start => "a false start at the scoreboard",
            Contact::TerminalBusError => "a bus error at the terminal",
            Contact::TerminalArbitration => "a lost arbitration at the terminal",
        }
    }

    /// Lets both peripherals see it. Where it is not possible nothing happens: a line that a
    /// peripheral holds low does not move, and outside a transfer SCL is high at both ends.
    pub fn touch(self, terminal: &mut SimulatedI2c, scoreboard: &mut SimulatedI2c) {
        let clock_is_free = !scoreboard.holds_scl();
        let sda = scoreboard.sda();
        match self {
            Contact::Pulse if clock_is_free && terminal.is_controller() => scoreboard.pulse(sda),
            Contact::Stop if clock_is_free && sda => scoreboard.stop(),
            Contact::Start if clock_is_free && sda => scoreboard.start(),
            Contact::TerminalBusError if terminal.is_controller() => terminal.bus_error(),
            Contact::TerminalArbitration if terminal.is_controller() => terminal.lose_arbitration(),
            _ => {}
        }
    }
}

/// The terminal's peripheral makes its next step on the bus; the scoreboard's sees it if the cable
/// joins them. Says whether a step could be made.
pub fn step(terminal: &mut SimulatedI2c, scoreboard: Option<&mut SimulatedI2c>) -> bool {
    let Some(step) = terminal.next_step() else {
        return false;
    };
    let clock_is_held = scoreboard.as_ref().is_some_and(|there| there.holds_scl());
    let sda_there = scoreboard.as_ref().is_none_or(|there| there.sda());
    // SCL has to rise for each of them. In a START and a STOP it is the terminal that moves SDA,
    // and it cannot while the scoreboard holds it low.
    if clock_is_held || step != BusStep::Pulse && !sda_there {
        return false;
    }
    let sda = terminal.sda() && sda_there;
    for i2c in [Some(terminal), scoreboard].into_iter().flatten() {
        match step {
            BusStep::Start => i2c.start(),
            BusStep::Pulse => i2c.pulse(sda),
            BusStep::Stop => i2c.stop(),
        }
    }
    true
}
