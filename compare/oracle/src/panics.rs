//! Catching what leaves the driver by unwinding: a read without an answer, and the panics that
//! document 01 puts outside its domain. Any other panic is a mistake of ours and goes on.

use std::cell::Cell;
use std::panic::{
    catch_unwind, resume_unwind, set_hook, take_hook, AssertUnwindSafe, PanicHookInfo,
};
use std::path::Path;
use std::sync::{LazyLock, Once};

use stm32h5::NoAnswer;

/// A panic raised in the driver's own files.
#[derive(Clone, Debug, PartialEq, Eq)]
pub struct Panic {
    pub kind: PanicKind,
    pub message: String,
}

#[derive(Clone, Copy, Debug, PartialEq, Eq)]
pub enum PanicKind {
    /// The target frequency is 0.
    NoSpeed,
    /// The prescaler does not fit its `u8`: only above 250 MHz.
    ClockOver,
    /// The clock is not four times the frequency.
    Ratio,
    /// The clock is below the band's least clock.
    ClockSlow,
    /// The frequency is too low for the clock.
    SpeedLow,
    /// No cycle is left for the data setup time.
    NoSetup,
    /// The secondary address's mask plus 1 does not fit its `u8`.
    Mask,
    /// An operation has over 255 bytes: the list was not cut.
    Long,
    /// An AutoAck transfer has no byte.
    Empty,
    /// A NACK came before any byte of a block that is not the last.
    NackAtOnce,
    /// None of these: a finding.
    Unknown,
}

impl PanicKind {
    /// The refusal that document 01 gives instead.
    pub fn refusal(self) -> Option<u32> {
        Some(match self {
            PanicKind::NoSpeed => 1,
            PanicKind::ClockOver => 2,
            PanicKind::Ratio => 3,
            PanicKind::ClockSlow => 4,
            PanicKind::SpeedLow => 5,
            PanicKind::NoSetup => 6,
            PanicKind::Mask => 8,
            PanicKind::Empty => 11,
            PanicKind::Long | PanicKind::NackAtOnce | PanicKind::Unknown => return None,
        })
    }

    /// Messages of the compiler's own checks say too little: there the line must name the operand.
    fn of(message: &str, line: &str) -> PanicKind {
        const KINDS: [(&str, &str, PanicKind); 12] = [
            ("divide by zero", "target_freq", PanicKind::NoSpeed),
            ("add with overflow", "presc_reg", PanicKind::ClockOver),
            ("at least 4 times the bus frequency", "", PanicKind::Ratio),
            ("assertion failed: ker_ck >=", "", PanicKind::ClockSlow),
            ("too fast for this bus frequency", "", PanicKind::SpeedLow),
            ("assertion failed: presc_reg < 16", "", PanicKind::SpeedLow),
            ("subtract with overflow", "scldel", PanicKind::NoSetup),
            ("add with overflow", "oa2msk", PanicKind::Mask),
            ("I2C max trans", "", PanicKind::Long),
            ("assertion failed: !buffer.is_empty()", "", PanicKind::Empty),
            ("assertion failed: !bytes.is_empty()", "", PanicKind::Empty),
            ("subtract with overflow", "i - 1", PanicKind::NackAtOnce),
        ];
        KINDS
            .iter()
            .find(|(said, named, _)| message.contains(said) && line.contains(named))
            .map_or(PanicKind::Unknown, |&(.., kind)| kind)
    }
}

/// How the driver was left early.
pub enum Left {
    NoAnswer,
    Panicked(Panic),
}

thread_local! {
    static CATCHING: Cell<bool> = const { Cell::new(false) };
    static PANIC: Cell<Option<Panic>> = const { Cell::new(None) };
}

/// Runs the driver, of whose panics the usual hook hears nothing.
pub fn catch<T>(driver: impl FnOnce() -> T) -> Result<T, Left> {
    static HOOK: Once = Once::new();
    HOOK.call_once(note_panics);
    CATCHING.set(true);
    let left = catch_unwind(AssertUnwindSafe(driver));
    CATCHING.set(false);
    left.map_err(|payload| {
        if payload.is::<NoAnswer>() {
            return Left::NoAnswer;
        }
        match PANIC.take() {
            Some(panic) => Left::Panicked(panic),
            None => resume_unwind(payload),
        }
    })
}

/// Notes the driver's panics in a hook, since only a hook learns the line.
fn note_panics() {
    let usual = take_hook();
    set_hook(Box::new(move |panic| match line(panic) {
        Some(line) if CATCHING.get() => {
            let message = panic.payload_as_str().unwrap_or_default();
            PANIC.set(Some(Panic {
                kind: PanicKind::of(message, line),
                message: message.to_string(),
            }));
        }
        _ => usual(panic),
    }));
}

/// The line of `i2c.rs` that a panic of the driver was raised at; of `hal.rs` none is told apart.
fn line(panic: &PanicHookInfo) -> Option<&'static str> {
    const I2C: &str = include_str!(concat!(env!("OUT_DIR"), "/i2c.rs"));
    static LINES: LazyLock<Vec<&str>> = LazyLock::new(|| I2C.lines().collect());
    let location = panic.location()?;
    match Path::new(location.file()).file_name()?.to_str()? {
        "i2c.rs" => LINES.get(location.line() as usize - 1).copied(),
        "hal.rs" => Some(""),
        _ => None,
    }
}
