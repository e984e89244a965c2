//! The library across its C boundary, `include/huskerivory.h`, as safe functions. The only unsafe
//! code of this crate.
#![allow(unsafe_code)]

use core::mem::{size_of, size_of_val};

use crate::{
    Description, Error, I2cTiming, Operation, Outcome, RawTimingr, Refusal, SavedCall, TargetEvent,
};

/// An access in the log, its two words in little-endian bytes.
#[repr(C)]
#[derive(Clone, Copy)]
pub struct Entry {
    code: [u8; 4],
    value: [u8; 4],
}

impl Entry {
    /// The bytes of an entry.
    pub const LENGTH: usize = size_of::<Entry>();

    const WRITE: u32 = 0x100;

    pub const BLANK: Entry = Entry {
        code: [0; 4],
        value: [0; 4],
    };

    /// A read of a register by its offset.
    pub fn read(offset: u32, value: u32) -> Self {
        Entry {
            code: offset.to_le_bytes(),
            value: value.to_le_bytes(),
        }
    }

    /// A write to it.
    pub fn write(offset: u32, value: u32) -> Self {
        Entry::read(offset | Entry::WRITE, value)
    }

    /// Its bytes, as they stand in a log.
    pub fn to_bytes(self) -> [u8; Entry::LENGTH] {
        let [a, b, c, d] = self.code;
        let [e, f, g, h] = self.value;
        [a, b, c, d, e, f, g, h]
    }

    /// Offset and value, if the access is a write.
    pub fn as_write(&self) -> Option<(u32, u32)> {
        let code = u32::from_le_bytes(self.code);
        let offset = code & !Entry::WRITE;
        (code != offset).then(|| (offset, u32::from_le_bytes(self.value)))
    }
}

/// The access that an advance makes first.
pub enum Next {
    Over,
    Read(u32),
    Write,
}

/// How an advance came out. `Waiting` has the offset of the register that is to be read.
pub enum Report {
    Over(Result<Outcome, Error>),
    Waiting(u32),
    Full,
}

pub struct Advance {
    pub report: Report,
    pub used: usize,
    pub written: usize,
}

/// What an advance leaves besides its report, each number in 64 bits on every machine.
#[repr(C)]
#[derive(Default)]
struct Advanced {
    value: u64,
    awaited: u64,
    used: u64,
    written: u64,
}

/// The version that this module was written for.
const ABI: u32 = 3;

/// The sizes that it was written for, in the header's order: bytes of a description, of a saved
/// call, of what an advance leaves and of a log entry; operations and buffer bytes at most; how many
/// reports and steps there are.
const SIZES: [u32; 8] = [
    size_of::<Description>() as u32,
    SavedCall::LENGTH as u32,
    size_of::<Advanced>() as u32,
    Entry::LENGTH as u32,
    64,
    65_535,
    13,
    46,
];

// Lengths are 64 bits wide on every machine.
extern "C" {
    fn huskerivory_abi(sizes: *mut [u32; 8]) -> u32;

    fn huskerivory_begin(
        description: *const Description,
        operations: *const u8,
        operations_len: u64,
        buffer: *const u8,
        buffer_len: u64,
        saved: *mut u8,
        saved_len: u64,
    ) -> u32;

    fn huskerivory_next(
        description: *const Description,
        operations: *const u8,
        operations_len: u64,
        saved: *const u8,
        saved_len: u64,
        buffer: *const u8,
        buffer_len: u64,
        value: *mut u32,
    ) -> u32;

    fn huskerivory_advance(
        description: *const Description,
        operations: *const u8,
        operations_len: u64,
        saved: *mut u8,
        saved_len: u64,
        buffer: *mut u8,
        buffer_len: u64,
        answers: *const u8,
        answers_len: u64,
        log: *mut u8,
        log_len: u64,
        answer: *mut Advanced,
    ) -> u32;

    fn huskerivory_timing(clock: u32, frequency: u32, timingr: *mut u32) -> u32;
    fn huskerivory_pack(fields: *const I2cTiming, timingr: *mut u32) -> u32;
    fn huskerivory_unpack(timingr: u32, fields: *mut I2cTiming);

    fn huskerivory_load_bands(bands: *const u8, length: u64) -> u32;
    fn huskerivory_timing_by_bands(
        bands: *const u8,
        length: u64,
        clock: u32,
        frequency: u32,
        timingr: *mut u32,
    ) -> u32;

    fn huskerivory_page(
        log: *const u8,
        log_len: u64,
        page: *mut u8,
        page_len: u64,
        length: *mut u64,
    ) -> u32;
}

/// Whether the library that is linked is the one that this module was written for. Every way into
/// the library asks it first; an advance is made only of a call for which `next` did.
fn known() -> Result<(), Refusal> {
    let mut sizes = [0; 8];
    // SAFETY: it writes eight numbers, which `sizes` has.
    let version = unsafe { huskerivory_abi(&mut sizes) };
    match version == ABI && sizes == SIZES {
        true => Ok(()),
        false => Err(Refusal::LIBRARY),
    }
}

fn bytes_of<T>(slice: &[T]) -> u64 {
    size_of_val(slice) as u64
}

// SAFETY, of the four that take slices: each pointer comes from a slice, an array or a local with
// its size in bytes, so that it is not null and its bytes are readable; what is written through
// comes from a `&mut`, which overlaps nothing else, and takes any bytes (`SavedCall`, `Entry`, the
// buffer and the page are bytes, `Advanced` is numbers). `Operation` is four bytes. The library
// keeps no pointer.

pub fn begin(
    description: Description,
    operations: &[Operation],
    buffer: &[u8],
) -> Result<SavedCall, Refusal> {
    known()?;
    let mut saved = SavedCall::NONE;
    let refusal = unsafe {
        huskerivory_begin(
            &description,
            operations.as_ptr().cast(),
            bytes_of(operations),
            buffer.as_ptr(),
            bytes_of(buffer),
            saved.0.as_mut_ptr(),
            bytes_of(&saved.0),
        )
    };
    match refusal {
        0 => Ok(saved),
        number => Err(Refusal(number)),
    }
}

pub fn next(
    description: Description,
    operations: &[Operation],
    saved: &SavedCall,
    buffer: &[u8],
) -> Result<Next, Refusal> {
    known()?;
    let mut value = 0;
    let kind = unsafe {
        huskerivory_next(
            &description,
            operations.as_ptr().cast(),
            bytes_of(operations),
            saved.0.as_ptr(),
            bytes_of(&saved.0),
            buffer.as_ptr(),
            bytes_of(buffer),
            &mut value,
        )
    };
    match kind {
        0 => Ok(Next::Over),
        1 => Ok(Next::Read(value)),
        2 => Ok(Next::Write),
        3 => Err(Refusal(value)),
        _ => Err(Refusal::LIBRARY),
    }
}

/// Advances with one answer at most.
pub fn advance(
    description: Description,
    operations: &[Operation],
    saved: &mut SavedCall,
    buffer: &mut [u8],
    answer: Option<u32>,
    log: &mut [Entry],
) -> Advance {
    let word = answer.unwrap_or(0).to_le_bytes();
    let answers = if answer.is_some() { &word[..] } else { &[] };
    let mut left = Advanced::default();
    let number = unsafe {
        huskerivory_advance(
            &description,
            operations.as_ptr().cast(),
            bytes_of(operations),
            saved.0.as_mut_ptr(),
            bytes_of(&saved.0),
            buffer.as_mut_ptr(),
            bytes_of(buffer),
            answers.as_ptr(),
            bytes_of(answers),
            log.as_mut_ptr().cast(),
            bytes_of(log),
            &mut left,
        )
    };
    // What is cut here is 0: value and offset are words of 32 bits, and no more answers are used
    // and entries written than the slices have.
    Advance {
        report: report(number, left.value as u32, left.awaited as u32),
        used: left.used as usize,
        written: left.written as usize,
    }
}

/// The length of the page that was laid out.
pub fn page(log: &[u8], page: &mut [u8]) -> Result<usize, Refusal> {
    known()?;
    let mut length = 0;
    let refusal = unsafe {
        huskerivory_page(
            log.as_ptr(),
            bytes_of(log),
            page.as_mut_ptr(),
            bytes_of(page),
            &mut length,
        )
    };
    match refusal {
        // No page is longer than the slice that has it.
        0 => Ok(length as usize),
        number => Err(Refusal(number)),
    }
}

/// Document 01's outcomes by their numbers, then the three other reports. There are no more: the
/// library has said how many it knows.
fn report(report: u32, value: u32, awaited: u32) -> Report {
    let address = value as u16;
    Report::Over(match report {
        0 => Ok(Outcome::Done(value)),
        1 => Err(Error::Bus),
        2 => Err(Error::ArbitrationLoss),
        3 => Err(Error::NoAcknowledge),
        4 => Err(Error::Stopped),
        5 => Err(Error::ExpectedWrite),
        6 => Err(Error::ExpectedRead),
        7 => Ok(Outcome::Event(TargetEvent::Read { address })),
        8 => Ok(Outcome::Event(TargetEvent::Write { address })),
        9 => Ok(Outcome::Event(TargetEvent::Stop)),
        10 => return Report::Waiting(awaited),
        11 => Err(Error::Refused(Refusal(value))),
        12 => return Report::Full,
        _ => Err(Error::Refused(Refusal::LIBRARY)),
    })
}

// SAFETY, of the last five: each pointer is that of a local of the size that the library writes or
// reads, and any bytes are an `I2cTiming`; but that of a table is a slice's, with its size in bytes,
// which are only read.

pub fn timing(clock: u32, frequency: u32) -> Result<RawTimingr, Refusal> {
    known()?;
    let mut timingr = 0;
    let refusal = unsafe { huskerivory_timing(clock, frequency, &mut timingr) };
    word(refusal, timingr)
}

pub fn pack(fields: I2cTiming) -> Result<RawTimingr, Refusal> {
    known()?;
    let mut timingr = 0;
    let refusal = unsafe { huskerivory_pack(&fields, &mut timingr) };
    word(refusal, timingr)
}

pub fn unpack(raw: RawTimingr) -> Result<I2cTiming, Refusal> {
    known()?;
    let mut fields = I2cTiming::default();
    unsafe { huskerivory_unpack(raw.0, &mut fields) };
    Ok(fields)
}

/// Whether the bytes of a table are accepted.
pub fn load_bands(bands: &[u8]) -> Result<(), Refusal> {
    known()?;
    match unsafe { huskerivory_load_bands(bands.as_ptr(), bytes_of(bands)) } {
        0 => Ok(()),
        number => Err(Refusal(number)),
    }
}

pub fn timing_by_bands(bands: &[u8], clock: u32, frequency: u32) -> Result<RawTimingr, Refusal> {
    known()?;
    let mut timingr = 0;
    let refusal = unsafe {
        huskerivory_timing_by_bands(
            bands.as_ptr(),
            bytes_of(bands),
            clock,
            frequency,
            &mut timingr,
        )
    };
    word(refusal, timingr)
}

fn word(refusal: u32, timingr: u32) -> Result<RawTimingr, Refusal> {
    match refusal {
        0 => Ok(RawTimingr(timingr)),
        number => Err(Refusal(number)),
    }
}

#[cfg(test)]
mod tests {
    use super::*;

    #[test]
    fn the_library_is_the_one_that_this_was_written_for() {
        let mut sizes = [0; 8];
        let version = unsafe { huskerivory_abi(&mut sizes) };
        assert_eq!((version, sizes), (ABI, SIZES));
        assert_eq!(known(), Ok(()));
        assert_eq!(SIZES, [64, 36, 32, 8, 64, 65_535, 13, 46]);
    }

    /// Bytes that no `Band` makes: a part of a row, and a shape that is neither.
    #[test]
    fn a_table_is_whole_rows_of_known_shapes() {
        let table = [
            100_000, 0, 64, 2_000_000, 500_000, 0, 400_000, 0, 96, 1, 1, 1,
        ];
        let table = table.map(u32::to_le_bytes);
        let bytes = table.as_flattened();
        for length in 0..=bytes.len() {
            let expected = match length {
                24 | 48 => Ok(()),
                _ => Err(Refusal::BAD_BANDS),
            };
            assert_eq!(load_bands(&bytes[..length]), expected, "{length} bytes");
            let timing = timing_by_bands(&bytes[..length], 8_000_000, 100_000);
            assert_eq!(timing.map(|_| ()), expected, "{length} bytes");
        }
        for shape in [2, 3, 0x100, 0x1_0000, 0x8000_0000, u32::MAX] {
            for row in [0, 1] {
                let mut table = table;
                table[6 * row + 5] = shape.to_le_bytes();
                let refused = load_bands(table.as_flattened());
                assert_eq!(refused, Err(Refusal::BAD_BANDS), "shape {shape}");
            }
        }
    }

    #[test]
    fn every_report_has_its_own_meaning() {
        let refused = |number| matches!(number, Report::Over(Err(Error::Refused(_))));
        for number in 0..SIZES[6] {
            assert_eq!(refused(report(number, 8, 0)), number == 11);
        }
        for number in [SIZES[6], u32::MAX] {
            let Report::Over(ended) = report(number, 8, 0) else {
                panic!("{number} is a report");
            };
            assert_eq!(ended, Err(Error::Refused(Refusal::LIBRARY)));
        }
    }
}
