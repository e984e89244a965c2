//! `compare packing`: the driver's packing and unpacking beside Rattle's.

use oracle::{pack, unpack, Fields};

use crate::answer::{Answer, Differences, Refusal};
use crate::random::Random;
use crate::rattle;

/// Values at and around the widths of four and eight bits.
const EDGES: [u8; 12] = [0, 1, 7, 14, 15, 16, 17, 31, 127, 128, 254, 255];

/// The bits of TIMINGR that belong to a field.
const FIELDS: u32 = 0xF0FF_FFFF;

/// Compares every value of each field, crossed with the edges of the others, and words bit by bit,
/// byte by byte and at random. True if all went well.
pub fn compare(seed: u64) -> bool {
    let mut differences = Differences::default();
    let mut packings = 0_u64;
    for crossed in 0..EDGES.len().pow(4) {
        let others = [1, 12, 144, 1_728].map(|place| EDGES[crossed / place % EDGES.len()]);
        for field in 0..5 {
            for value in 0..=255 {
                compare_fields(&mut differences, fields(field, value, others));
                packings += 1;
            }
        }
    }

    let mut source = Random::new(seed);
    let bits = (0..32).flat_map(|bit| [1 << bit, !(1 << bit)]);
    let bytes = (0..=255).flat_map(|byte| [0, 8, 16, 24].map(|place| byte << place));
    let repeated = (0..=255).map(|byte| byte * 0x0101_0101);
    let random = (0..1_000_000).map(|_| source.word());
    let mut words = 0_u64;
    for word in bits.chain(bytes).chain(repeated).chain(random) {
        compare_word(&mut differences, word);
        words += 1;
    }

    differences.print();
    println!(
        "packing: {packings} packings and {words} words compared, {} differences",
        differences.count()
    );
    differences.count() == 0
}

/// One field, counted from the top, has this value, and the others theirs in order.
fn fields(field: usize, value: u8, others: [u8; 4]) -> Fields {
    let mut all = [value; 5];
    all[..field].copy_from_slice(&others[..field]);
    all[field + 1..].copy_from_slice(&others[field..]);
    let [presc, scldel, sdadel, sclh, scll] = all;
    Fields {
        presc,
        scldel,
        sdadel,
        sclh,
        scll,
    }
}

/// The driver lets wide fields run into each other, so document 01 decides there.
fn expected(fields: Fields) -> Answer {
    if fields.presc > 15 || fields.scldel > 15 || fields.sdadel > 15 {
        Err(Refusal(7))
    } else {
        Ok(pack(fields))
    }
}

/// What the driver makes of any fields: each shifted to its place, and the bits above the word lost.
fn overlaid(f: Fields) -> u32 {
    let places = [(f.presc, 28), (f.scldel, 20), (f.sdadel, 16), (f.sclh, 8)];
    let shifted = places.map(|(field, place)| (u64::from(field) << place) as u32);
    shifted
        .into_iter()
        .fold(u32::from(f.scll), |word, it| word | it)
}

fn compare_fields(differences: &mut Differences, fields: Fields) {
    let packed = rattle::pack(fields);
    let size = u64::from(pack(fields));
    differences.compare(size, overlaid(fields), pack(fields), |expected, given| {
        format!("packing {fields:?}: {expected:X} expected of the Rust, but {given:X}")
    });
    differences.compare(size, expected(fields), packed, |expected, given| {
        format!("packing {fields:?}: {expected:X?} expected, Rattle {given:X?}")
    });
    if let Ok(word) = packed {
        for (side, back) in [("the Rust", unpack(word)), ("Rattle", rattle::unpack(word))] {
            differences.compare(size, fields, back, |fields, back| {
                format!("packing {fields:?} and unpacking it: {side} {back:?}")
            });
        }
    }
}

fn compare_word(differences: &mut Differences, word: u32) {
    let unpacked = rattle::unpack(word);
    differences.compare(word.into(), unpack(word), unpacked, |expected, given| {
        format!("unpacking 0x{word:08X}: the Rust {expected:?}, Rattle {given:?}")
    });
    let back = [
        ("the Rust", Ok(pack(unpack(word)))),
        ("Rattle", rattle::pack(unpacked)),
    ];
    for (side, back) in back {
        differences.compare(word.into(), Ok(word & FIELDS), back, |_, back| {
            format!("unpacking 0x{word:08X} and packing it: {side} {back:X?}")
        });
    }
}
