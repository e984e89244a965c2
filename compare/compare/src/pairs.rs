//! Pairs of a kernel clock and a bus frequency: where the timing rule changes, and at random.

use std::collections::HashSet;

use crate::bands::examples::DOCUMENT_01;
use crate::random::Random;

pub type Pair = (u32, u32);

/// The highest clock that is not refused.
pub const MOST_CLOCK: u32 = 250_000_000;

/// Document 01's proved cases.
const CASES: [Pair; 10] = [
    (250_000_000, 400_000),
    (250_000_000, 100_000),
    (8_000_000, 400_000),
    (2_000_000, 100_000),
    (153_601_536, 100_001),
    (153_701_537, 100_001),
    (65_784_000, 8_000),
    (65_792_000, 8_000),
    (2_000_000, 1_953),
    (2_000_000, 1_951),
];

/// The ratios on both sides of each border: refusals 3 and 5.
const RATIOS: [u32; 6] = [3, 4, 1_536, 1_537, 8_223, 8_224];

/// Every edge of the rule with its neighbours, crossed with the others.
pub fn edges() -> Vec<Pair> {
    let mut frequencies = vec![0, 1, 1_000_000, MOST_CLOCK / 4];
    frequencies.extend(DOCUMENT_01.map(|row| row.upper_frequency));
    frequencies.extend(CASES.map(|(_, frequency)| frequency));
    let frequencies = with_neighbours(frequencies);

    // The quotients at which sdadel and scldel leave their limits, or scldel has none (refusal 6).
    let mut clocks = vec![0, 1, MOST_CLOCK, u32::MAX];
    clocks.extend(DOCUMENT_01.map(|row| row.least_clock));
    let columns = DOCUMENT_01.map(|row| [row.sdadel_divisor, row.scldel_divisor]);
    for &column in columns.as_flattened() {
        for prescaler in 1..=16 {
            clocks.extend([1, 2, 5, 6, 15, 16, 17].map(|quotient| column * prescaler * quotient));
        }
    }
    let clocks = with_neighbours(clocks);

    // The ratios at which the prescaler steps.
    let mut ratios = RATIOS.to_vec();
    for divisor in DOCUMENT_01.map(|row| row.d) {
        ratios.extend((1..=16).flat_map(|step| [divisor * step, divisor * step + 1]));
    }
    ratios.sort_unstable();
    ratios.dedup();

    let mut pairs = CASES.to_vec();
    for &frequency in &frequencies {
        pairs.extend(clocks.iter().map(|&clock| (clock, frequency)));
        let exact = ratios
            .iter()
            .filter_map(|ratio| frequency.checked_mul(*ratio));
        let clocks = with_neighbours(exact.collect());
        pairs.extend(clocks.iter().map(|&clock| (clock, frequency)));
    }
    // The ratios at which the Rust's prescaler does not fit its byte, at clocks that are refused.
    for frequency in [100_001, 150_000] {
        let steps = [254, 255, 256, 257, 270, 271, 272].map(|step| 96 * step * frequency);
        let clocks = with_neighbours(steps.to_vec());
        pairs.extend(clocks.iter().map(|&clock| (clock + frequency, frequency)));
    }
    for &clock in &clocks {
        let exact = ratios.iter().map(|ratio| clock / ratio);
        let frequencies = with_neighbours(exact.collect());
        pairs.extend(frequencies.iter().map(|&frequency| (clock, frequency)));
    }
    pairs.sort_unstable();
    pairs.dedup();
    pairs
}

/// The numbers and those next to them, each once.
fn with_neighbours(numbers: Vec<u32>) -> Vec<u32> {
    let around = |number: u32| [number.saturating_sub(1), number, number.saturating_add(1)];
    let mut numbers: Vec<u32> = numbers.into_iter().flat_map(around).collect();
    numbers.sort_unstable();
    numbers.dedup();
    numbers
}

/// A pair by one of three laws in turn: uniform, uniform in length, or of a random ratio.
pub fn random(random: &mut Random, turn: u64) -> Pair {
    match turn % 3 {
        0 => (random.up_to(MOST_CLOCK), random.up_to(1_000_000)),
        1 => (random.of_length(32), random.of_length(32)),
        _ => {
            let frequency = random.of_length(22);
            let ratio = random.up_to(9_000);
            let clock =
                u64::from(frequency) * u64::from(ratio) + u64::from(random.up_to(frequency));
            (clock.try_into().unwrap_or(u32::MAX), frequency)
        }
    }
}

/// The fixed sample that is stored: the proved cases, the edges of each band, and random pairs.
pub fn sample() -> Vec<Pair> {
    let mut pairs = CASES.to_vec();
    pairs.extend([(0, 0), (u32::MAX, 0), (0, 1), (u32::MAX, u32::MAX)]);
    let mut frequencies = vec![1_000, 1_000_000];
    for row in &DOCUMENT_01[..4] {
        frequencies.extend([row.upper_frequency, row.upper_frequency + 1]);
    }
    for frequency in frequencies {
        let mut clocks = with_neighbours(DOCUMENT_01.map(|row| row.least_clock).to_vec());
        clocks.extend([MOST_CLOCK, MOST_CLOCK + 1]);
        clocks.extend(RATIOS.map(|ratio| ratio.saturating_mul(frequency)));
        pairs.extend(clocks.into_iter().map(|clock| (clock, frequency)));
    }
    // The least clock for which each prescaler leaves a setup time, at its least ratio.
    for prescaler in 5..=16 {
        let clock = 500_000 * prescaler;
        let frequency = clock / (256 * (prescaler - 1) + 1);
        pairs.extend([(clock - 1, frequency), (clock, frequency)]);
    }
    let mut source = Random::new(1);
    pairs.extend((0..300).map(|turn| random(&mut source, turn)));
    let mut seen = HashSet::new();
    pairs.retain(|pair| seen.insert(*pair));
    pairs
}
