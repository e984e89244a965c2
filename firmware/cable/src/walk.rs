//! One run of an exchange, chosen by a seed.

use crate::bus::Cable;
use crate::ending::Ending;
use crate::space::{Action, Space};

/// A run from its beginning to an ending.
#[derive(Debug, PartialEq, Eq)]
pub struct Walk {
    pub steps: usize,
    /// When the cable was moved, by the number of the step.
    pub cable: Vec<(usize, Action)>,
    pub ending: Ending,
}

/// One step in so many pulls the cable, or puts it back.
const PULL: usize = 300;
const PUT_BACK: usize = 20;

/// Plays one run. Each step is chosen by chance among all that can happen.
pub fn walk(space: &mut Space, seed: u64) -> Walk {
    let mut chance = Chance(seed);
    let mut situation = space.first;
    let mut successors = vec![];
    let mut steps = 0;
    let mut cable = vec![];
    loop {
        space.successors(situation, &mut successors);
        let rarity = match situation.cable {
            Cable::In => PULL,
            Cable::Out | Cable::PutBack => PUT_BACK,
        };
        let moves_cable = chance.below(rarity) == 0;
        let is_settled = space.is_settled(situation, &successors);
        successors.retain(|(action, _)| action.moves_cable() == moves_cable);
        if is_settled && (!moves_cable || successors.is_empty()) {
            let ending = Ending::of(space, situation);
            return Walk {
                steps,
                cable,
                ending,
            };
        }
        if !successors.is_empty() {
            let (action, next) = successors[chance.below(successors.len())];
            if moves_cable {
                cable.push((steps, action));
            }
            situation = next;
            steps += 1;
        }
    }
}

/// Numbers that follow from a seed (SplitMix64).
struct Chance(u64);

impl Chance {
    fn below(&mut self, limit: usize) -> usize {
        self.0 = self.0.wrapping_add(0x9E37_79B9_7F4A_7C15);
        let mut z = self.0;
        z = (z ^ z >> 30).wrapping_mul(0xBF58_476D_1CE4_E5B9);
        z = (z ^ z >> 27).wrapping_mul(0x94D0_49BB_1331_11EB);
        ((z ^ z >> 31) % limit as u64) as usize
    }
}
