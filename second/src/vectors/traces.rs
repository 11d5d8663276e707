//! Random traces of calls to a sign: the arguments of each call, from edges and around a clock that goes on.

use super::inputs::changed;
use super::lists::{code, damage, list, strangers, strangers_list};
use crate::random::Random;
use crate::sign::{Report, LEVELS, LIMITS};
use crate::sizes::LONGEST_CODE;

/// Levels at both edges, beside them, and such as would be levels if they were cut to two bytes.
const EDGE_LEVELS: [i32; 12] = [
    -20_000,
    20_000,
    -20_001,
    20_001,
    0,
    -1,
    30_000,
    65_536,
    -65_536,
    i32::MIN,
    i32::MAX,
    i32::MIN + 20_000,
];

/// Limits at both edges, and one that would be 0 if it were cut to two bytes.
const EDGE_LIMITS: [u32; 3] = [1, 65_536, 86_400];
const WRONG_LIMITS: [u32; 4] = [0, 86_401, 86_400 + 65_536, u32::MAX];

/// Where a trace's clock begins: at both ends of the times, in the middle of their bits, and on a usual day.
const STARTS: [u32; 4] = [0, 1_000_000_000, (1 << 31) - 1_000, u32::MAX - 2_000];

/// Seconds that a trace counts in. Ages are then multiples of them or stand beside one, and so are limits.
const STEPS: [u32; 4] = [1, 20, 28_800, 43_200];

/// The most steps by which the clock goes on before a call, and by which a call's time is off the clock.
const MOST_STEPS_ON: u64 = 2;
const MOST_STEPS_OFF: u64 = 4;

/// The most bytes of a code that is too long.
const LONGEST_ASKED: usize = 40;

/// A file that opens, with its codes: built from a list, or a stranger's.
pub fn opened_file(random: &mut Random) -> (Vec<Vec<u8>>, Vec<u8>) {
    if random.below(3) == 0 {
        strangers_list(random)
    } else {
        list(random)
    }
}

/// A copy of a file that opens, with a byte of any record changed.
pub fn damaged(file: &[u8], random: &mut Random) -> Vec<u8> {
    changed(file, |file| damage(file, random))
}

/// A call of the sign, without what is lent to it.
#[derive(Clone, Debug)]
pub enum SignCall {
    Report(Vec<u8>, Report),
    Ask { code: Vec<u8>, now: u32, limit: u32 },
}

/// A trace: the codes that are listed, its clock, and the seconds that it counts in.
pub struct Trace {
    listed: Vec<Vec<u8>>,
    clock: u32,
    step: u32,
}

impl Trace {
    pub fn new(listed: &[Vec<u8>], random: &mut Random) -> Trace {
        Trace {
            listed: listed.to_vec(),
            clock: random.one_of(&STARTS),
            step: random.one_of(&STEPS),
        }
    }

    /// The next call.
    pub fn next(&mut self, random: &mut Random) -> SignCall {
        self.clock = self
            .clock
            .saturating_add(self.steps(MOST_STEPS_ON + 1, random));
        let code = self.code(random);
        if random.below(2) == 0 {
            let level = level(random);
            let time = self.time(random);
            SignCall::Report(code, Report { level, time })
        } else {
            let now = self.time(random);
            let limit = self.limit(random);
            SignCall::Ask { code, now, limit }
        }
    }

    /// Lists with so many places, as calls of this trace could have left them; some levels are none.
    pub fn lists(&self, places: usize, random: &mut Random) -> [Vec<u8>; 2] {
        let mut lists = [Vec::new(), Vec::new()];
        for _ in 0..places {
            lists[0].extend(level(random).to_le_bytes());
            lists[1].extend(self.time(random).to_le_bytes());
        }
        lists
    }

    /// So many seconds as fewer steps than this have.
    fn steps(&self, below: u64, random: &mut Random) -> u32 {
        self.step * random.below(below) as u32
    }

    /// A listed code; now and then a stranger, the empty code or one that is too long.
    fn code(&self, random: &mut Random) -> Vec<u8> {
        if self.listed.is_empty() {
            return code(random);
        }
        let listed = &self.listed[random.index(self.listed.len())];
        match random.below(24) {
            0 | 1 => {
                let strangers = strangers(&[listed], random);
                strangers[random.index(strangers.len())].clone()
            }
            2 if random.below(2) == 0 => Vec::new(),
            2 => {
                let length = LONGEST_CODE + 1 + random.index(LONGEST_ASKED - LONGEST_CODE);
                changed(listed, |code| code.resize(length, 0))
            }
            _ => listed.clone(),
        }
    }

    /// A time around the clock, a second off it or not; seldom one at an end of the times, or any.
    fn time(&self, random: &mut Random) -> u32 {
        let off = self.steps(MOST_STEPS_OFF + 1, random);
        let around = if random.below(3) == 0 {
            self.clock.saturating_add(off)
        } else {
            self.clock.saturating_sub(off)
        };
        match random.below(120) {
            0 => 0,
            1 => u32::MAX,
            2 => random.below(1 << 32) as u32,
            3..20 => around.saturating_add(1),
            20..37 => around.saturating_sub(1),
            _ => around,
        }
    }

    /// A number of steps, a second off it or not; now and then an edge, or a wrong limit.
    fn limit(&self, random: &mut Random) -> u32 {
        let few = self.step * (1 + random.below(MOST_STEPS_OFF) as u32);
        let near = match random.below(3) {
            0 => few + 1,
            1 => few - 1,
            _ => few,
        };
        match random.below(12) {
            0 => random.one_of(&EDGE_LIMITS),
            1 => random.one_of(&WRONG_LIMITS),
            _ => near.clamp(*LIMITS.start(), *LIMITS.end()),
        }
    }
}

/// Any level that can be reported; now and then one of the edges.
fn level(random: &mut Random) -> i32 {
    if random.below(4) == 0 {
        return random.one_of(&EDGE_LEVELS);
    }
    let levels = LEVELS.end() - LEVELS.start() + 1;
    LEVELS.start() + random.below(levels as u64) as i32
}
