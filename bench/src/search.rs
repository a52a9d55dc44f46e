//! The plain judge's search, written again in Rust: the same operations in the same order, so that it
//! visits the same nodes, which it counts.

#[derive(Clone)]
pub struct Rule {
    pub ups: u64,
    pub downs: u64,
}

#[derive(Clone, Copy, PartialEq)]
pub struct Partial {
    pub up: u64,
    pub down: u64,
}

/// How a cost joins two places, and its top.
#[derive(Clone, Copy)]
pub enum Scale {
    Hours,
    Needles,
}

impl Scale {
    pub fn top(self) -> u8 {
        match self {
            Scale::Hours => 40,
            Scale::Needles => 24,
        }
    }

    pub fn join(self, p: u8, q: u8) -> u8 {
        match self {
            Scale::Hours => (p.min(40) + q.min(40)).min(40),
            Scale::Needles => p.min(24).max(q.min(24)),
        }
    }
}

pub struct Prices {
    pub scale: Scale,
    pub entries: Vec<(i8, u8)>,
    pub taking: [u8; 64],
    pub leaving: [u8; 64],
    pub ups: u64,
    pub downs: u64,
}

fn choice_bit(mark: i8) -> u32 {
    u32::from(mark.unsigned_abs()) - 1
}

fn highest_index(word: u64) -> u32 {
    63 - word.leading_zeros()
}

fn is_sure(mark: i8, at: Partial) -> bool {
    let against = if mark > 0 { at.down } else { at.up };
    (against >> choice_bit(mark)) & 1 == 0
}

fn least_at(table: &[u8; 64], word: u64, start: u8) -> u8 {
    let mut least = start;
    let mut rest = word;
    while rest != 0 {
        let k = highest_index(rest);
        least = least.min(table[k as usize]);
        rest ^= 1 << k;
    }
    least
}

impl Prices {
    pub fn new(scale: Scale, entries: &[(i8, u8)]) -> Prices {
        let mut p = Prices { scale, entries: entries.to_vec(), taking: [0; 64], leaving: [0; 64], ups: 0, downs: 0 };
        for &(mark, place) in entries {
            let k = choice_bit(mark) as usize;
            if mark > 0 {
                p.taking[k] = place;
                p.ups |= 1 << k;
            } else {
                p.leaving[k] = place;
                p.downs |= 1 << k;
            }
        }
        p
    }

    fn sure_cost(&self, at: Partial) -> u8 {
        let mut sum = 0;
        for &(mark, place) in &self.entries {
            if is_sure(mark, at) {
                sum = self.scale.join(sum, place);
            }
        }
        sum
    }

    fn within(&self, bound: u8, at: Partial) -> Option<Partial> {
        if bound >= self.scale.top() {
            return Some(at);
        }
        let sum = self.sure_cost(at);
        if sum > bound {
            return None;
        }
        let mut here = at;
        for &(mark, place) in &self.entries {
            if self.scale.join(sum, place) > bound && !is_sure(mark, at) {
                let bit = 1 << choice_bit(mark);
                if mark > 0 {
                    here.up &= !bit;
                } else {
                    here.down &= !bit;
                }
            }
        }
        Some(here)
    }

    fn least(&self, rules: &[Rule], at: Partial) -> u8 {
        let mut sum = self.sure_cost(at);
        let mut seen = !(at.up & at.down);
        for rule in rules {
            let takes = rule.ups & at.up;
            let leaves = rule.downs & at.down;
            if (takes | leaves) & seen == 0 {
                let price = least_at(&self.leaving, leaves, least_at(&self.taking, takes, u8::MAX));
                if price > 0 {
                    sum = self.scale.join(sum, price);
                    seen |= takes | leaves;
                }
            }
        }
        sum
    }
}

impl Rule {
    fn is_met(&self, at: Partial) -> bool {
        self.ups & !at.down != 0 || self.downs & !at.up != 0
    }

    fn apply(&self, at: Partial) -> Option<Partial> {
        let takes = self.ups & at.up;
        let leaves = self.downs & at.down;
        if takes == 0 {
            if leaves == 0 {
                return None;
            }
            if leaves & (leaves - 1) == 0 {
                return Some(Partial { up: at.up & !leaves, down: at.down });
            }
        } else if leaves == 0 && takes & (takes - 1) == 0 {
            return Some(Partial { up: at.up, down: at.down & !takes });
        }
        Some(at)
    }
}

fn sweep(rules: &[Rule], at: Partial) -> Option<Partial> {
    let mut here = at;
    for rule in rules {
        here = rule.apply(here)?;
    }
    Some(here)
}

fn ease(rules: &[Rule], ups: u64, downs: u64, at: Partial) -> Partial {
    let (mut take_asked, mut leave_asked) = (0, 0);
    for rule in rules {
        if !rule.is_met(at) {
            take_asked |= rule.ups;
            leave_asked |= rule.downs;
        }
    }
    let open = at.up & at.down;
    let leave = open & !(take_asked | downs);
    let take = open & !(leave_asked | ups | leave);
    Partial { up: at.up & !leave, down: at.down & !take }
}

fn add_weight(weights: &mut [u32; 64], word: u64, weight: u32) {
    let mut rest = word;
    while rest != 0 {
        let k = highest_index(rest);
        weights[k as usize] = weights[k as usize].saturating_add(weight);
        rest ^= 1 << k;
    }
}

fn split(rules: &[Rule], at: Partial) -> (Partial, Partial) {
    let mut up = [0u32; 64];
    let mut down = [0u32; 64];
    for rule in rules {
        if !rule.is_met(at) {
            let takes = rule.ups & at.up;
            let leaves = rule.downs & at.down;
            let marks = (takes.count_ones() + leaves.count_ones()).min(8);
            let weight = 1 << (2 * (8 - marks));
            add_weight(&mut up, takes, weight);
            add_weight(&mut down, leaves, weight);
        }
    }
    let score = |k: u32| (u64::from(up[k as usize]) + 1).saturating_mul(u64::from(down[k as usize]) + 1);
    let open = at.up & at.down;
    let mut best = highest_index(open);
    let mut most = score(best);
    let mut rest = open ^ (1 << best);
    while rest != 0 {
        let k = highest_index(rest);
        let here = score(k);
        if here > most {
            best = k;
            most = here;
        }
        rest ^= 1 << k;
    }
    let left = Partial { up: at.up & !(1 << best), down: at.down };
    let taken = Partial { up: at.up, down: at.down & !(1 << best) };
    if up[best as usize] > down[best as usize] { (taken, left) } else { (left, taken) }
}

pub struct Judge {
    pub choices: u8,
    pub rules: Vec<Rule>,
    pub a: Prices,
    pub b: Prices,
    pub nodes: u64,
}

impl Judge {
    fn settle(&self, a: u8, b: u8, at: Partial) -> Option<Partial> {
        let mut here = at;
        loop {
            let next = self.b.within(b, self.a.within(a, sweep(&self.rules, here)?)?)?;
            if next == here {
                return Some(here);
            }
            here = next;
        }
    }

    fn search(&mut self, a: u8, b: u8, at: Partial) -> Option<u64> {
        self.nodes += 1;
        let here = self.settle(a, b, at)?;
        if here.up & here.down == 0 {
            return Some(here.up);
        }
        if a < self.a.scale.top() && self.a.least(&self.rules, here) > a || b < self.b.scale.top() && self.b.least(&self.rules, here) > b {
            return None;
        }
        let eased = ease(&self.rules, self.a.ups | self.b.ups, self.a.downs | self.b.downs, here);
        if eased != here {
            return self.search(a, b, eased);
        }
        let (first, second) = split(&self.rules, here);
        match self.search(a, b, first) {
            Some(word) => Some(word),
            None => self.search(a, b, second),
        }
    }

    pub fn seek(&mut self, a: u8, b: u8) -> Option<u64> {
        self.search(a, b, Partial { up: u64::MAX >> (64 - self.choices), down: u64::MAX })
    }
}
