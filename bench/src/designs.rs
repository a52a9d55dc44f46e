//! Designs for the benchmark.

pub struct Design {
    pub name: String,
    pub choices: u8,
    pub rules: Vec<Vec<i8>>,
    pub a: Vec<(i8, u8)>,
    pub b: Vec<(i8, u8)>,
    pub bounds: (u8, u8),
}

/// xorshift64
pub struct Random(pub u64);

impl Random {
    pub fn new(seed: u64) -> Random {
        let mut r = Random(seed.wrapping_mul(0x9E37_79B9_7F4A_7C15) | 1);
        for _ in 0..10 {
            r.next();
        }
        r
    }

    pub fn next(&mut self) -> u64 {
        self.0 ^= self.0 << 13;
        self.0 ^= self.0 >> 7;
        self.0 ^= self.0 << 17;
        self.0 >> 11
    }

    pub fn below(&mut self, n: u64) -> u64 {
        self.next() % n
    }
}

/// Rules of three marks on different choices.
pub fn random_rules(choices: u64, count: usize, signed: bool, seed: u64) -> Vec<Vec<i8>> {
    let mut r = Random::new(seed);
    let mut rules = Vec::new();
    for _ in 0..count {
        let mut rule: Vec<i8> = Vec::new();
        while rule.len() < 3 {
            let choice = r.below(choices) as i8 + 1;
            if rule.iter().all(|m| m.abs() != choice) {
                rule.push(if signed && r.below(2) == 0 { -choice } else { choice });
            }
        }
        rules.push(rule);
    }
    rules
}

fn design(name: &str, choices: u8, rules: Vec<Vec<i8>>) -> Design {
    Design { name: name.into(), choices, rules, a: vec![], b: vec![], bounds: (255, 255) }
}

/// n pairs of choices of which one each is taken.
fn pairs(n: i8) -> Vec<Vec<i8>> {
    (0..n).map(|i| vec![2 * i + 1, 2 * i + 2]).collect()
}

pub fn all() -> Vec<Design> {
    let mut list = vec![design("64 choices, no rules", 64, vec![])];
    list.push(design("64 choices chained", 64, (1..64).map(|i| vec![-i, i + 1]).chain([vec![1]]).collect()));
    let clash = vec![vec![63, 64], vec![63, -64], vec![-63, 64], vec![-63, -64]];
    list.push(design("only the last two clash", 64, clash));
    let mut last = design("only the last eight priced", 64, (57..64).map(|i| vec![i, i + 1]).collect());
    last.a = (57..=64).map(|i| (i, 1)).collect();
    last.b = (57..=64).map(|i| (-i, 3)).collect();
    last.bounds = (3, 24);
    list.push(last);
    for n in [30u64, 40, 50, 60] {
        for seed in 1..=6 {
            // 256 rules of three marks fill the rule capacity
            let count = ((n as f64 * 4.3) as usize).min(256);
            list.push(design(&format!("random three-mark, {n} choices, seed {seed}"), n as u8, random_rules(n, count, true, seed)));
        }
    }
    for n in [20i8, 32] {
        let mut unit = design(&format!("{n} pairs, unit priced in A, one short"), 2 * n as u8, pairs(n));
        unit.a = (1..=2 * n).map(|i| (i, 1)).collect();
        unit.bounds = (n as u8 - 1, 255);
        list.push(unit);
    }
    for (n, a, b) in [(20i8, 24u8, 3u8), (20, 26, 4), (32, 39, 4)] {
        let mut both = design(&format!("{n} pairs priced in both, bounds {a} and {b}"), 2 * n as u8, pairs(n));
        both.a = (0..2 * n).map(|i| (i + 1, 1 + (i as u16 * 7 % 3) as u8)).collect();
        both.b = (0..2 * n).map(|i| (i + 1, 1 + (i as u16 * 5 % 4) as u8)).collect();
        both.bounds = (a, b);
        list.push(both);
    }
    for (seed, a) in [(1, 12u8), (1, 13), (2, 12), (2, 13)] {
        let mut cover = design(&format!("cover of 40 choices by 60 rules, seed {seed}, at most {a}"), 40, random_rules(40, 60, false, seed));
        cover.a = (1..=40).map(|i| (i, 1)).collect();
        cover.bounds = (a, 255);
        list.push(cover);
    }
    for n in [12i8, 16] {
        let mut against = design(&format!("{n} choices, taken priced in A and left in B"), n as u8, vec![]);
        against.a = (1..=n).map(|i| (i, 2 + (i as u8 % 3))).collect();
        against.b = (1..=n).map(|i| (-i, i as u8)).collect();
        against.bounds = (20, 8);
        list.push(against);
    }
    list
}

impl Design {
    /// The bytes that the program `tree_seeks` reads, with the seek put so often.
    pub fn bytes(&self, judge: u8, price_room: u8, times: usize) -> Vec<u8> {
        let mut out = vec![judge, price_room, self.choices, (self.rules.len() % 256) as u8, (self.rules.len() / 256) as u8];
        for rule in &self.rules {
            out.push(rule.len() as u8);
            out.extend(rule.iter().map(|m| *m as u8));
        }
        for prices in [&self.a, &self.b] {
            out.push(prices.len() as u8);
            for (mark, place) in prices {
                out.extend([*mark as u8, *place]);
            }
        }
        let mut left = times;
        while left > 0 {
            let now = left.min(255);
            out.extend([self.bounds.0, self.bounds.1, now as u8]);
            left -= now;
        }
        out
    }
}
