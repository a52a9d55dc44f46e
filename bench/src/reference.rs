//! A planner written from the documents alone, to hold the programs against. It answers a job line by
//! line; where a plan may be any of a point's, it says what the line must show.

/// How a job's judge is made.
#[derive(Clone, Copy)]
pub enum Kind {
    Plain,
    /// The tree on a solver whose store has so many numbers.
    Tree(usize),
}

#[derive(Clone, PartialEq, Eq, Debug)]
pub enum Line {
    Text(String),
    /// Offset, costs: the word must be a plan of this point.
    Plan(usize, u8, u8),
}

const TOP_A: u32 = 40;
const TOP_B: u32 = 24;

#[derive(Default, Clone)]
pub struct Design {
    pub n: u32,
    q: usize,
    r: usize,
    pub rules: Vec<Vec<i8>>,
    pub a: Vec<(i8, u8)>,
    pub b: Vec<(i8, u8)>,
}

fn holds(word: u64, mark: i8) -> bool {
    (word >> (mark.unsigned_abs() - 1) & 1 == 1) == (mark > 0)
}

impl Design {
    fn named(&self, mark: i8) -> bool {
        mark != 0 && u32::from(mark.unsigned_abs()) <= self.n
    }

    pub fn meets(&self, word: u64) -> bool {
        self.rules.iter().all(|rule| rule.iter().any(|m| holds(word, *m)))
    }

    pub fn point(&self, word: u64) -> (u8, u8) {
        let hours = self.a.iter().filter(|p| holds(word, p.0)).fold(0, |sum, p| (sum + u32::from(p.1)).min(TOP_A));
        let needles = self.b.iter().filter(|p| holds(word, p.0)).map(|p| p.1).max().unwrap_or(0);
        (hours as u8, needles)
    }

    /// The least cost A, and at it the least cost B, of the plans with a cost B below a bound.
    fn next(&self, below: u32) -> Option<(u8, u8)> {
        if self.n <= 12 {
            return (0..1u64 << self.n).filter(|w| self.meets(*w)).map(|w| self.point(w)).filter(|p| u32::from(p.1) < below).min();
        }
        let mut best = None;
        let mut named: Vec<u32> = self.rules.iter().flatten().copied().chain(self.a.iter().chain(&self.b).map(|p| p.0)).map(|m| u32::from(m.unsigned_abs())).collect();
        named.sort();
        named.dedup();
        self.search(&named, 0, 0, below, &mut best);
        best
    }

    /// All values of the named choices in order; a part is dropped where a rule is broken, the bound
    /// is reached or nothing better can come.
    fn search(&self, named: &[u32], word: u64, fixed: u64, below: u32, best: &mut Option<(u8, u8)>) {
        let sure = |m: &i8| fixed >> (m.unsigned_abs() - 1) & 1 == 1;
        let broken = self.rules.iter().any(|rule| rule.iter().all(|m| sure(m) && !holds(word, *m)));
        let part = Design { a: self.a.iter().filter(|p| sure(&p.0)).copied().collect(), b: self.b.iter().filter(|p| sure(&p.0)).copied().collect(), ..Design::default() };
        let point = part.point(word);
        if broken || u32::from(point.1) >= below || best.is_some_and(|p| point.0 > p.0 || point.0 == p.0 && point.1 >= p.1) {
            return;
        }
        match named.split_first() {
            None => *best = Some(point),
            Some((choice, rest)) => {
                let bit = 1u64 << (choice - 1);
                self.search(rest, word, fixed | bit, below, best);
                self.search(rest, word | bit, fixed | bit, below, best);
            }
        }
    }
}

/// A run of a job: the lines, and for each plan line the design that it is a plan of.
pub struct Run {
    kind: Kind,
    design: Option<Design>,
    listed: Vec<(u8, u8)>,
    open: bool,
    pub lines: Vec<Line>,
    pub designs: Vec<Design>,
}

enum Answer {
    Ok,
    Point(u8, u8),
    Ended,
    Plan(u8, u8),
    Refused(u8, &'static str),
}

impl Run {
    pub fn of(kind: Kind, job: &[u8]) -> Run {
        let mut run = Run { kind, design: None, listed: vec![], open: false, lines: vec![], designs: vec![] };
        run.play(job);
        run
    }

    fn play(&mut self, job: &[u8]) {
        if job.len() > 16_384 {
            return self.say(0, Answer::Refused(1, "job"));
        }
        let mut at = 0;
        while at < job.len() {
            let size = match job[at] {
                1 => 5,
                2 => 10,
                3 | 4 => 3,
                5 | 6 => 1,
                7 => 2,
                _ => return self.say(at, Answer::Refused(2, "job")),
            };
            if at + size > job.len() {
                return self.say(at, Answer::Refused(3, "job"));
            }
            let answer = self.command(&job[at..at + size]);
            self.say(at, answer);
            at += size;
        }
        self.lines.push(Line::Text(format!("{at} end")));
    }

    fn say(&mut self, at: usize, answer: Answer) {
        self.lines.push(match answer {
            Answer::Ok => Line::Text(format!("{at} ok")),
            Answer::Point(a, b) => Line::Text(format!("{at} point {a} {b}")),
            Answer::Ended => Line::Text(format!("{at} ended")),
            Answer::Refused(number, layer) => Line::Text(format!("{at} refused {number} {layer}")),
            Answer::Plan(a, b) => {
                self.designs.push(self.design.clone().expect("a listed design"));
                Line::Plan(at, a, b)
            }
        });
    }

    fn command(&mut self, c: &[u8]) -> Answer {
        match (c[0], self.design.is_some()) {
            (1, false) => self.set_up(u32::from(c[1]), usize::from(c[2]), usize::from(c[3]) + 256 * usize::from(c[4])),
            (1, true) | (_, false) => Answer::Refused(4, "job"),
            (2, _) => self.rule(c[1], &c[2..10]),
            (3, _) => self.price(c[1] as i8, c[2], true),
            (4, _) => self.price(c[1] as i8, c[2], false),
            (5, _) => self.step(),
            (6, _) => {
                self.listed.clear();
                self.open = false;
                Answer::Ok
            }
            _ => match self.listed.get(usize::from(c[1])) {
                Some((a, b)) => Answer::Plan(*a, *b),
                None => Answer::Refused(14, "planner"),
            },
        }
    }

    fn set_up(&mut self, n: u32, q: usize, r: usize) -> Answer {
        if !(1..=64).contains(&n) {
            return Answer::Refused(5, "judge");
        }
        if !(1..=64).contains(&q) || !(1..=1024).contains(&r) {
            return Answer::Refused(6, "judge");
        }
        if let Kind::Tree(store) = self.kind {
            let t = (TOP_A + 1) * (TOP_A + 1) + (TOP_B + 1) * (TOP_B + 1) - 2;
            let m = n as usize + (q - 1) * (TOP_A + TOP_B) as usize;
            let k = r + 4 * (q - 1) * t as usize;
            if store < 4 * m + k {
                return Answer::Refused(7, "solver");
            }
        }
        self.design = Some(Design { n, q, r, ..Design::default() });
        Answer::Ok
    }

    fn rule(&mut self, count: u8, marks: &[u8]) -> Answer {
        let d = self.design.as_mut().expect("a design");
        if self.open {
            return Answer::Refused(8, "planner");
        }
        if count > 8 {
            return Answer::Refused(9, "judge");
        }
        let rule: Vec<i8> = marks[..usize::from(count)].iter().map(|m| *m as i8).collect();
        if !rule.iter().all(|m| d.named(*m)) {
            return Answer::Refused(10, "judge");
        }
        if d.rules.iter().chain([&rule]).map(|r| r.len() + 1).sum::<usize>() > d.r {
            return Answer::Refused(13, "judge");
        }
        d.rules.push(rule);
        Answer::Ok
    }

    fn price(&mut self, mark: i8, place: u8, first: bool) -> Answer {
        let d = self.design.as_mut().expect("a design");
        if self.open {
            return Answer::Refused(8, "planner");
        }
        if !d.named(mark) {
            return Answer::Refused(10, "judge");
        }
        if place < 1 || u32::from(place) > if first { TOP_A } else { TOP_B } {
            return Answer::Refused(11, "judge");
        }
        let prices = if first { &mut d.a } else { &mut d.b };
        if prices.iter().any(|p| p.0 == mark) {
            return Answer::Refused(12, "judge");
        }
        if prices.len() >= d.q {
            return Answer::Refused(13, "judge");
        }
        prices.push((mark, place));
        Answer::Ok
    }

    fn step(&mut self) -> Answer {
        self.open = true;
        let below = self.listed.last().map_or(256, |p| u32::from(p.1));
        match self.design.as_ref().expect("a design").next(below) {
            None => Answer::Ended,
            Some((a, b)) => {
                self.listed.push((a, b));
                Answer::Point(a, b)
            }
        }
    }
}
