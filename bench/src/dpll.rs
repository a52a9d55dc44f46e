//! The settling solver's search, straightforwardly in Rust: the same order of clauses and trials.

pub struct Dpll {
    clauses: Vec<Vec<i16>>,
    values: Vec<i8>,
    trail: Vec<usize>,
    pub trials: u64,
    pub settled: u64,
}

enum State {
    Met,
    Broken,
    Last(i16),
    Several(i16),
}

impl Dpll {
    pub fn new(choices: usize, clauses: &[Vec<i16>]) -> Dpll {
        Dpll { clauses: clauses.to_vec(), values: vec![0; choices], trail: vec![], trials: 0, settled: 0 }
    }

    /// Which choices are taken in a setting that meets every clause, if there is one.
    pub fn decide(&mut self) -> Option<Vec<usize>> {
        self.values.fill(0);
        self.trail.clear();
        if !self.settle() {
            return None;
        }
        Some((1..=self.values.len()).filter(|n| self.values[n - 1] > 0).collect())
    }

    fn state(values: &[i8], clause: &[i16]) -> State {
        let mut open = None;
        let mut several = false;
        for mark in clause {
            let value = values[mark.unsigned_abs() as usize - 1];
            if value == 0 {
                several |= open.is_some();
                // one that asks for its choice to be left comes first
                open = if open.is_some_and(|first| first < 0 || *mark > 0) { open } else { Some(*mark) };
            } else if (value > 0) == (*mark > 0) {
                return State::Met;
            }
        }
        match open {
            None => State::Broken,
            Some(mark) if several => State::Several(mark),
            Some(mark) => State::Last(mark),
        }
    }

    /// Sweeps until nothing more follows: an open mark of the first clause that is not met with what is
    /// open left, or a clash.
    fn propagate(&mut self) -> Result<Option<i16>, ()> {
        loop {
            let before = self.trail.len();
            let mut open = None;
            for clause in &self.clauses {
                match Dpll::state(&self.values, clause) {
                    State::Met => {}
                    State::Broken => return Err(()),
                    State::Last(mark) => {
                        let at = mark.unsigned_abs() as usize - 1;
                        self.values[at] = if mark > 0 { 1 } else { -1 };
                        self.trail.push(at);
                        self.settled += 1;
                    }
                    // met where what is open is left
                    State::Several(mark) if mark < 0 => {}
                    State::Several(mark) => open = open.or(Some(mark)),
                }
            }
            if self.trail.len() == before {
                return Ok(open);
            }
        }
    }

    fn settle(&mut self) -> bool {
        let base = self.trail.len();
        let found = match self.propagate() {
            Err(()) => false,
            Ok(None) => true,
            Ok(Some(mark)) => self.try_choice(mark),
        };
        if !found {
            for at in self.trail.drain(base..) {
                self.values[at] = 0;
            }
        }
        found
    }

    fn try_choice(&mut self, mark: i16) -> bool {
        let at = mark.unsigned_abs() as usize - 1;
        for value in if mark > 0 { [1, -1] } else { [-1, 1] } {
            self.trials += 1;
            self.values[at] = value;
            if self.settle() {
                return true;
            }
        }
        self.values[at] = 0;
        false
    }
}
