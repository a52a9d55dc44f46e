//! Whole lists: the planner's search on the judge in Rust, which counts its seeks, and the job for the
//! program `plan_plain`.

use crate::designs::Design;
use crate::search::{Judge, Prices};

/// What a step found, and how many seeks it took.
pub struct Step {
    pub point: Option<(u8, u8)>,
    pub seeks: u32,
}

fn cost(prices: &Prices, word: u64) -> u8 {
    prices.entries.iter().filter(|(mark, _)| ((word >> (mark.unsigned_abs() - 1)) & 1 == 1) == (*mark > 0)).fold(0, |sum, (_, place)| prices.scale.join(sum, *place))
}

fn step(judge: &mut Judge, most: u8) -> Step {
    let mut seeks = 0;
    let mut seek = |a, b| {
        seeks += 1;
        let word = judge.seek(a, b)?;
        Some((cost(&judge.a, word), cost(&judge.b, word)))
    };
    let point = seek(255, most).map(|found| {
        let (mut best, mut least) = (found, (0, 0));
        while least.0 < best.0 {
            let middle = least.0 + (best.0 - least.0) / 2;
            match seek(middle, most) {
                Some(point) => best = point,
                None => least.0 = middle + 1,
            }
        }
        while least.1 < best.1 {
            let middle = least.1 + (best.1 - least.1) / 2;
            match seek(best.0, middle) {
                Some(point) => best = point,
                None => least.1 = middle + 1,
            }
        }
        best
    });
    Step { point, seeks }
}

/// The steps of a listing, up to the one that ends.
pub fn list(judge: &mut Judge) -> Vec<Step> {
    let mut steps = Vec::new();
    let mut most = Some(255);
    while let Some(bound) = most {
        let next = step(judge, bound);
        most = next.point.and_then(|(_, b)| b.checked_sub(1));
        steps.push(next);
    }
    if steps.last().is_some_and(|s| s.point.is_some()) {
        // nothing lies below a B of 0, which takes no seek
        steps.push(Step { point: None, seeks: 0 });
    }
    steps
}

/// A job that enters the design and then gives the commands.
pub fn job(d: &Design, commands: &[u8]) -> Vec<u8> {
    let mut out = vec![1, d.choices, 64, 0, 4];
    for rule in &d.rules {
        let mut marks = [0u8; 8];
        for (to, mark) in marks.iter_mut().zip(rule) {
            *to = *mark as u8;
        }
        out.extend([2, rule.len() as u8]);
        out.extend(marks);
    }
    for (command, prices) in [(3, &d.a), (4, &d.b)] {
        for (mark, place) in prices {
            out.extend([command, *mark as u8, *place]);
        }
    }
    out.extend(commands);
    out
}
