//! Seeks of the tree on both solvers beside the plain judge, on the same designs.

use crate::designs::{Design, Random, random_rules};
use crate::run;
use std::io::Write;
use std::process::{Command, Stdio};
use std::time::{Duration, Instant};

/// q prices in each cost, of different choices, and half as many rules as choices.
fn design(q: u8, bounds: (u8, u8)) -> Design {
    let choices = q.max(16);
    let mut r = Random::new(u64::from(q));
    let prices = |r: &mut Random, most: u64| (1..=q as i8).map(|n| (n, 1 + r.below(most) as u8)).collect::<Vec<_>>();
    Design {
        name: format!("{q} prices in each cost, {choices} choices, bounds {} and {}", bounds.0, bounds.1),
        choices,
        rules: random_rules(u64::from(choices), usize::from(choices) / 2, false, u64::from(q)),
        a: prices(&mut r, 6),
        b: prices(&mut r, 24),
        bounds,
    }
}

/// How many clauses, and numbers, the tree of one cost takes: a price of p has p + 1 places that can
/// hold, a joined node top + 1, and each pair of them but one is a clause.
fn written(top: usize, prices: &[(i8, u8)]) -> (usize, usize) {
    let q = prices.len();
    let places = |node: usize| if node < q { top + 1 } else { usize::from(prices[node - q].1) + 1 };
    (1..q).fold((0, 0), |(clauses, numbers), node| {
        let (l, r) = (places(2 * node), places(2 * node + 1));
        // two marks where one place is 0, else three
        (clauses + l * r - 1, numbers + 3 * (l - 1 + r - 1) + 4 * (l - 1) * (r - 1))
    })
}

/// The answer and the time of some seeks, or nothing where ten seconds do not suffice.
fn seek(program: &str, d: &Design, judge: u8, q: u8, times: usize) -> Option<(Duration, String)> {
    let mut child = Command::new(program).stdin(Stdio::piped()).stdout(Stdio::piped()).spawn().expect("the program starts");
    let start = Instant::now();
    child.stdin.take().unwrap().write_all(&d.bytes(judge, q, times)).unwrap();
    while start.elapsed() < Duration::from_secs(10) {
        if child.try_wait().unwrap().is_some() {
            let time = start.elapsed();
            return Some((time, String::from_utf8(child.wait_with_output().unwrap().stdout).unwrap()));
        }
        std::thread::sleep(Duration::from_micros(100));
    }
    child.kill().unwrap();
    child.wait().unwrap();
    None
}

fn shown(time: Option<f64>) -> String {
    time.map_or("more than 10s".into(), |t| format!("{t:.1}us"))
}

pub fn time(program: &str) {
    println!("{:56} {:>7} {:>8} {:>6} {:>12} {:>13} {:>13}", "design", "clauses", "numbers", "answer", "plain", "settling", "stepping");
    for q in [2, 4, 8, 16, 32, 64] {
        for bounds in [(40, 24), (10, 12), (5, 4)] {
            let d = design(q, bounds);
            let (a, b) = (written(40, &d.a), written(24, &d.b));
            let rules: usize = d.rules.iter().map(|r| r.len() + 1).sum();
            let each = |judge: u8| {
                let (once, text) = seek(program, &d, judge, q, 1)?;
                let times = (200_000_000 / once.as_nanos().max(1)).clamp(1, 1_000) as usize;
                let idle = run(program, &d.bytes(judge, q, 0)).0;
                let (whole, _) = seek(program, &d, judge, q, times)?;
                Some((whole.saturating_sub(idle).as_nanos() as f64 / 1e3 / times as f64, text.contains("none")))
            };
            let (plain, settling, stepping) = (each(0), each(2), if q <= 2 { each(1) } else { None });
            let none = plain.expect("the plain judge answers").1;
            assert!(settling.is_none_or(|x| x.1 == none) && stepping.is_none_or(|x| x.1 == none), "{}", d.name);
            println!(
                "{:56} {:>7} {:>8} {:>6} {:>12} {:>13} {:>13}",
                d.name,
                d.rules.len() + a.0 + b.0,
                rules + a.1 + b.1,
                if none { "none" } else { "plan" },
                shown(plain.map(|x| x.0)),
                shown(settling.map(|x| x.0)),
                if q <= 2 { shown(stepping.map(|x| x.0)) } else { "not tried".into() }
            );
        }
    }
}
