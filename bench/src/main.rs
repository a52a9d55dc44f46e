//! Seeks of the plain judge beside the same search in Rust: nodes visited and time. Then whole lists:
//! seeks and time of a step. Then the solvers beside a DPLL in Rust.
//! Usage: bench plain TREE_SEEKS PLAN_PLAIN, or bench solvers DECIDES, or bench trees TREE_SEEKS, or bench hold FROM COUNT PLAN_PLAIN
//! [PLAN_TREE]; the words in capitals are paths of the programs of these names, but FROM and COUNT,
//! which say which random jobs.

mod clauses;
mod designs;
mod dpll;
mod hold;
mod jobs;
mod lists;
mod reference;
mod search;
mod trees;

use std::io::Write;
use std::process::{Command, Stdio};
use std::time::{Duration, Instant};

use designs::Design;
use search::{Judge, Prices, Rule, Scale};

fn judge_of(d: &Design) -> Judge {
    let word = |marks: &[i8], take: bool| marks.iter().filter(|m| (**m > 0) == take).fold(0u64, |w, m| w | 1 << (m.unsigned_abs() - 1));
    Judge {
        choices: d.choices,
        rules: d.rules.iter().map(|r| Rule { ups: word(r, true), downs: word(r, false) }).collect(),
        a: Prices::new(Scale::Hours, &d.a),
        b: Prices::new(Scale::Needles, &d.b),
        nodes: 0,
    }
}

/// The time of one run of the program on some input, and what it printed.
fn run(program: &str, input: &[u8]) -> (Duration, String) {
    let mut child = Command::new(program).stdin(Stdio::piped()).stdout(Stdio::piped()).spawn().expect("the program starts");
    let start = Instant::now();
    child.stdin.take().unwrap().write_all(input).unwrap();
    let out = child.wait_with_output().unwrap();
    (start.elapsed(), String::from_utf8(out.stdout).unwrap())
}

fn best_of<T>(times: usize, mut f: impl FnMut() -> (Duration, T)) -> (Duration, T) {
    let mut best = f();
    for _ in 1..times {
        let next = f();
        if next.0 < best.0 {
            best = next;
        }
    }
    best
}

fn time_seeks(program: &str) {
    println!("{:52} {:>9} {:>7} {:>11} {:>11} {:>6}", "design", "nodes", "answer", "Rattle", "Rust", "ratio");
    for d in designs::all() {
        let mut judge = judge_of(&d);
        let (first, answer) = {
            let start = Instant::now();
            let word = judge.seek(d.bounds.0, d.bounds.1);
            (start.elapsed(), word)
        };
        let nodes = judge.nodes;
        // enough seeks in one run to drown the start of a process
        let times = (40_000_000 / first.as_nanos().max(1_000)).clamp(1, 20_000) as usize;
        let (rust, _) = best_of(3, || {
            let start = Instant::now();
            for _ in 0..times {
                std::hint::black_box(judge.seek(d.bounds.0, d.bounds.1));
            }
            (start.elapsed(), ())
        });
        let (idle, _) = best_of(3, || run(program, &d.bytes(0, 64, 0)));
        let (whole, text) = best_of(3, || run(program, &d.bytes(0, 64, times)));
        let expected = match answer {
            Some(word) => format!("{} {} {word:016x}", d.bounds.0, d.bounds.1),
            None => format!("{} {} none", d.bounds.0, d.bounds.1),
        };
        assert_eq!(text.lines().next(), Some(expected.as_str()), "{}", d.name);
        let rattle = whole.saturating_sub(idle);
        println!(
            "{:52} {:>9} {:>7} {:>9.2}us {:>9.2}us {:>6.2}",
            d.name,
            nodes,
            if answer.is_some() { "plan" } else { "none" },
            rattle.as_nanos() as f64 / 1e3 / times as f64,
            rust.as_nanos() as f64 / 1e3 / times as f64,
            rattle.as_secs_f64() / rust.as_secs_f64()
        );
    }
}

/// The points that a run of the job program printed.
fn points(text: &str) -> Vec<(u8, u8)> {
    text.lines().filter_map(|line| {
        let (_, point) = line.split_once(" point ")?;
        let (a, b) = point.split_once(' ')?;
        Some((a.parse().ok()?, b.parse().ok()?))
    }).collect()
}

fn time_lists(program: &str) {
    println!("{:52} {:>6} {:>10} {:>10} {:>13}", "design", "points", "most seeks", "mean seeks", "time of a step");
    for d in designs::all() {
        let steps = lists::list(&mut judge_of(&d));
        let expected: Vec<_> = steps.iter().filter_map(|s| s.point).collect();
        let listing = [vec![5u8; steps.len()], vec![6]].concat();
        let (once, text) = best_of(3, || run(program, &lists::job(&d, &listing)));
        assert_eq!(points(&text), expected, "{}", d.name);
        // as many lists as the job's length and a second allow, beside as many commands that cost nothing
        let room = (16_384 - lists::job(&d, &[]).len()) / listing.len();
        let times = (1_000_000_000 / once.as_nanos().max(1)).clamp(1, room as u128) as usize;
        let (idle, _) = best_of(3, || run(program, &lists::job(&d, &vec![6; times * listing.len()])));
        let (whole, _) = best_of(3, || run(program, &lists::job(&d, &listing.repeat(times))));
        let seeks: u32 = steps.iter().map(|s| s.seeks).sum();
        println!(
            "{:52} {:>6} {:>10} {:>10.1} {:>11.2}us",
            d.name,
            expected.len(),
            steps.iter().map(|s| s.seeks).max().unwrap_or(0),
            f64::from(seeks) / steps.len() as f64,
            whole.saturating_sub(idle).as_nanos() as f64 / 1e3 / (times * steps.len()) as f64
        );
    }
}

/// What the program `decides` prints of a setting: how many choices are taken, and their sum.
fn told(answer: &Option<Vec<usize>>) -> String {
    match answer {
        None => "no".into(),
        Some(taken) => format!("yes {} {}", taken.len(), taken.iter().sum::<usize>()),
    }
}

fn time_settling(program: &str) {
    println!("{:56} {:>8} {:>9} {:>4} {:>11} {:>11} {:>6}", "clauses", "trials", "settled", "", "Rattle", "Rust", "ratio");
    for set in clauses::all() {
        let mut dpll = dpll::Dpll::new(set.choices as usize, &set.clauses);
        let start = Instant::now();
        let answer = dpll.decide();
        let first = start.elapsed();
        let (trials, settled) = (dpll.trials, dpll.settled);
        let times = (200_000_000 / first.as_nanos().max(1_000)).clamp(1, 20_000) as u16;
        let (rust, _) = best_of(3, || {
            let start = Instant::now();
            for _ in 0..times {
                std::hint::black_box(dpll.decide());
            }
            (start.elapsed(), ())
        });
        let (idle, _) = best_of(3, || run(program, &set.bytes(2, 0)));
        let (whole, text) = best_of(3, || run(program, &set.bytes(2, times)));
        assert_eq!(text.trim(), told(&answer), "{}", set.name);
        let rattle = whole.saturating_sub(idle);
        println!(
            "{:56} {:>8} {:>9} {:>4} {:>9.2}us {:>9.2}us {:>6.2}",
            set.name,
            trials,
            settled,
            if answer.is_some() { "yes" } else { "no" },
            rattle.as_nanos() as f64 / 1e3 / times as f64,
            rust.as_nanos() as f64 / 1e3 / times as f64,
            rattle.as_secs_f64() / rust.as_secs_f64()
        );
    }
    for set in clauses::deep() {
        let (time, text) = run(program, &set.bytes(2, 1));
        println!("{:56} {} in {:.2}s", set.name, text.trim(), time.as_secs_f64());
    }
}

fn main() {
    let mut words = std::env::args().skip(1);
    let part = words.next().unwrap_or_default();
    let mut program = || words.next().expect("usage: see the head of main.rs");
    match part.as_str() {
        "plain" => {
            time_seeks(&program());
            time_lists(&program());
        }
        "hold" => {
            let (from, count) = (program(), program());
            let plain = program();
            hold::hold(&plain, words.next().as_deref(), from.parse().expect("a number"), count.parse().expect("a number"));
        }
        "trees" => trees::time(&program()),
        _ => time_settling(&program()),
    }
}
