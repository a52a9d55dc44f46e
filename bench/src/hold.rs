//! Holds the job programs against the reference planner on many random jobs.

use crate::jobs;
use crate::reference::{Design, Kind, Line, Run};
use std::io::Write;
use std::process::{Command, Stdio};

/// Where a program's line is not what it must be, if it is not.
fn differs(line: &str, expected: &Line, design: Option<&Design>) -> Option<String> {
    match expected {
        Line::Text(text) => (line != text).then(|| format!("{line:?}, not {text:?}")),
        Line::Plan(at, a, b) => {
            let word = line.strip_prefix(&format!("{at} plan {a} {b} ")).filter(|w| w.len() == 16 && *w == w.to_lowercase());
            let word = word.and_then(|w| u64::from_str_radix(w, 16).ok());
            let design = design.expect("a design for each plan");
            let good = word.is_some_and(|w| (design.n == 64 || w >> design.n == 0) && design.meets(w) && design.point(w) == (*a, *b));
            (!good).then(|| format!("{line:?}, not a plan of ({a}, {b}) at {at}"))
        }
    }
}

fn check(program: &str, kind: Kind, job: &[u8]) -> Result<usize, String> {
    let mut child = Command::new(program).stdin(Stdio::piped()).stdout(Stdio::piped()).spawn().expect("the program starts");
    // a job that is too long may be left unread
    let _ = child.stdin.take().unwrap().write_all(job);
    let out = child.wait_with_output().unwrap();
    if !out.status.success() {
        return Err(format!("{}", out.status));
    }
    let text = String::from_utf8_lossy(&out.stdout).into_owned();
    let run = Run::of(kind, job);
    let mut designs = run.designs.iter();
    let lines: Vec<&str> = text.lines().collect();
    for (line, expected) in lines.iter().zip(&run.lines) {
        let design = if matches!(expected, Line::Plan(..)) { designs.next() } else { None };
        if let Some(problem) = differs(line, expected, design) {
            return Err(problem);
        }
    }
    if lines.len() != run.lines.len() {
        return Err(format!("{} lines, not {}", lines.len(), run.lines.len()));
    }
    Ok(lines.len())
}

pub fn hold(plain: &str, tree: Option<&str>, from: u64, count: u64) {
    let (mut lines, mut wrong) = (0, 0);
    let mut numbers = std::collections::BTreeMap::<String, u64>::new();
    for seed in from..from + count {
        let job = jobs::job(seed);
        for line in &Run::of(Kind::Plain, &job).lines {
            let kind = match line {
                Line::Plan(..) => "plan".to_string(),
                Line::Text(text) => {
                    let words: Vec<&str> = text.split(' ').collect();
                    if words[1] == "refused" { format!("refused {} {}", words[2], words[3]) } else { words[1].into() }
                }
            };
            *numbers.entry(kind).or_default() += 1;
        }
        let programs = [Some((plain, Kind::Plain)), tree.map(|t| (t, Kind::Tree(29_696)))];
        for (program, kind) in programs.into_iter().flatten() {
            match check(program, kind, &job) {
                Ok(n) => lines += n,
                Err(problem) => {
                    wrong += 1;
                    println!("seed {seed}, {program}: {problem}");
                }
            }
        }
    }
    println!("{count} jobs, {lines} lines compared, {wrong} jobs with a difference");
    for (kind, n) in numbers {
        println!("{n:>9} {kind}");
    }
}
