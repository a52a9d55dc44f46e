//! Random jobs: sound ones, ones with refusals at every edge, cut and spoilt ones, random bytes.

use crate::designs::Random;

fn mark(r: &mut Random, n: u64, span: u64) -> u8 {
    match r.below(60) {
        0 => 0,
        1 => 128,
        2 => (n + 1) as u8,
        3 => -((n + 1) as i64) as u8,
        4 => r.below(256) as u8,
        _ => {
            let choice = (n - r.below(span.min(n))) as i64;
            (if r.below(2) == 0 { choice } else { -choice }) as u8
        }
    }
}

fn place(r: &mut Random, top: u64) -> u8 {
    match r.below(30) {
        0 => 0,
        1 => (top + 1) as u8,
        2 => top as u8,
        3 => r.below(256) as u8,
        _ => {
            let span = if r.below(2) == 0 { top } else { 5 };
            (1 + r.below(span)) as u8
        }
    }
}

fn set_up(r: &mut Random, n: u64, q: u64) -> Vec<u8> {
    let room = match r.below(6) {
        0 => 1 + r.below(40),
        1 => 1023 + r.below(3),
        2 => 0,
        _ => 1024,
    };
    vec![1, n as u8, q as u8, room as u8, (room >> 8) as u8]
}

fn rule(r: &mut Random, n: u64, span: u64) -> Vec<u8> {
    let count = match r.below(60) {
        0 => 0,
        1 => 9,
        2 => r.below(256),
        3..=5 => 8,
        6..=12 => 1,
        13..=40 => 2,
        _ => 3 + r.below(2),
    };
    let mut bytes = vec![2, count as u8];
    for _ in 0..8 {
        bytes.push(mark(r, n, span));
    }
    bytes
}

fn entry(r: &mut Random, n: u64, span: u64) -> Vec<u8> {
    match r.below(10) {
        0..=2 => rule(r, n, span),
        3..=6 => vec![3, mark(r, n, span), place(r, 40)],
        _ => vec![4, mark(r, n, span), place(r, 24)],
    }
}

/// One job. The tree's store holds four prices in a cost, so most have that many.
pub fn job(seed: u64) -> Vec<u8> {
    let mut r = Random::new(seed);
    if r.below(40) == 0 {
        return (0..r.below(60)).map(|_| if r.below(3) == 0 { r.below(256) as u8 } else { 1 + r.below(7) as u8 }).collect();
    }
    let n = match r.below(20) {
        0 => r.below(3),
        1 => 63 + r.below(3),
        2..=5 => 13 + r.below(52),
        _ => 1 + r.below(12),
    };
    let q = match r.below(20) {
        0 => 0,
        1 => 64 + r.below(2),
        2..=4 => 1 + r.below(8),
        _ => 1 + r.below(4),
    };
    let span = if n > 12 { 11 } else { 12 };
    let mut job = vec![];
    if r.below(20) == 0 {
        job.extend(entry(&mut r, 8, 8));
    }
    if r.below(15) == 0 {
        let (n, q) = (r.below(70), r.below(70));
        job.extend(set_up(&mut r, n, q));
    }
    job.extend(set_up(&mut r, n, q));
    for _ in 0..1 + r.below(3) {
        for _ in 0..r.below(14) {
            job.extend(entry(&mut r, n.max(1), span));
        }
        for _ in 0..r.below(8) {
            job.extend(match r.below(9) {
                0 => vec![7, r.below(4) as u8],
                1 => vec![7, r.below(256) as u8],
                2 => entry(&mut r, n.max(1), span),
                3 if r.below(8) == 0 => set_up(&mut r, n, q),
                _ => vec![5],
            });
        }
        for index in 0..r.below(4) {
            job.extend([7, index as u8]);
        }
        job.push(6);
    }
    match r.below(25) {
        0 => job.truncate(r.below(job.len() as u64) as usize),
        1 => job.push(r.below(256) as u8),
        2 if r.below(20) == 0 => job.resize(16_384 + r.below(3) as usize, 6),
        _ => {}
    }
    job
}
