// Times the calls on whole keys, ours and plain Rust by turns, and takes the least time of each.
use crate::lives;
use crate::ours::{self, Source};
use crate::plain::String16;
use crate::random::Random;
use std::hint::black_box;
use std::ops::Sub;
use std::time::Instant;

// Hash number, code number and what the calls are given: a key of some height, and the record of one of its leaves.
pub struct Case {
    pub hash: u8,
    pub code: u8,
    pub source: Source,
    pub leaf: u16,
    pub stamp: String16,
    pub key: Vec<u8>,
    pub record: Vec<u8>,
}

impl Case {
    pub fn new(hash: u8, code: u8, height: u8) -> Case {
        let mut random = Random(0x9e37_79b9_7f4a_7c15);
        let source = random.source(height);
        let leaf = (1 << height) / 3;
        let stamp = random.string();
        let (mut key, mut record) = (vec![0; 1000], vec![0; 5000]);
        let wrote = lives::key(hash, code, &source, 0, &mut key);
        key.truncate(wrote.first);
        let wrote = lives::sign(hash, code, &source, leaf, &stamp, &mut record);
        record.truncate(wrote.first);
        Case {
            hash,
            code,
            source,
            leaf,
            stamp,
            key,
            record,
        }
    }
}

// The lives that are timed, and how often `Keys` writes the key record.
#[derive(Clone, Copy)]
pub enum Life {
    Verify,
    Grow,
    Finish,
    Keys,
    Sign,
    Trace,
}

pub const LIVES: [Life; 6] = [
    Life::Verify,
    Life::Grow,
    Life::Finish,
    Life::Keys,
    Life::Sign,
    Life::Trace,
];

// The calls that they time, most of them by differences.
pub const NAMES: [&str; 6] = ["verify", "grow all", "finish", "key", "sign", "trace"];

// From whole lives to the calls in them.
pub fn parts<T: Copy + Sub<Output = T>>(lives: [T; 6]) -> [T; 6] {
    let [verify, grow, finish, keys, sign, trace] = lives;
    [
        verify,
        grow,
        finish,
        keys - finish,
        sign - finish,
        trace - sign,
    ]
}

// The hashes and codes that are measured.
pub const COMBINATIONS: [(u8, u8); 6] = [(1, 1), (1, 2), (1, 3), (2, 1), (2, 2), (2, 3)];

fn key_turns(height: u8) -> u32 {
    if height == 4 { 100_000 } else { 2_000_000 }
}

// Room for a record, off the stack.
fn buffer() -> Vec<u8> {
    black_box(vec![0; 4232])
}

// Lives a life by the calls of one module.
macro_rules! live {
    ($by:ident, $life:expr, $case:expr) => {{
        let case: &Case = $case;
        let (hash, code, source, stamp) = (case.hash, case.code, &case.source, &case.stamp);
        match $life {
            Life::Verify => $by::verify(hash, code, &case.key, stamp, &case.record),
            Life::Grow => {
                let mut node = [0; 16];
                let reply = $by::grow(hash, code, source, 1 << source.height, 0, &mut node);
                black_box(node);
                reply
            }
            Life::Finish => $by::key(hash, code, source, 0, &mut buffer()),
            Life::Keys => {
                let turns = key_turns(source.height);
                $by::key(hash, code, source, turns, &mut buffer())
            }
            Life::Sign => $by::sign(hash, code, source, case.leaf, stamp, &mut buffer()),
            Life::Trace => {
                let mut report = [0; 64];
                let (leaf, record) = (case.leaf, &case.record);
                let reply = $by::trace(hash, code, source, leaf, stamp, stamp, record, &mut report);
                black_box(report);
                reply
            }
        }
    }};
}

#[inline(never)]
pub fn live_ours(life: Life, case: &Case) -> ours::Reply {
    live!(ours, life, case)
}

#[inline(never)]
fn live_plain(life: Life, case: &Case) -> ours::Reply {
    live!(lives, life, case)
}

// Lives a life, by the proved library or in plain Rust.
pub type Side = fn(Life, &Case) -> ours::Reply;

pub const SIDES: [Side; 2] = [live_ours, live_plain];

// Microseconds.
fn time(side: Side, life: Life, case: &Case) -> f64 {
    let start = Instant::now();
    black_box(black_box(side)(life, black_box(case)));
    start.elapsed().as_nanos() as f64 / 1000.0
}

// The least times of the lives, of each side by turns.
fn least(case: &Case, rounds: usize) -> [[f64; 6]; 2] {
    let mut least = [[f64::MAX; 6]; 2];
    for _ in 0..rounds {
        for (which, life) in LIVES.into_iter().enumerate() {
            for _ in 0..if let Life::Verify = life { 20 } else { 1 } {
                for (side, least) in SIDES.into_iter().zip(&mut least) {
                    least[which] = least[which].min(time(side, life, case));
                }
            }
        }
    }
    least
}

pub fn run(rounds: usize) {
    let mut worst = [0f64; 6];
    println!("time in microseconds: ours, plain Rust, ratio");
    println!(
        "  (verify: open and verify; grow all: plan, begin, 2^height calls of grow, and held; finish: plan, begin, finish with no leaf in, and key;"
    );
    println!(
        "  by differences of whole lives, key: another key; sign: skip and sign, less a key; trace: retire and trace; plain Rust has no plan and no retire)"
    );
    print!("  hash code height");
    for name in NAMES {
        print!(" | {name:^24}");
    }
    println!();
    for height in [4, 8] {
        let rounds = (rounds / if height == 4 { 100 } else { 350 }).max(2);
        for (hash, code) in COMBINATIONS {
            let case = Case::new(hash, code, height);
            let [ours, plain] = least(&case, rounds).map(|lives| {
                let [verify, grow, finish, keys, sign, trace] = parts(lives);
                let key = keys / f64::from(key_turns(height));
                [verify, grow, finish, key, sign, trace]
            });
            print!("  {hash:4} {code:4} {height:6}");
            for ((ours, plain), worst) in ours.into_iter().zip(plain).zip(&mut worst) {
                let ratio = ours / plain;
                *worst = worst.max(ratio);
                let places = if plain < 1.0 {
                    3
                } else if plain < 1000.0 {
                    1
                } else {
                    0
                };
                print!(" | {ours:8.places$} {plain:8.places$}  {ratio:4.2} ");
            }
            println!();
        }
    }
    print!("  greatest ratio  ");
    for worst in worst {
        print!(" | {worst:23.2} ");
    }
    println!();
}
