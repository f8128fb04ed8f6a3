// Chains of steps and of pairs: compares the proved hashes with plain Rust, and times both.
use crate::ours::{aes128_pairs, aes128_steps, sha256_pairs, sha256_steps};
use crate::plain::{self, String16};
use crate::random::Random;
use std::hint::black_box;
use std::process::exit;
use std::time::Instant;

struct Inputs {
    key: String16,
    left: String16,
    right: String16,
}

// `turns` steps or pairs from the left string on, and the byte at a place of the last string.
type Run = fn(&Inputs, u8, usize) -> u8;

struct Case {
    what: &'static str,
    other: &'static str,
    ours: Run,
    theirs: Run,
}

macro_rules! our_steps {
    ($f:ident) => {
        |i, turns, place| unsafe { $f(i.key.as_ptr(), 16, i.left.as_ptr(), 16, turns, place) }
    };
}

macro_rules! our_pairs {
    ($f:ident) => {
        |i, turns, place| unsafe {
            let (left, right) = (i.left.as_ptr(), i.right.as_ptr());
            $f(i.key.as_ptr(), 16, left, 16, right, 16, turns, place)
        }
    };
}

macro_rules! plain_steps {
    ($f:ident) => {
        |i, turns, place| {
            let mut last = i.left;
            for _ in 0..turns {
                last = plain::$f(&i.key, &last);
            }
            last[place]
        }
    };
}

macro_rules! plain_pairs {
    ($f:ident) => {
        |i, turns, place| {
            let mut last = i.left;
            for _ in 0..turns {
                last = plain::$f(&i.key, &last, &i.right);
            }
            last[place]
        }
    };
}

// Steps in place, by bench/bearssl.c or bench/openssl.c.
#[cfg(any(bearssl, openssl))]
macro_rules! library_steps {
    ($f:ident) => {
        |i, turns, place| {
            unsafe extern "C" {
                fn $f(key: *const u8, string: *mut u8, turns: u32);
            }
            let mut string = i.left;
            unsafe { $f(i.key.as_ptr(), string.as_mut_ptr(), turns.into()) };
            string[place]
        }
    };
}

// What a step computes, in words that a library uses, and our steps.
#[cfg(any(bearssl, openssl))]
type Hash = (&'static str, Run);

#[cfg(any(bearssl, openssl))]
const SHA256: Hash = ("SHA-256 of 36 bytes", our_steps!(sha256_steps));

#[cfg(any(bearssl, openssl))]
const AES128: Hash = (
    "AES-128, key schedule and one block",
    our_steps!(aes128_steps),
);

// Steps of a hash, by a library too.
#[cfg(any(bearssl, openssl))]
const fn library((what, ours): Hash, other: &'static str, theirs: Run) -> Case {
    Case {
        what,
        other,
        ours,
        theirs,
    }
}

const CASES: &[Case] = &[
    Case {
        what: "step of hash 1",
        other: "plain Rust",
        ours: our_steps!(sha256_steps),
        theirs: plain_steps!(sha256_step),
    },
    Case {
        what: "pair of hash 1",
        other: "plain Rust",
        ours: our_pairs!(sha256_pairs),
        theirs: plain_pairs!(sha256_pair),
    },
    Case {
        what: "step of hash 2",
        other: "plain Rust",
        ours: our_steps!(aes128_steps),
        theirs: plain_steps!(aes128_step),
    },
    Case {
        what: "pair of hash 2",
        other: "plain Rust",
        ours: our_pairs!(aes128_pairs),
        theirs: plain_pairs!(aes128_pair),
    },
    #[cfg(bearssl)]
    library(
        SHA256,
        "BearSSL's br_sha256",
        library_steps!(bearssl_sha256_steps),
    ),
    #[cfg(bearssl)]
    library(
        AES128,
        "BearSSL's br_aes_big",
        library_steps!(bearssl_aes_big_steps),
    ),
    #[cfg(bearssl)]
    library(
        AES128,
        "BearSSL's br_aes_ct",
        library_steps!(bearssl_aes_ct_steps),
    ),
    #[cfg(openssl)]
    library(
        SHA256,
        "OpenSSL's SHA256 (with the processor's SHA or vector instructions)",
        library_steps!(openssl_sha256_steps),
    ),
    #[cfg(openssl)]
    library(
        AES128,
        "OpenSSL's AES_encrypt (in assembly, without AES instructions)",
        library_steps!(openssl_aes_steps),
    ),
    #[cfg(openssl)]
    library(
        AES128,
        "OpenSSL's EVP_aes_128_ecb (with the processor's AES instructions)",
        library_steps!(openssl_evp_steps),
    ),
];

fn inputs(random: &mut Random) -> Inputs {
    Inputs {
        key: random.string(),
        left: random.string(),
        right: random.string(),
    }
}

// Every byte of the results on pseudo-random inputs: mostly of one turn, and of up to 255.
fn compare(random: &mut Random, count: usize) {
    for n in 0..count {
        let inputs = inputs(random);
        let turns = if n % 32 == 0 { random.byte() } else { 1 };
        for case in CASES {
            let ours: String16 = std::array::from_fn(|place| (case.ours)(&inputs, turns, place));
            let theirs: String16 =
                std::array::from_fn(|place| (case.theirs)(&inputs, turns, place));
            if ours != theirs {
                let (what, other) = (case.what, case.other);
                println!("{what}, {turns} turns: ours {ours:02x?}, {other} {theirs:02x?}");
                exit(1);
            }
        }
    }
    println!("steps and pairs, {count} inputs: all results agree");
}

// A slice that has not 16 bytes is answered by 0.
fn compare_refusals() {
    let bytes = [1; 17];
    let p = bytes.as_ptr();
    for n in [0, 1, 15, 17] {
        for place in 0..16 {
            let answers = unsafe {
                [
                    sha256_steps(p, n, p, 16, 1, place),
                    sha256_steps(p, 16, p, n, 1, place),
                    aes128_steps(p, n, p, 16, 1, place),
                    aes128_steps(p, 16, p, n, 1, place),
                    sha256_pairs(p, n, p, 16, p, 16, 1, place),
                    sha256_pairs(p, 16, p, 16, p, n, 1, place),
                    aes128_pairs(p, 16, p, n, p, 16, 1, place),
                    aes128_pairs(p, 16, p, 16, p, n, 1, place),
                ]
            };
            if answers != [0; 8] {
                println!("a slice of {n} bytes is not refused");
                exit(1);
            }
        }
    }
}

const TURNS: u8 = 250;

// Nanoseconds for each turn.
fn time(run: Run, inputs: &Inputs) -> f64 {
    let start = Instant::now();
    black_box(black_box(run)(black_box(inputs), TURNS, 0));
    start.elapsed().as_nanos() as f64 / f64::from(TURNS)
}

pub fn run(rounds: usize) {
    let mut random = Random(0x9e37_79b9_7f4a_7c15);
    compare(&mut random, 20_000);
    compare_refusals();
    // Each round runs every case once, so that what else the machine does meets them all; the least time counts.
    let inputs = inputs(&mut random);
    let mut least = vec![(f64::MAX, f64::MAX); CASES.len()];
    for _ in 0..rounds {
        for (case, (ours, theirs)) in CASES.iter().zip(&mut least) {
            *ours = ours.min(time(case.ours, &inputs));
            *theirs = theirs.min(time(case.theirs, &inputs));
        }
    }
    #[cfg(all(openssl, target_arch = "x86_64"))]
    println!(
        "this processor has SHA instructions: {}; AES instructions: {}",
        is_x86_feature_detected!("sha"),
        is_x86_feature_detected!("aes")
    );
    for (case, (ours, theirs)) in CASES.iter().zip(least) {
        let (what, other, ratio) = (case.what, case.other, ours / theirs);
        println!("{what}: ours {ours:.0} ns, {other} {theirs:.0} ns, ratio {ratio:.2}");
    }
}
