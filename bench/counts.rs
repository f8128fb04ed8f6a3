// How often the calls call the hash: what the scheme says, what the plain implementation does, and what callgrind counted of the proved
// library, which has no counters of its own.
use crate::lives::{self, by_numbers};
use crate::plain::String16;
use crate::scheme::*;
use crate::speed::{COMBINATIONS, Case, LIVES, NAMES, live_ours, parts};
use std::cell::Cell;
use std::hint::black_box;
use std::marker::PhantomData;
use std::ops::{Add, Sub};
use std::process::exit;

#[derive(Clone, Copy, PartialEq, Debug, Default)]
struct Count {
    steps: usize,
    pairs: usize,
}

impl Add for Count {
    type Output = Count;
    fn add(self, other: Count) -> Count {
        Count {
            steps: self.steps + other.steps,
            pairs: self.pairs + other.pairs,
        }
    }
}

impl Sub for Count {
    type Output = Count;
    fn sub(self, other: Count) -> Count {
        Count {
            steps: self.steps - other.steps,
            pairs: self.pairs - other.pairs,
        }
    }
}

impl Count {
    fn times(self, n: usize) -> Count {
        Count {
            steps: n * self.steps,
            pairs: n * self.pairs,
        }
    }

    // Compressions of hash 1: one for each step and each pair. Encryptions of hash 2: one for each step, two for each pair.
    fn inner(self, hash: u8) -> usize {
        self.steps + usize::from(hash) * self.pairs
    }
}

fn steps(steps: usize) -> Count {
    Count { steps, pairs: 0 }
}

fn pairs(pairs: usize) -> Count {
    Count { steps: 0, pairs }
}

// The scheme's own counts for verify, grow of all leaves, finish, key, sign and trace.
fn scheme_counts<C: Code>(stamp: &String16, height: usize) -> [Count; 6] {
    let (count, top, leaves) = (C::COUNT, usize::from(C::TOP), 1 << height);
    let digits: usize = C::digits(stamp)[..count]
        .iter()
        .map(|d| usize::from(*d))
        .sum();
    let left = count * top - digits;
    // the nodes within a leaf
    let inside = pairs((1 << C::LEVELS) - 1);
    // a leaf: for each chain its secret, and the steps to its top
    let leaf = steps(count * top) + pairs(count) + inside;
    // leaf number g joins as often as g ends in ones: once for each node above the leaves
    let all = leaf.times(leaves) + pairs(leaves - 1);
    // the siblings of a leaf's way up: subtrees of 1, 2, 4 .. leaves, that is all leaves but one
    let siblings = leaf.times(leaves - 1) + pairs(leaves - 1 - height);
    let verify = steps(left) + inside + pairs(height);
    let sign = pairs(count) + steps(digits) + siblings;
    // the signer's chains to the digit; both sides from there on, within the leaf and on the way up
    let both = steps(left) + inside + pairs(height);
    let trace = pairs(count) + steps(digits) + both.times(2) + siblings;
    [verify, all, all, steps(0), sign, trace]
}

thread_local! {
    static COUNT: Cell<Count> = const { Cell::new(Count { steps: 0, pairs: 0 }) };
}

// A hash that counts its calls.
struct Counted<H>(PhantomData<H>);

impl<H: Hash> Hash for Counted<H> {
    const NUMBER: u8 = H::NUMBER;
    fn step(key: &String16, string: &String16) -> String16 {
        COUNT.set(COUNT.get() + steps(1));
        H::step(key, string)
    }
    fn pair(key: &String16, left: &String16, right: &String16) -> String16 {
        COUNT.set(COUNT.get() + pairs(1));
        H::pair(key, left, right)
    }
}

// The counts of the plain implementation.
fn plain_counts<H: Hash, C: Code>(case: &Case) -> [Count; 6] {
    let Case {
        source,
        leaf,
        stamp,
        key,
        record,
        ..
    } = case;
    let (mut out, mut node, mut report) = ([0; 4232], [0; 16], [0; 64]);
    let leaves = 1 << source.height;
    type Of<H> = Counted<H>;
    let counts = [
        counted(|| lives::verify_with::<Of<H>, C>(key, stamp, record).is_ok()),
        counted(|| lives::grow_with::<Of<H>, C>(source, leaves, 0, &mut node).is_ok()),
        counted(|| lives::key_with::<Of<H>, C>(source, 0, &mut out).is_ok()),
        counted(|| lives::key_with::<Of<H>, C>(source, 1, &mut out).is_ok()),
        counted(|| lives::sign_with::<Of<H>, C>(source, *leaf, stamp, &mut out).is_ok()),
        counted(|| {
            lives::trace_with::<Of<H>, C>(source, *leaf, stamp, stamp, record, &mut report).is_ok()
        }),
    ];
    parts(counts)
}

fn counted(call: impl FnOnce() -> bool) -> Count {
    COUNT.set(Count::default());
    assert!(call());
    COUNT.get()
}

// Callgrind writes what it has counted each time this is entered.
#[unsafe(no_mangle)]
#[inline(never)]
pub extern "C" fn bench_mark() {
    black_box(());
}

// One life of each kind and combination.
pub fn make_calls(height: u8) {
    for (hash, code) in COMBINATIONS {
        let case = Case::new(hash, code, height);
        for life in LIVES {
            bench_mark();
            black_box(live_ours(life, &case));
            bench_mark();
        }
    }
}

// How often a function was called, by one of callgrind's files. A place whose calls take fewer than `work` instructions each does not
// count.
fn calls_in(path: &str, function: &str, work: usize) -> usize {
    let text = std::fs::read_to_string(path).expect("a file of callgrind's");
    let (mut number, mut callee, mut calls) = (None, "", 0);
    let mut lines = text.lines();
    while let Some(line) = lines.next() {
        if let Some((kind, name)) = line.split_once("fn=") {
            // "(number) name" the first time, "(number)" after it
            let (short, long) = name.split_once(' ').unwrap_or((name, ""));
            if long == function {
                number = Some(short);
            }
            if kind == "c" {
                callee = short;
            }
        } else if let Some(rest) = line.strip_prefix("calls=")
            && number == Some(callee)
        {
            // how many calls; on the next line, last, the instructions that they took in all
            let count: usize = number_in(rest.split(' ').next());
            let taken: usize = number_in(lines.next().and_then(|line| line.split(' ').next_back()));
            if taken >= work * count {
                calls += count;
            }
        }
    }
    calls
}

fn number_in(word: Option<&str>) -> usize {
    word.and_then(|word| word.parse().ok()).expect("a number")
}

fn fail(what: String) -> ! {
    println!("{what}");
    exit(1)
}

// Compares the three, and prints them.
pub fn compare(height: u8, path: Option<&String>) {
    println!(
        "hash calls, steps + pairs: as the scheme says, and as the plain implementation makes them"
    );
    println!("  (grow all: 2^height calls of grow; finish: of a key with no leaf in)");
    for height in [4, 8] {
        for (hash, code) in COMBINATIONS {
            let case = Case::new(hash, code, height);
            let scheme = scheme_of(code, &case.stamp, height.into());
            let plain = by_numbers!(hash, code, unreachable!(), plain_counts(&case));
            if plain != scheme {
                fail(format!(
                    "hash {hash}, code {code}, height {height}: the scheme says {scheme:?}, plain Rust makes {plain:?}"
                ));
            }
            // the same for every hash
            if hash == 1 {
                print!("  code {code}, height {height}:");
                for (name, Count { steps, pairs }) in NAMES.into_iter().zip(scheme) {
                    print!(" {name} {steps} + {pairs};");
                }
                println!();
            }
        }
    }
    let Some(path) = path else {
        println!("no valgrind: the proved library's calls are not counted");
        return;
    };
    println!(
        "hash calls of the proved library, counted by callgrind at height {height}: compressions of hash 1, encryptions of hash 2"
    );
    let mut file = 0;
    for (hash, code) in COMBINATIONS {
        let counts = LIVES.map(|_| {
            // the first file of a life has what came before it, the second the life
            file += 2;
            let path = format!("{path}.{file}");
            match hash {
                // where it hashes no block, as the whole blocks of a message of 36 or 52 bytes, it takes a few instructions
                1 => calls_in(&path, "sha256::digest::hash_blocks", 500),
                _ => calls_in(&path, "aes128::tree_hash::Aes128HashChainHash::step", 0),
            }
        });
        let ours = parts(counts);
        let case = Case::new(hash, code, height);
        let scheme = scheme_of(code, &case.stamp, height.into()).map(|c| c.inner(hash));
        print!("  hash {hash}, code {code}:");
        for (name, ours) in NAMES.into_iter().zip(ours) {
            print!(" {name} {ours};");
        }
        println!();
        if ours != scheme {
            fail(format!("the scheme says {scheme:?}"));
        }
    }
    println!("  all as the scheme says");
}

fn scheme_of(code: u8, stamp: &String16, height: usize) -> [Count; 6] {
    match code {
        1 => scheme_counts::<LamportDiffie>(stamp, height),
        2 => scheme_counts::<Winternitz2>(stamp, height),
        _ => scheme_counts::<Winternitz4>(stamp, height),
    }
}
