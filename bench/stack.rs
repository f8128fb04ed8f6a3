// How many bytes of stack the calls use, and how many the types take.
use crate::ours::type_size;
use crate::speed::{COMBINATIONS, Case, Life, SIDES, Side};
use std::hint::black_box;
use std::thread;

const STACK: usize = 256 * 1024;

// Bytes right below the frame of `paint` or `touched`, which they need for themselves.
const NEAR: usize = 1024;

const PAINT: u8 = 0xa5;

// Where the stack stands.
#[inline(never)]
fn here() -> usize {
    let local = 0u8;
    black_box(&raw const local) as usize
}

// Paints the stack below.
#[inline(never)]
fn paint() {
    let top = here() - NEAR;
    for at in top - STACK..top {
        unsafe { (at as *mut u8).write_volatile(PAINT) };
    }
}

// The lowest painted byte that was written to since, at or above `bottom`.
#[inline(never)]
fn touched(bottom: usize) -> usize {
    let mut at = bottom;
    while unsafe { (at as *const u8).read_volatile() } == PAINT {
        at += 1;
    }
    at
}

// How deep a life goes.
fn depth(side: Side, life: Life, case: &Case) -> usize {
    let top = here();
    paint();
    black_box(black_box(side)(life, case));
    top - touched(top - STACK / 2)
}

// The types by their numbers, from 1 on.
const TYPES: [&str; 7] = [
    "a maker",
    "a signer",
    "a retired signer",
    "an opened key",
    "a plan",
    "an origin",
    "a release that was read",
];

// The lives that are measured, and the calls in each.
const CALLS: [(Life, &str); 5] = [
    (Life::Verify, "open and verify"),
    (Life::Grow, "plan, begin, grow and held"),
    (Life::Finish, "plan, begin, finish and key"),
    (Life::Sign, "plan, begin, finish, skip and sign"),
    (
        Life::Trace,
        "plan, begin, finish, skip, sign, retire and trace",
    ),
];

pub fn run() {
    print!("bytes of state:");
    for (which, name) in (1..).zip(TYPES) {
        print!(" {name} {};", type_size(which));
    }
    println!(" the work buffer 4096");
    let depths = COMBINATIONS.map(|(hash, code)| {
        let case = Case::new(hash, code, 8);
        let measure = move || CALLS.map(|(life, _)| SIDES.map(|side| depth(side, life, &case)));
        let thread = thread::Builder::new().stack_size(4 * STACK);
        thread.spawn(measure).unwrap().join().unwrap()
    });
    println!("most bytes of stack in these calls at height 8: ours, plain Rust");
    println!(
        "  (what they work on lies there too: maker, signer, work buffer, with trace also the signed record; plain Rust has no plan and no retire)"
    );
    print!("  {:49}", "");
    for (hash, code) in COMBINATIONS {
        print!(" | hash {hash}, code {code}");
    }
    println!();
    for (which, (_, calls)) in CALLS.into_iter().enumerate() {
        print!("  {calls:49}");
        for [ours, plain] in depths.map(|depths| depths[which]) {
            print!(" | {ours:6} {plain:7}");
        }
        println!();
    }
}
