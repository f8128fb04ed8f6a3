// Compares the calls on whole keys with plain Rust: valid inputs and damaged ones.
use crate::lives::{self, by_numbers};
use crate::ours::{self, Reply, Source, UNKNOWN_SCHEME};
use crate::plain::{String16, xor};
use crate::random::Random;
use crate::scheme::*;
use std::process::exit;

// What was compared, and how often each answer came.
#[derive(Default)]
struct Tally {
    count: usize,
    unknown: usize,
    refused: [usize; 13],
    verdicts: [usize; 4],
}

impl Tally {
    fn same<T: PartialEq + std::fmt::Debug>(
        &mut self,
        what: &str,
        ours: (Reply, T),
        plain: (Reply, T),
    ) -> Reply {
        if ours != plain {
            println!("{what}: ours {ours:02x?}, plain Rust {plain:02x?}");
            exit(1);
        }
        self.count += 1;
        if ours.0 == UNKNOWN_SCHEME {
            self.unknown += 1;
        } else {
            self.refused[usize::from(ours.0.refusal)] += 1;
        }
        ours.0
    }

    fn verify(&mut self, hash: u8, code: u8, key: &[u8], stamp: &String16, record: &[u8]) {
        let ours = ours::verify(hash, code, key, stamp, record);
        let plain = lives::verify(hash, code, key, stamp, record);
        self.same("verify", (ours, ()), (plain, ()));
    }

    fn grow(&mut self, hash: u8, code: u8, source: &Source, leaves: u16, level: u8) {
        let mut nodes = [[7; 16]; 2];
        let ours = ours::grow(hash, code, source, leaves, level, &mut nodes[0]);
        let plain = lives::grow(hash, code, source, leaves, level, &mut nodes[1]);
        self.same("grow", (ours, nodes[0]), (plain, nodes[1]));
    }

    // A record that both write into as much room.
    fn record(
        &mut self,
        what: &str,
        room: usize,
        ours: impl Fn(&mut [u8]) -> Reply,
        plain: impl Fn(&mut [u8]) -> Reply,
    ) -> Vec<u8> {
        let (mut our_bytes, mut plain_bytes) = (vec![7; room], vec![7; room]);
        let (ours, plain) = (ours(&mut our_bytes), plain(&mut plain_bytes));
        let reply = self.same(what, (ours, &our_bytes), (plain, &plain_bytes));
        plain_bytes.truncate(reply.first);
        plain_bytes
    }

    fn key(&mut self, hash: u8, code: u8, source: &Source, room: usize) -> Vec<u8> {
        let ours = |out: &mut [u8]| ours::key(hash, code, source, 0, out);
        let plain = |out: &mut [u8]| lives::key(hash, code, source, 0, out);
        self.record("key", room, ours, plain)
    }

    #[rustfmt::skip]
    fn sign(&mut self, hash: u8, code: u8, source: &Source, leaf: u16, stamp: &String16, room: usize) -> Vec<u8> {
        let ours = |out: &mut [u8]| ours::sign(hash, code, source, leaf, stamp, out);
        let plain = |out: &mut [u8]| lives::sign(hash, code, source, leaf, stamp, out);
        self.record("sign", room, ours, plain)
    }

    #[rustfmt::skip]
    fn trace(&mut self, hash: u8, code: u8, source: &Source, leaf: u16, spent: &String16, stamp: &String16, record: &[u8]) {
        let mut reports = [[7; 64]; 2];
        let ours = ours::trace(hash, code, source, leaf, spent, stamp, record, &mut reports[0]);
        let plain = lives::trace(hash, code, source, leaf, spent, stamp, record, &mut reports[1]);
        let reply = self.same("trace", (ours, reports[0]), (plain, reports[1]));
        if reply.refusal == 0 {
            self.verdicts[reply.first] += 1;
        }
    }

    // Numbers of which no hash or no code has one: every call says just that, and writes nothing.
    #[rustfmt::skip]
    fn unknown(&mut self, hash: u8, code: u8, source: &Source, key: &[u8], stamp: &String16, record: &[u8]) {
        let before = self.unknown;
        self.verify(hash, code, key, stamp, record);
        self.grow(hash, code, source, 1, 0);
        self.key(hash, code, source, 1000);
        self.sign(hash, code, source, 0, stamp, 4232);
        self.trace(hash, code, source, 0, stamp, stamp, record);
        if self.unknown != before + 5 {
            println!("hash {hash}, code {code}: not answered as unknown");
            exit(1);
        }
    }
}

// A record damaged in one way or another; some of them keep their length and length field.
fn damaged(random: &mut Random, record: &[u8]) -> Vec<u8> {
    let mut bytes = record.to_vec();
    let at = random.below(bytes.len());
    match random.below(8) {
        0 => bytes.truncate(at),
        1 => bytes.extend(random.string()),
        2 => {
            // cut or lengthened, the length field mended
            bytes.resize(bytes.len() + 16 * random.below(3) - 16, 0);
            let length = (bytes.len() as u32).to_le_bytes();
            bytes[..4].copy_from_slice(&length);
        }
        3 => bytes[random.below(10)] = random.byte(),
        4 => bytes[6] ^= 1,
        5 => bytes[7] ^= 1,
        _ => bytes[at] ^= 1 << random.below(8),
    }
    bytes
}

// A record that the practice hash takes for the same: a string's lowest bit turned, or what one child loses given to the other. Only
// strings below the top digit, or at it, allow it, so many of them are refused.
fn twin(random: &mut Random, source: &Source, levels: usize, record: &[u8]) -> Vec<u8> {
    let mut bytes = record.to_vec();
    let strings = (bytes.len() - 8) / 16 - usize::from(source.height);
    let k = random.below(strings - 1) & !1;
    let string =
        |bytes: &[u8], k: usize| -> String16 { bytes[8 + 16 * k..][..16].try_into().unwrap() };
    let byte = random.below(16);
    if random.below(2) == 0 {
        bytes[8 + 16 * k + byte] ^= 1;
        return bytes;
    }
    let level = usize::from(source.height) + levels - 1;
    let mask = |side: usize| -> String16 {
        source.masks[32 * level + 16 * side..][..16]
            .try_into()
            .unwrap()
    };
    let mut left = xor(&string(&bytes, k), &mask(0));
    let mut right = xor(&string(&bytes, k + 1), &mask(1));
    left[byte] = left[byte].wrapping_add(1);
    right[byte] = right[byte].wrapping_sub(1);
    bytes[8 + 16 * k..][..16].copy_from_slice(&xor(&left, &mask(0)));
    bytes[24 + 16 * k..][..16].copy_from_slice(&xor(&right, &mask(1)));
    bytes
}

// One key: all its calls, with every way to go wrong.
fn compare_key<H: Hash, C: Code>(random: &mut Random, tally: &mut Tally, height: u8) {
    let (hash, code) = (H::NUMBER, C::NUMBER);
    let source = random.source(height);
    let leaves = 1u16 << height;
    let grown = random.below(usize::from(leaves) + 2) as u16;
    for level in 0..=height + 1 {
        tally.grow(hash, code, &source, grown, level);
    }
    let key_size = C::key_length(height.into());
    let key = tally.key(hash, code, &source, key_size);
    tally.key(hash, code, &source, key_size - 1);
    tally.key(hash, code, &source, key_size + 30);
    let size = C::release_length(height.into());
    let leaf = random.below(leaves.into()) as u16;
    let stamp = random.string();
    let record = tally.sign(hash, code, &source, leaf, &stamp, size);
    tally.sign(hash, code, &source, leaf, &stamp, size - 1);
    tally.sign(hash, code, &source, leaves, &stamp, size);
    tally.sign(hash, code, &source, leaves + 1, &stamp, size + 30);
    tally.verify(hash, code, &key, &stamp, &record);
    tally.trace(hash, code, &source, leaf, &stamp, &stamp, &record);
    // the ledger without the leaf, and with another stamp
    let other = random.string();
    tally.trace(hash, code, &source, leaves, &stamp, &stamp, &record);
    tally.trace(hash, code, &source, leaf, &other, &stamp, &record);
    tally.verify(hash, code, &key, &other, &record);
    tally.verify(hash % 3 + 1, code, &key, &stamp, &record);
    tally.verify(hash, code % 3 + 1, &key, &stamp, &record);
    for (hash, code) in [(0, code), (4, code), (hash, 0), (hash, 4)] {
        tally.unknown(hash, code, &source, &key, &stamp, &record);
    }
    for n in 0..40 {
        let bytes = if hash == 3 && n % 2 == 0 {
            twin(random, &source, C::LEVELS, &record)
        } else {
            damaged(random, &record)
        };
        tally.verify(hash, code, &key, &stamp, &bytes);
        if n < 2 || hash == 3 {
            tally.trace(hash, code, &source, leaf, &stamp, &stamp, &bytes);
        }
        let bytes = damaged(random, &key);
        tally.verify(hash, code, &bytes, &stamp, &record);
    }
}

pub fn compare() {
    let mut random = Random(0x2545_f491_4f6c_dd1d);
    let mut tally = Tally::default();
    for hash in 1..=3 {
        for code in 1..=3 {
            for height in [1, 1, 2, 2, 3, 4] {
                for _ in 0..if hash == 3 { 30 } else { 2 } {
                    let (random, tally) = (&mut random, &mut tally);
                    by_numbers!(
                        hash,
                        code,
                        unreachable!(),
                        compare_key(random, tally, height)
                    );
                }
            }
            for height in [0, 9, 255] {
                let source = random.source(height);
                tally.key(hash, code, &source, 1000);
                tally.grow(hash, code, &source, 1, 0);
            }
        }
    }
    for code in 1..=3 {
        let source = random.source(8);
        let stamp = random.string();
        let key = tally.key(3, code, &source, 1000);
        let record = tally.sign(3, code, &source, 255, &stamp, 4232);
        tally.verify(3, code, &key, &stamp, &record);
        tally.trace(3, code, &source, 255, &stamp, &stamp, &record);
    }
    println!(
        "open and verify, grow and held, key, sign, retire and trace, {} calls: all results agree",
        tally.count
    );
    let of = |what: &[usize]| -> String {
        let words = what.iter().enumerate().filter(|(_, n)| **n > 0);
        words
            .map(|(k, n)| format!(" {k}: {n}"))
            .collect::<Vec<_>>()
            .join(",")
    };
    println!("  refusals by number (0: none):{}", of(&tally.refused));
    println!("  hash or code not known: {}", tally.unknown);
    println!("  verdicts of trace:{}", of(&tally.verdicts));
}
