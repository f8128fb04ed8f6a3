// The calls of crates/bench_calls. A slice is a pointer, then a length.
use crate::plain::String16;

#[repr(C)]
#[derive(Clone, Copy)]
pub struct Source {
    pub seed: String16,
    pub hash_key: String16,
    pub masks: [u8; 512],
    pub height: u8,
}

#[repr(C)]
#[derive(Clone, Copy, PartialEq, Debug)]
pub struct Reply {
    pub first: usize,
    pub second: u16,
    pub third: u16,
    pub refusal: u8,
    pub unknown_scheme: bool,
}

pub const NOTHING: Reply = Reply {
    first: 0,
    second: 0,
    third: 0,
    refusal: 0,
    unknown_scheme: false,
};

// What an unknown hash or code number gives.
pub const UNKNOWN_SCHEME: Reply = Reply {
    unknown_scheme: true,
    ..NOTHING
};

#[rustfmt::skip]
unsafe extern "C" {
    pub fn sha256_steps(key: *const u8, n: usize, string: *const u8, m: usize, turns: u8, place: usize) -> u8;
    pub fn aes128_steps(key: *const u8, n: usize, string: *const u8, m: usize, turns: u8, place: usize) -> u8;
    pub fn sha256_pairs(key: *const u8, n: usize, left: *const u8, m: usize, right: *const u8, o: usize, turns: u8, place: usize) -> u8;
    pub fn aes128_pairs(key: *const u8, n: usize, left: *const u8, m: usize, right: *const u8, o: usize, turns: u8, place: usize) -> u8;
    fn verify_release(hash: u8, code: u8, key: *const u8, n: usize, stamp: &String16, record: *const u8, m: usize) -> Reply;
    fn grow_leaves(hash: u8, code: u8, source: &Source, leaves: u16, level: u8, node: &mut String16) -> Reply;
    fn write_key(hash: u8, code: u8, source: &Source, turns: u32, out: *mut u8, n: usize) -> Reply;
    fn sign_release(hash: u8, code: u8, source: &Source, leaf: u16, stamp: &String16, out: *mut u8, n: usize) -> Reply;
    fn trace_release(hash: u8, code: u8, source: &Source, leaf: u16, spent: &String16, stamp: &String16, record: *const u8, n: usize, report: &mut [u8; 64]) -> Reply;
    pub safe fn type_size(which: u8) -> usize;
}

#[rustfmt::skip]
pub fn verify(hash: u8, code: u8, key: &[u8], stamp: &String16, record: &[u8]) -> Reply {
    unsafe { verify_release(hash, code, key.as_ptr(), key.len(), stamp, record.as_ptr(), record.len()) }
}

#[rustfmt::skip]
pub fn grow(hash: u8, code: u8, source: &Source, leaves: u16, level: u8, node: &mut String16) -> Reply {
    unsafe { grow_leaves(hash, code, source, leaves, level, node) }
}

pub fn key(hash: u8, code: u8, source: &Source, turns: u32, out: &mut [u8]) -> Reply {
    unsafe { write_key(hash, code, source, turns, out.as_mut_ptr(), out.len()) }
}

#[rustfmt::skip]
pub fn sign(hash: u8, code: u8, source: &Source, leaf: u16, stamp: &String16, out: &mut [u8]) -> Reply {
    unsafe { sign_release(hash, code, source, leaf, stamp, out.as_mut_ptr(), out.len()) }
}

#[rustfmt::skip]
pub fn trace(hash: u8, code: u8, source: &Source, leaf: u16, spent: &String16, stamp: &String16, record: &[u8], report: &mut [u8; 64]) -> Reply {
    unsafe { trace_release(hash, code, source, leaf, spent, stamp, record.as_ptr(), record.len(), report) }
}
