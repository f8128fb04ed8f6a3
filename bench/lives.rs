// The calls of crates/bench_calls again, over the plain scheme.
use crate::ours::{NOTHING, Reply, Source, UNKNOWN_SCHEME};
use crate::plain::String16;
use crate::scheme::*;

// A refusal by its number, or a hash or code that is not known.
pub enum Failure {
    Refused(u8),
    UnknownScheme,
}

impl From<u8> for Failure {
    fn from(refusal: u8) -> Failure {
        Failure::Refused(refusal)
    }
}

type Numbers = Result<(usize, u16, u16), Failure>;

fn reply(answer: Numbers) -> Reply {
    match answer {
        Ok((first, second, third)) => Reply {
            first,
            second,
            third,
            ..NOTHING
        },
        Err(Failure::Refused(refusal)) => Reply { refusal, ..NOTHING },
        Err(Failure::UnknownScheme) => UNKNOWN_SCHEME,
    }
}

// Calls a function with the hash and the code of these numbers; `none` where there are none.
macro_rules! by_numbers {
    ($hash:expr, $code:expr, $none:expr, $f:ident($($argument:expr),*)) => {
        match ($hash, $code) {
            (1, 1) => $f::<Sha256, LamportDiffie>($($argument),*),
            (1, 2) => $f::<Sha256, Winternitz2>($($argument),*),
            (1, 3) => $f::<Sha256, Winternitz4>($($argument),*),
            (2, 1) => $f::<Aes128, LamportDiffie>($($argument),*),
            (2, 2) => $f::<Aes128, Winternitz2>($($argument),*),
            (2, 3) => $f::<Aes128, Winternitz4>($($argument),*),
            (3, 1) => $f::<Practice, LamportDiffie>($($argument),*),
            (3, 2) => $f::<Practice, Winternitz2>($($argument),*),
            (3, 3) => $f::<Practice, Winternitz4>($($argument),*),
            _ => $none,
        }
    };
}

pub(crate) use by_numbers;

const CLEAR: Row = [[0; 16]; 256];

fn origin_of(source: &Source) -> Origin {
    Origin {
        seed: source.seed,
        hash_key: source.hash_key,
        masks: source.masks,
        height: source.height.into(),
    }
}

pub fn verify_with<H: Hash, C: Code>(key: &[u8], stamp: &String16, record: &[u8]) -> Numbers {
    let key = open::<H, C>(key)?;
    Ok((
        crate::scheme::verify::<H, C>(&key, stamp, record)?.into(),
        0,
        0,
    ))
}

pub fn grow_with<H: Hash, C: Code>(
    source: &Source,
    leaves: u16,
    level: u8,
    node: &mut String16,
) -> Numbers {
    let mut work = CLEAR;
    let mut maker = begin::<H, C>(origin_of(source))?;
    for _ in 0..leaves {
        let _ = maker.grow(&mut work);
    }
    let Some((position, string)) = maker.held(level.into()) else {
        return Ok((0, 0, 0));
    };
    *node = string;
    Ok((1, position, 0))
}

pub fn key_with<H: Hash, C: Code>(source: &Source, turns: u32, out: &mut [u8]) -> Numbers {
    let mut work = CLEAR;
    let signer = begin::<H, C>(origin_of(source))?.finish(&mut work);
    for _ in 0..turns {
        let _ = signer.key(out);
    }
    Ok((signer.key(out)?, 0, 0))
}

pub fn sign_with<H: Hash, C: Code>(
    source: &Source,
    leaf: u16,
    stamp: &String16,
    out: &mut [u8],
) -> Numbers {
    let mut work = CLEAR;
    let mut signer = begin::<H, C>(origin_of(source))?.finish(&mut work);
    let _ = signer.skip(leaf);
    let (size, leaf) = signer.sign(stamp, out, &mut work)?;
    Ok((size, leaf, 0))
}

#[rustfmt::skip]
pub fn trace_with<H: Hash, C: Code>(source: &Source, leaf: u16, spent: &String16, stamp: &String16, record: &[u8], report: &mut [u8; 64]) -> Numbers {
    let mut work = CLEAR;
    let mut signer = begin::<H, C>(origin_of(source))?.finish(&mut work);
    let _ = signer.skip(leaf);
    let mut out = [0; 4232];
    let _ = signer.sign(spent, &mut out, &mut work);
    let (verdict, first, second) = signer.trace(stamp, record, report, &mut work)?;
    Ok((verdict.into(), first, second))
}

#[inline(never)]
pub fn verify(hash: u8, code: u8, key: &[u8], stamp: &String16, record: &[u8]) -> Reply {
    reply(by_numbers!(
        hash,
        code,
        Err(Failure::UnknownScheme),
        verify_with(key, stamp, record)
    ))
}

#[rustfmt::skip]
#[inline(never)]
pub fn grow(hash: u8, code: u8, source: &Source, leaves: u16, level: u8, node: &mut String16) -> Reply {
    reply(by_numbers!(hash, code, Err(Failure::UnknownScheme), grow_with(source, leaves, level, node)))
}

#[inline(never)]
pub fn key(hash: u8, code: u8, source: &Source, turns: u32, out: &mut [u8]) -> Reply {
    reply(by_numbers!(
        hash,
        code,
        Err(Failure::UnknownScheme),
        key_with(source, turns, out)
    ))
}

#[rustfmt::skip]
#[inline(never)]
pub fn sign(hash: u8, code: u8, source: &Source, leaf: u16, stamp: &String16, out: &mut [u8]) -> Reply {
    reply(by_numbers!(hash, code, Err(Failure::UnknownScheme), sign_with(source, leaf, stamp, out)))
}

#[rustfmt::skip]
#[inline(never)]
pub fn trace(hash: u8, code: u8, source: &Source, leaf: u16, spent: &String16, stamp: &String16, record: &[u8], report: &mut [u8; 64]) -> Reply {
    reply(by_numbers!(hash, code, Err(Failure::UnknownScheme), trace_with(source, leaf, spent, stamp, record, report)))
}
