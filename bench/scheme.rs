// The scheme again, in plain Rust and written apart from the proved code, from docs/SCHEME.md and docs/CALLS.md: codes, tree, records,
// and the calls of signer and verifier. It keeps no more of a key than the proved signer: sign and trace grow the siblings again
// from the seed. A refusal is its number.
use crate::plain::{self, String16, xor};
use std::marker::PhantomData;

pub trait Hash {
    const NUMBER: u8;
    fn step(key: &String16, string: &String16) -> String16;
    fn pair(key: &String16, left: &String16, right: &String16) -> String16;
}

pub struct Sha256;
pub struct Aes128;
pub struct Practice;

impl Hash for Sha256 {
    const NUMBER: u8 = 1;
    fn step(key: &String16, string: &String16) -> String16 {
        plain::sha256_step(key, string)
    }
    fn pair(key: &String16, left: &String16, right: &String16) -> String16 {
        plain::sha256_pair(key, left, right)
    }
}

impl Hash for Aes128 {
    const NUMBER: u8 = 2;
    fn step(key: &String16, string: &String16) -> String16 {
        plain::aes128_step(key, string)
    }
    fn pair(key: &String16, left: &String16, right: &String16) -> String16 {
        plain::aes128_pair(key, left, right)
    }
}

impl Hash for Practice {
    const NUMBER: u8 = 3;
    fn step(key: &String16, string: &String16) -> String16 {
        plain::practice_step(key, string)
    }
    fn pair(key: &String16, left: &String16, right: &String16) -> String16 {
        plain::practice_pair(key, left, right)
    }
}

pub trait Code {
    const NUMBER: u8;
    const COUNT: usize;
    const TOP: u8;
    const LEVELS: usize;
    // The digits of a stamp: the first COUNT of them.
    fn digits(stamp: &String16) -> [u8; 256];
    // The bytes of the records of a key.
    fn key_length(height: usize) -> usize {
        42 + 32 * (height + Self::LEVELS)
    }
    fn release_length(height: usize) -> usize {
        8 + 16 * (Self::COUNT + height)
    }
}

pub struct LamportDiffie;
pub struct Winternitz2;
pub struct Winternitz4;

impl Code for LamportDiffie {
    const NUMBER: u8 = 1;
    const COUNT: usize = 256;
    const TOP: u8 = 1;
    const LEVELS: usize = 8;
    fn digits(stamp: &String16) -> [u8; 256] {
        let mut digits = [0; 256];
        for j in 0..128 {
            let bit = stamp[j / 8] >> (7 - j % 8) & 1;
            digits[2 * j] = bit;
            digits[2 * j + 1] = 1 - bit;
        }
        digits
    }
}

// Digits of `width` bits, then the checksum in `ends` digits.
fn winternitz(stamp: &String16, width: usize, ends: usize) -> [u8; 256] {
    let mut digits = [0; 256];
    let front = 128 / width;
    let mut checksum = 0;
    for j in 0..front {
        let at = width * j;
        let digit = stamp[at / 8] >> (8 - width - at % 8) & ((1 << width) - 1);
        digits[j] = digit;
        checksum += (1 << width) - usize::from(digit);
    }
    for j in (front..front + ends).rev() {
        digits[j] = (checksum % (1 << width)) as u8;
        checksum >>= width;
    }
    digits
}

impl Code for Winternitz2 {
    const NUMBER: u8 = 2;
    const COUNT: usize = 69;
    const TOP: u8 = 3;
    const LEVELS: usize = 7;
    fn digits(stamp: &String16) -> [u8; 256] {
        winternitz(stamp, 2, 5)
    }
}

impl Code for Winternitz4 {
    const NUMBER: u8 = 3;
    const COUNT: usize = 35;
    const TOP: u8 = 15;
    const LEVELS: usize = 6;
    fn digits(stamp: &String16) -> [u8; 256] {
        winternitz(stamp, 4, 3)
    }
}

// The strings of a leaf's chains.
pub type Row = [String16; 256];

fn number(n: usize) -> String16 {
    (n as u128).to_le_bytes()
}

fn string_of(bytes: &[u8], k: usize) -> String16 {
    bytes[16 * k..16 * k + 16].try_into().unwrap()
}

fn raise<H: Hash>(key: &String16, mut string: String16, times: u8) -> String16 {
    for _ in 0..times {
        string = H::step(key, &string);
    }
    string
}

// Both children of a node at a level, masked.
fn masked(masks: &[u8], level: usize, left: &String16, right: &String16) -> [String16; 2] {
    let left_mask = string_of(masks, 2 * level);
    let right_mask = string_of(masks, 2 * level + 1);
    [xor(left, &left_mask), xor(right, &right_mask)]
}

#[rustfmt::skip]
fn parent<H: Hash>(key: &String16, masks: &[u8], level: usize, left: &String16, right: &String16) -> String16 {
    let [left, right] = masked(masks, level, left, right);
    H::pair(key, &left, &right)
}

// The node at `level` over the first 2^levels strings of a row.
fn fold<H: Hash>(
    key: &String16,
    masks: &[u8],
    level: usize,
    levels: usize,
    row: &mut Row,
) -> String16 {
    for depth in (0..levels).rev() {
        for p in 0..1 << depth {
            row[p] = parent::<H>(key, masks, level + depth, &row[2 * p], &row[2 * p + 1]);
        }
    }
    row[0]
}

// A node and its sibling in their order.
fn in_order(position: usize, node: String16, sibling: String16) -> [String16; 2] {
    if position % 2 == 0 {
        [node, sibling]
    } else {
        [sibling, node]
    }
}

#[derive(Clone)]
pub struct Origin {
    pub seed: String16,
    pub hash_key: String16,
    pub masks: [u8; 512],
    pub height: usize,
}

impl Origin {
    fn chain<H: Hash>(&self, leaf: usize, k: usize, height: u8) -> String16 {
        let secret = H::pair(&self.seed, &number(leaf), &number(k));
        raise::<H>(&self.hash_key, secret, height)
    }

    fn join<H: Hash>(&self, level: usize, left: &String16, right: &String16) -> String16 {
        parent::<H>(&self.hash_key, &self.masks, level, left, right)
    }

    fn leaf<H: Hash, C: Code>(&self, leaf: usize, work: &mut Row) -> String16 {
        work.fill([0; 16]);
        for k in 0..C::COUNT {
            work[k] = self.chain::<H>(leaf, k, C::TOP);
        }
        fold::<H>(&self.hash_key, &self.masks, self.height, C::LEVELS, work)
    }

    // A node, grown from the seed.
    fn node<H: Hash, C: Code>(&self, level: usize, position: usize, work: &mut Row) -> String16 {
        if level == self.height {
            return self.leaf::<H, C>(position, work);
        }
        let left = self.node::<H, C>(level + 1, 2 * position, work);
        let right = self.node::<H, C>(level + 1, 2 * position + 1, work);
        self.join::<H>(level, &left, &right)
    }
}

pub struct Maker<H, C> {
    origin: Origin,
    grown: usize,
    held: [Option<String16>; 9],
    with: PhantomData<(H, C)>,
}

pub struct Signer<H, C> {
    origin: Origin,
    root: String16,
    next: usize,
    ledger: [Option<String16>; 256],
    with: PhantomData<(H, C)>,
}

pub fn begin<H: Hash, C: Code>(origin: Origin) -> Result<Maker<H, C>, u8> {
    if !(1..=8).contains(&origin.height) {
        return Err(1);
    }
    Ok(Maker {
        origin,
        grown: 0,
        held: [None; 9],
        with: PhantomData,
    })
}

impl<H: Hash, C: Code> Maker<H, C> {
    fn add(&mut self, work: &mut Row) {
        let mut node = self.origin.leaf::<H, C>(self.grown, work);
        let mut level = self.origin.height;
        while let Some(left) = self.held[level].take() {
            level -= 1;
            node = self.origin.join::<H>(level, &left, &node);
        }
        self.held[level] = Some(node);
        self.grown += 1;
    }

    pub fn grow(&mut self, work: &mut Row) -> Result<u16, u8> {
        if self.grown == 1 << self.origin.height {
            return Err(2);
        }
        self.add(work);
        work.fill([0; 16]);
        Ok(self.grown as u16)
    }

    pub fn held(&self, level: usize) -> Option<(u16, String16)> {
        let node = self.held.get(level).copied().flatten()?;
        Some((
            (self.grown >> (self.origin.height - level)) as u16 - 1,
            node,
        ))
    }

    pub fn finish(mut self, work: &mut Row) -> Signer<H, C> {
        while self.grown < 1 << self.origin.height {
            self.add(work);
        }
        work.fill([0; 16]);
        Signer {
            root: self.held[0].unwrap(),
            origin: self.origin,
            next: 0,
            ledger: [None; 256],
            with: PhantomData,
        }
    }
}

fn put(out: &mut [u8], at: usize, part: &[u8]) {
    out[at..at + part.len()].copy_from_slice(part);
}

// Where a comparison found that the hash gave way.
type Find = ((u16, u16), [String16; 4]);

impl<H: Hash, C: Code> Signer<H, C> {
    pub fn key(&self, out: &mut [u8]) -> Result<usize, u8> {
        let size = C::key_length(self.origin.height);
        let masks = size - 42;
        if out.len() < size {
            return Err(4);
        }
        put(out, 0, &(size as u32).to_le_bytes());
        put(
            out,
            4,
            &[1, 0, H::NUMBER, C::NUMBER, self.origin.height as u8, 0],
        );
        put(out, 10, &self.origin.hash_key);
        put(out, 26, &self.origin.masks[..masks]);
        put(out, 26 + masks, &self.root);
        Ok(size)
    }

    pub fn skip(&mut self, leaf: u16) -> Result<u16, u8> {
        if usize::from(leaf) < self.next || usize::from(leaf) > 1 << self.origin.height {
            return Err(5);
        }
        self.next = leaf.into();
        Ok(leaf)
    }

    pub fn sign(
        &mut self,
        stamp: &String16,
        out: &mut [u8],
        work: &mut Row,
    ) -> Result<(usize, u16), u8> {
        let height = self.origin.height;
        let leaf = self.next;
        if leaf == 1 << height {
            return Err(3);
        }
        let size = C::release_length(height);
        if out.len() < size {
            return Err(4);
        }
        put(out, 0, &(size as u32).to_le_bytes());
        put(out, 4, &[2, 0, leaf as u8, 0]);
        let digits = C::digits(stamp);
        for k in 0..C::COUNT {
            put(out, 8 + 16 * k, &self.origin.chain::<H>(leaf, k, digits[k]));
        }
        for e in 0..height {
            let sibling = self.origin.node::<H, C>(height - e, (leaf >> e) ^ 1, work);
            put(out, 8 + 16 * (C::COUNT + e), &sibling);
        }
        work.fill([0; 16]);
        self.ledger[leaf] = Some(*stamp);
        self.next += 1;
        Ok((size, leaf as u16))
    }

    // The parents at a level of children on both sides, and what they hide.
    fn join_both(
        &self,
        level: usize,
        position: usize,
        ours: &[String16; 2],
        theirs: &[String16; 2],
    ) -> ([String16; 2], Option<Find>) {
        let origin = &self.origin;
        let ours = masked(&origin.masks, level, &ours[0], &ours[1]);
        let theirs = masked(&origin.masks, level, &theirs[0], &theirs[1]);
        let our_node = H::pair(&origin.hash_key, &ours[0], &ours[1]);
        let their_node = H::pair(&origin.hash_key, &theirs[0], &theirs[1]);
        let hides = our_node == their_node && ours != theirs;
        let report = [ours[0], ours[1], theirs[0], theirs[1]];
        let find = hides.then_some(((level as u16, position as u16), report));
        ([our_node, their_node], find)
    }

    pub fn trace(
        &self,
        stamp: &String16,
        bytes: &[u8],
        report: &mut [u8; 64],
        work: &mut Row,
    ) -> Result<(u8, u16, u16), u8> {
        let origin = &self.origin;
        let height = origin.height;
        let (leaf, row) = release_of::<C>(height, bytes)?;
        let digits = C::digits(stamp);
        let revealed = self.ledger[leaf].map(|m| C::digits(&m));
        let (mut node_find, mut chain_find, mut hidden_find) = (None, None, None);
        let mut their_row: Row = [[0; 16]; 256];
        work.fill([0; 16]);
        for k in 0..C::COUNT {
            let mut ours = origin.chain::<H>(leaf, k, digits[k]);
            let mut theirs = string_of(row, k);
            if hidden_find.is_none() && digits[k] < revealed.map_or(C::TOP, |r| r[k]) {
                let report = [ours, [0; 16], [0; 16], [0; 16]];
                hidden_find = Some(((k as u16, digits[k].into()), report));
            }
            let mut highest = None;
            for e in digits[k]..C::TOP {
                let above = [ours, theirs].map(|s| H::step(&origin.hash_key, &s));
                if ours != theirs && above[0] == above[1] {
                    let report = [ours, theirs, [0; 16], [0; 16]];
                    highest = Some(((k as u16, u16::from(e)), report));
                }
                [ours, theirs] = above;
            }
            chain_find = chain_find.or(highest);
            work[k] = ours;
            their_row[k] = theirs;
        }
        for depth in (0..C::LEVELS).rev() {
            let mut first = None;
            for p in 0..1 << depth {
                let ours = [work[2 * p], work[2 * p + 1]];
                let theirs = [their_row[2 * p], their_row[2 * p + 1]];
                let (nodes, find) =
                    self.join_both(height + depth, (leaf << depth) + p, &ours, &theirs);
                [work[p], their_row[p]] = nodes;
                first = first.or(find);
            }
            node_find = first.or(node_find);
        }
        let mut nodes = [work[0], their_row[0]];
        for e in 0..height {
            let position = leaf >> e;
            let our_sibling = origin.node::<H, C>(height - e, position ^ 1, work);
            let their_sibling = string_of(row, C::COUNT + e);
            let ours = in_order(position, nodes[0], our_sibling);
            let theirs = in_order(position, nodes[1], their_sibling);
            let (above, find) = self.join_both(height - e - 1, position / 2, &ours, &theirs);
            nodes = above;
            node_find = find.or(node_find);
        }
        work.fill([0; 16]);
        if nodes[1] != self.root {
            return Err(12);
        }
        let finds = [(1, node_find), (2, chain_find), (3, hidden_find)];
        for (verdict, find) in finds {
            if let Some(((first, second), strings)) = find {
                report.copy_from_slice(strings.as_flattened());
                return Ok((verdict, first, second));
            }
        }
        report.fill(0);
        Ok((0, leaf as u16, 0))
    }
}

fn header(bytes: &[u8], kind: u8) -> Result<(), u8> {
    if bytes.len() < 10 || bytes[..4] != (bytes.len() as u32).to_le_bytes() {
        return Err(6);
    }
    if bytes[4..6] != [kind, 0] {
        return Err(7);
    }
    Ok(())
}

// The leaf number and the strings of a release record.
fn parts_of<C: Code>(height: usize, bytes: &[u8]) -> Result<(usize, &[u8]), u8> {
    if bytes.len() != C::release_length(height) {
        return Err(10);
    }
    let leaf = usize::from(u16::from_le_bytes([bytes[6], bytes[7]]));
    if leaf >= 1 << height {
        return Err(11);
    }
    Ok((leaf, &bytes[8..]))
}

fn release_of<C: Code>(height: usize, bytes: &[u8]) -> Result<(usize, &[u8]), u8> {
    header(bytes, 2)?;
    parts_of::<C>(height, bytes)
}

pub struct Key<'a> {
    bytes: &'a [u8],
    height: usize,
}

pub fn open<H: Hash, C: Code>(bytes: &[u8]) -> Result<Key<'_>, u8> {
    header(bytes, 1)?;
    if bytes[6..8] != [H::NUMBER, C::NUMBER] {
        return Err(8);
    }
    if !(1..=8).contains(&bytes[8]) || bytes[9] != 0 {
        return Err(9);
    }
    let height = usize::from(bytes[8]);
    if bytes.len() != C::key_length(height) {
        return Err(10);
    }
    Ok(Key { bytes, height })
}

pub fn verify<H: Hash, C: Code>(key: &Key<'_>, stamp: &String16, bytes: &[u8]) -> Result<u16, u8> {
    let (leaf, row) = release_of::<C>(key.height, bytes)?;
    let hash_key = string_of(&key.bytes[10..], 0);
    let (masks, root) = key.bytes[26..].split_at(key.bytes.len() - 42);
    let digits = C::digits(stamp);
    let mut tops: Row = [[0; 16]; 256];
    for k in 0..C::COUNT {
        tops[k] = raise::<H>(&hash_key, string_of(row, k), C::TOP - digits[k]);
    }
    let mut node = fold::<H>(&hash_key, masks, key.height, C::LEVELS, &mut tops);
    for e in 0..key.height {
        let [left, right] = in_order(leaf >> e, node, string_of(row, C::COUNT + e));
        node = parent::<H>(&hash_key, masks, key.height - e - 1, &left, &right);
    }
    if node != root {
        return Err(12);
    }
    Ok(leaf as u16)
}
