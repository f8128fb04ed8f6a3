// The hashes again, in plain Rust and written apart from the proved code: SHA-256 of FIPS 180-4 and AES-128 of FIPS 197,
// straightforward and portable, and the practice hash.

// A string of the scheme: 16 bytes.
pub type String16 = [u8; 16];

const ROUND_WORDS: [u32; 64] = [
    0x428a2f98, 0x71374491, 0xb5c0fbcf, 0xe9b5dba5, 0x3956c25b, 0x59f111f1, 0x923f82a4, 0xab1c5ed5,
    0xd807aa98, 0x12835b01, 0x243185be, 0x550c7dc3, 0x72be5d74, 0x80deb1fe, 0x9bdc06a7, 0xc19bf174,
    0xe49b69c1, 0xefbe4786, 0x0fc19dc6, 0x240ca1cc, 0x2de92c6f, 0x4a7484aa, 0x5cb0a9dc, 0x76f988da,
    0x983e5152, 0xa831c66d, 0xb00327c8, 0xbf597fc7, 0xc6e00bf3, 0xd5a79147, 0x06ca6351, 0x14292967,
    0x27b70a85, 0x2e1b2138, 0x4d2c6dfc, 0x53380d13, 0x650a7354, 0x766a0abb, 0x81c2c92e, 0x92722c85,
    0xa2bfe8a1, 0xa81a664b, 0xc24b8b70, 0xc76c51a3, 0xd192e819, 0xd6990624, 0xf40e3585, 0x106aa070,
    0x19a4c116, 0x1e376c08, 0x2748774c, 0x34b0bcb5, 0x391c0cb3, 0x4ed8aa4a, 0x5b9cca4f, 0x682e6ff3,
    0x748f82ee, 0x78a5636f, 0x84c87814, 0x8cc70208, 0x90befffa, 0xa4506ceb, 0xbef9a3f7, 0xc67178f2,
];

const INITIAL: [u32; 8] = [
    0x6a09e667, 0xbb67ae85, 0x3c6ef372, 0xa54ff53a, 0x510e527f, 0x9b05688c, 0x1f83d9ab, 0x5be0cd19,
];

fn compress(state: &mut [u32; 8], block: &[u8]) {
    let mut w = [0u32; 64];
    for (word, bytes) in w.iter_mut().zip(block.chunks_exact(4)) {
        *word = u32::from_be_bytes(bytes.try_into().unwrap());
    }
    for t in 16..64 {
        let s0 = w[t - 15].rotate_right(7) ^ w[t - 15].rotate_right(18) ^ (w[t - 15] >> 3);
        let s1 = w[t - 2].rotate_right(17) ^ w[t - 2].rotate_right(19) ^ (w[t - 2] >> 10);
        w[t] = s1
            .wrapping_add(w[t - 7])
            .wrapping_add(s0)
            .wrapping_add(w[t - 16]);
    }
    let [mut a, mut b, mut c, mut d, mut e, mut f, mut g, mut h] = *state;
    for t in 0..64 {
        let s1 = e.rotate_right(6) ^ e.rotate_right(11) ^ e.rotate_right(25);
        let ch = (e & f) ^ (!e & g);
        let t1 = h
            .wrapping_add(s1)
            .wrapping_add(ch)
            .wrapping_add(ROUND_WORDS[t])
            .wrapping_add(w[t]);
        let s0 = a.rotate_right(2) ^ a.rotate_right(13) ^ a.rotate_right(22);
        let maj = (a & b) ^ (a & c) ^ (b & c);
        let t2 = s0.wrapping_add(maj);
        h = g;
        g = f;
        f = e;
        e = d.wrapping_add(t1);
        d = c;
        c = b;
        b = a;
        a = t1.wrapping_add(t2);
    }
    for (word, add) in state.iter_mut().zip([a, b, c, d, e, f, g, h]) {
        *word = word.wrapping_add(add);
    }
}

pub fn sha256(message: &[u8]) -> [u8; 32] {
    let mut state = INITIAL;
    let blocks = message.chunks_exact(64);
    let rest = blocks.remainder();
    for block in blocks {
        compress(&mut state, block);
    }
    let mut last = [0u8; 128];
    let end = if rest.len() < 56 { 64 } else { 128 };
    last[..rest.len()].copy_from_slice(rest);
    last[rest.len()] = 0x80;
    last[end - 8..end].copy_from_slice(&(8 * message.len() as u64).to_be_bytes());
    for block in last[..end].chunks_exact(64) {
        compress(&mut state, block);
    }
    let mut digest = [0u8; 32];
    for (bytes, word) in digest.chunks_exact_mut(4).zip(state) {
        bytes.copy_from_slice(&word.to_be_bytes());
    }
    digest
}

// The substitution of bytes, made from the field's inverses when the program is compiled.
const SBOX: [u8; 256] = sbox();

const fn twice(a: u8) -> u8 {
    (a << 1) ^ ((a >> 7) * 0x1b)
}

const fn sbox() -> [u8; 256] {
    let mut table = [0u8; 256];
    // p runs through the powers of 3, q through those of its inverse
    let mut p = 1u8;
    let mut q = 1u8;
    loop {
        p ^= twice(p);
        q ^= q << 1;
        q ^= q << 2;
        q ^= q << 4;
        if q & 0x80 != 0 {
            q ^= 0x09;
        }
        let x = q ^ q.rotate_left(1) ^ q.rotate_left(2) ^ q.rotate_left(3) ^ q.rotate_left(4);
        table[p as usize] = x ^ 0x63;
        if p == 1 {
            break;
        }
    }
    table[0] = 0x63;
    table
}

fn sub(b: u8) -> u8 {
    SBOX[b as usize]
}

fn next_key(key: &String16, constant: u8) -> String16 {
    let mut next = *key;
    next[0] ^= sub(key[13]) ^ constant;
    next[1] ^= sub(key[14]);
    next[2] ^= sub(key[15]);
    next[3] ^= sub(key[12]);
    for j in 4..16 {
        next[j] ^= next[j - 4];
    }
    next
}

fn key_schedule(key: &String16) -> [String16; 11] {
    let mut keys = [*key; 11];
    let mut constant = 1;
    for n in 1..11 {
        keys[n] = next_key(&keys[n - 1], constant);
        constant = twice(constant);
    }
    keys
}

// Bytes substituted, row r moved r places to the left.
#[rustfmt::skip]
fn substituted(s: &String16) -> String16 {
    [
        sub(s[0]), sub(s[5]), sub(s[10]), sub(s[15]),
        sub(s[4]), sub(s[9]), sub(s[14]), sub(s[3]),
        sub(s[8]), sub(s[13]), sub(s[2]), sub(s[7]),
        sub(s[12]), sub(s[1]), sub(s[6]), sub(s[11]),
    ]
}

fn mixed(mut state: String16) -> String16 {
    for column in state.chunks_exact_mut(4) {
        let [a, b, c, d] = [column[0], column[1], column[2], column[3]];
        column[0] = twice(a) ^ twice(b) ^ b ^ c ^ d;
        column[1] = twice(b) ^ twice(c) ^ c ^ d ^ a;
        column[2] = twice(c) ^ twice(d) ^ d ^ a ^ b;
        column[3] = twice(d) ^ twice(a) ^ a ^ b ^ c;
    }
    state
}

pub fn aes128(key: &String16, block: &String16) -> String16 {
    let keys = key_schedule(key);
    let mut state = xor(block, &keys[0]);
    for key in &keys[1..10] {
        state = xor(&mixed(substituted(&state)), key);
    }
    xor(&substituted(&state), &keys[10])
}

pub fn xor(a: &String16, b: &String16) -> String16 {
    std::array::from_fn(|j| a[j] ^ b[j])
}

fn cut(digest: [u8; 32]) -> String16 {
    digest[..16].try_into().unwrap()
}

pub fn sha256_step(key: &String16, string: &String16) -> String16 {
    let mut bytes = [0u8; 36];
    bytes[..4].copy_from_slice(b"STEP");
    bytes[4..20].copy_from_slice(key);
    bytes[20..].copy_from_slice(string);
    cut(sha256(&bytes))
}

pub fn sha256_pair(key: &String16, left: &String16, right: &String16) -> String16 {
    let mut bytes = [0u8; 52];
    bytes[..4].copy_from_slice(b"PAIR");
    bytes[4..20].copy_from_slice(key);
    bytes[20..36].copy_from_slice(left);
    bytes[36..].copy_from_slice(right);
    cut(sha256(&bytes))
}

pub fn aes128_step(key: &String16, string: &String16) -> String16 {
    xor(&aes128(key, string), string)
}

pub fn aes128_pair(key: &String16, left: &String16, right: &String16) -> String16 {
    aes128_step(&aes128_step(key, left), right)
}

pub fn practice_step(key: &String16, string: &String16) -> String16 {
    std::array::from_fn(|j| string[j] / 2 ^ key[j])
}

pub fn practice_pair(key: &String16, left: &String16, right: &String16) -> String16 {
    std::array::from_fn(|j| left[j].wrapping_add(right[j]) ^ key[j])
}
