//! "Hash: RFC 7693 BLAKE2b, digest 1 to 64 bytes, key 0 to 64 (other lengths: 2)."

/// RFC 7693 section 2.6: the initialization vector.
const IV: [u64; 8] = [
    0x6A09E667F3BCC908,
    0xBB67AE8584CAA73B,
    0x3C6EF372FE94F82B,
    0xA54FF53A5F1D36F1,
    0x510E527FADE682D1,
    0x9B05688C2B3E6C1F,
    0x1F83D9ABFB41BD6B,
    0x5BE0CD19137E2179,
];

/// RFC 7693 section 2.7: the message schedule. Rounds 10 and 11 use rows 0 and 1 again.
const SIGMA: [[usize; 16]; 10] = [
    [0, 1, 2, 3, 4, 5, 6, 7, 8, 9, 10, 11, 12, 13, 14, 15],
    [14, 10, 4, 8, 9, 15, 13, 6, 1, 12, 0, 2, 11, 7, 5, 3],
    [11, 8, 12, 0, 5, 2, 15, 13, 10, 14, 3, 6, 7, 1, 9, 4],
    [7, 9, 3, 1, 13, 12, 11, 14, 2, 6, 5, 10, 4, 0, 15, 8],
    [9, 0, 5, 7, 2, 4, 10, 15, 14, 1, 11, 12, 6, 8, 3, 13],
    [2, 12, 6, 10, 0, 11, 8, 3, 4, 13, 7, 5, 15, 14, 1, 9],
    [12, 5, 1, 15, 14, 13, 4, 10, 0, 7, 6, 3, 9, 2, 8, 11],
    [13, 11, 7, 14, 12, 1, 3, 9, 5, 0, 15, 4, 8, 6, 2, 10],
    [6, 15, 14, 9, 11, 3, 0, 8, 12, 2, 13, 7, 1, 4, 10, 5],
    [10, 2, 8, 4, 7, 6, 1, 5, 15, 11, 9, 14, 3, 12, 13, 0],
];

/// RFC 7693 section 3.1: the mixing function G, rotations 32, 24, 16, 63.
#[inline(always)]
fn mix(v: &mut [u64; 16], a: usize, b: usize, c: usize, d: usize, x: u64, y: u64) {
    v[a] = v[a].wrapping_add(v[b]).wrapping_add(x);
    v[d] = (v[d] ^ v[a]).rotate_right(32);
    v[c] = v[c].wrapping_add(v[d]);
    v[b] = (v[b] ^ v[c]).rotate_right(24);
    v[a] = v[a].wrapping_add(v[b]).wrapping_add(y);
    v[d] = (v[d] ^ v[a]).rotate_right(16);
    v[c] = v[c].wrapping_add(v[d]);
    v[b] = (v[b] ^ v[c]).rotate_right(63);
}

#[inline(always)]
fn round(v: &mut [u64; 16], m: &[u64; 16], s: &[usize; 16]) {
    mix(v, 0, 4, 8, 12, m[s[0]], m[s[1]]);
    mix(v, 1, 5, 9, 13, m[s[2]], m[s[3]]);
    mix(v, 2, 6, 10, 14, m[s[4]], m[s[5]]);
    mix(v, 3, 7, 11, 15, m[s[6]], m[s[7]]);
    mix(v, 0, 5, 10, 15, m[s[8]], m[s[9]]);
    mix(v, 1, 6, 11, 12, m[s[10]], m[s[11]]);
    mix(v, 2, 7, 8, 13, m[s[12]], m[s[13]]);
    mix(v, 3, 4, 9, 14, m[s[14]], m[s[15]]);
}

/// RFC 7693 section 3.2: the compression function F. `t` counts the bytes up to and with this block.
fn compress(h: &mut [u64; 8], block: &[u8; 128], t: u128, last: bool) {
    let mut m = [0u64; 16];
    for i in 0..16 {
        m[i] = u64::from_le_bytes(block[8 * i..8 * i + 8].try_into().unwrap());
    }
    let mut v = [0u64; 16];
    v[..8].copy_from_slice(h);
    v[8..].copy_from_slice(&IV);
    v[12] ^= t as u64;
    v[13] ^= (t >> 64) as u64;
    if last {
        v[14] = !v[14];
    }
    // written out, so that the schedule's numbers are constants
    round(&mut v, &m, &SIGMA[0]);
    round(&mut v, &m, &SIGMA[1]);
    round(&mut v, &m, &SIGMA[2]);
    round(&mut v, &m, &SIGMA[3]);
    round(&mut v, &m, &SIGMA[4]);
    round(&mut v, &m, &SIGMA[5]);
    round(&mut v, &m, &SIGMA[6]);
    round(&mut v, &m, &SIGMA[7]);
    round(&mut v, &m, &SIGMA[8]);
    round(&mut v, &m, &SIGMA[9]);
    round(&mut v, &m, &SIGMA[0]);
    round(&mut v, &m, &SIGMA[1]);
    for i in 0..8 {
        h[i] ^= v[i] ^ v[i + 8];
    }
}

/// RFC 7693 section 3.3. A keyed hash starts with a block that holds the key and zeros; with neither key nor message there is
/// one block of zeros. "other lengths: 2".
pub fn hash(digest_length: usize, key: &[u8], message: &[u8]) -> Result<Vec<u8>, u64> {
    if digest_length < 1 || digest_length > 64 || key.len() > 64 {
        return Err(2);
    }
    let mut h = IV;
    h[0] ^= 0x01010000 ^ ((key.len() as u64) << 8) ^ digest_length as u64;
    if !key.is_empty() {
        let mut block = [0u8; 128];
        block[..key.len()].copy_from_slice(key);
        compress(&mut h, &block, 128, message.is_empty());
    }
    if !message.is_empty() || key.is_empty() {
        let before = if key.is_empty() { 0 } else { 128 };
        absorb(&mut h, before, message);
    }
    let bytes: Vec<u8> = h.iter().flat_map(|word| word.to_le_bytes()).collect();
    Ok(bytes[..digest_length].to_vec())
}

/// The message's blocks, the last one filled with zeros; at least one block.
fn absorb(h: &mut [u64; 8], before: u128, message: &[u8]) {
    let mut done = 0;
    loop {
        let end = message.len().min(done + 128);
        let last = end == message.len();
        let mut block = [0u8; 128];
        block[..end - done].copy_from_slice(&message[done..end]);
        compress(h, &block, before + end as u128, last);
        if last {
            return;
        }
        done = end;
    }
}

/// "no key, 32 bytes"
pub fn hash32(message: &[u8]) -> [u8; 32] {
    let mut h = IV;
    h[0] ^= 0x01010000 ^ 32;
    absorb(&mut h, 0, message);
    let mut digest = [0u8; 32];
    for i in 0..4 {
        digest[8 * i..8 * i + 8].copy_from_slice(&h[i].to_le_bytes());
    }
    digest
}
