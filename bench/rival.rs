//! A plain scalar BLAKE2b in Rust with a plain tree over it, and the timing: what the benchmarks compare the proved code with. RFC 7693 with
//! its rounds unrolled, since that is the quicker of the plain forms.
#![allow(dead_code)]

const IV: [u64; 8] = [
    0x6A09E667F3BCC908, 0xBB67AE8584CAA73B, 0x3C6EF372FE94F82B, 0xA54FF53A5F1D36F1,
    0x510E527FADE682D1, 0x9B05688C2B3E6C1F, 0x1F83D9ABFB41BD6B, 0x5BE0CD19137E2179,
];

const SIGMA: [[usize; 16]; 10] = [
    [0, 1, 2, 3, 4, 5, 6, 7, 8, 9, 10, 11, 12, 13, 14, 15],
    [14, 10, 4, 8, 9, 15, 13, 6, 1, 12, 0, 2, 11, 7, 5, 3],
    [11, 8, 12, 0, 5, 2, 15, 13, 10, 14, 3, 6, 7, 1, 9, 4],
    [7, 9, 3, 1, 13, 12, 11, 14, 2, 6, 5, 10, 4, 0, 15, 8],
    [9, 0, 5, 7, 2, 4, 10, 15, 14, 1, 11, 12, 6, 8, 3, 13],
    [2, 12, 6, 10, 0, 11, 8, 3, 4, 13, 7, 5, 15, 14, 1, 9],
    [12, 5, 1, 15, 14, 13, 4, 10, 0, 7, 6, 3, 9, 2, 8, 11],
    [13, 11, 7, 14, 12, 1, 3, 9, 5, 0, 15, 4, 8, 6, 2, 10],
    [6, 15, 14, 9, 11, 3, 0, 8, 12, 2, 13, 7, 1, 4, 10, 5],
    [10, 2, 8, 4, 7, 6, 1, 5, 15, 11, 9, 14, 3, 12, 13, 0],
];

#[inline(always)]
fn g(v: &mut [u64; 16], a: usize, b: usize, c: usize, d: usize, x: u64, y: u64) {
    v[a] = v[a].wrapping_add(v[b]).wrapping_add(x);
    v[d] = (v[d] ^ v[a]).rotate_right(32);
    v[c] = v[c].wrapping_add(v[d]);
    v[b] = (v[b] ^ v[c]).rotate_right(24);
    v[a] = v[a].wrapping_add(v[b]).wrapping_add(y);
    v[d] = (v[d] ^ v[a]).rotate_right(16);
    v[c] = v[c].wrapping_add(v[d]);
    v[b] = (v[b] ^ v[c]).rotate_right(63);
}

#[inline(always)]
fn round(r: usize, m: &[u64; 16], v: &mut [u64; 16]) {
    let s = SIGMA[r % 10];
    g(v, 0, 4, 8, 12, m[s[0]], m[s[1]]);
    g(v, 1, 5, 9, 13, m[s[2]], m[s[3]]);
    g(v, 2, 6, 10, 14, m[s[4]], m[s[5]]);
    g(v, 3, 7, 11, 15, m[s[6]], m[s[7]]);
    g(v, 0, 5, 10, 15, m[s[8]], m[s[9]]);
    g(v, 1, 6, 11, 12, m[s[10]], m[s[11]]);
    g(v, 2, 7, 8, 13, m[s[12]], m[s[13]]);
    g(v, 3, 4, 9, 14, m[s[14]], m[s[15]]);
}

fn compress(h: &mut [u64; 8], block: &[u8; 128], t: u128, last: bool) {
    let mut m = [0u64; 16];
    for (w, b) in m.iter_mut().zip(block.chunks_exact(8)) {
        *w = u64::from_le_bytes(b.try_into().unwrap());
    }
    let mut v = [0u64; 16];
    v[..8].copy_from_slice(h);
    v[8..].copy_from_slice(&IV);
    v[12] ^= t as u64;
    v[13] ^= (t >> 64) as u64;
    if last {
        v[14] = !v[14];
    }
    round(0, &m, &mut v);
    round(1, &m, &mut v);
    round(2, &m, &mut v);
    round(3, &m, &mut v);
    round(4, &m, &mut v);
    round(5, &m, &mut v);
    round(6, &m, &mut v);
    round(7, &m, &mut v);
    round(8, &m, &mut v);
    round(9, &m, &mut v);
    round(10, &m, &mut v);
    round(11, &m, &mut v);
    for i in 0..8 {
        h[i] ^= v[i] ^ v[i + 8];
    }
}

#[inline(never)]
pub fn blake2b(key: &[u8], message: &[u8], out: &mut [u8]) {
    let mut h = IV;
    h[0] ^= 0x0101_0000 ^ ((key.len() as u64) << 8) ^ out.len() as u64;
    let mut t = 0u128;
    let mut block = [0u8; 128];
    if !key.is_empty() {
        block[..key.len()].copy_from_slice(key);
        t = 128;
        compress(&mut h, &block, t, message.is_empty());
    }
    let mut rest = message;
    while rest.len() > 128 {
        t += 128;
        compress(&mut h, rest[..128].try_into().unwrap(), t, false);
        rest = &rest[128..];
    }
    if key.is_empty() || !message.is_empty() {
        block = [0u8; 128];
        block[..rest.len()].copy_from_slice(rest);
        t += rest.len() as u128;
        compress(&mut h, &block, t, true);
    }
    let mut all = [0u8; 64];
    for (b, w) in all.chunks_exact_mut(8).zip(h) {
        b.copy_from_slice(&w.to_le_bytes());
    }
    out.copy_from_slice(&all[..out.len()]);
}

/// The root of whole segments, at least one, over a hash of 65 bytes: RFC 6962 by recursion.
pub fn over(bytes: &[u8], hash: &impl Fn(&[u8; 65]) -> [u8; 32]) -> [u8; 32] {
    let n = bytes.len() / 64;
    let mut message = [0u8; 65];
    if n == 1 {
        message[1..].copy_from_slice(bytes);
    } else {
        let left = n.next_power_of_two() / 2 * 64;
        message[0] = 1;
        message[1..33].copy_from_slice(&over(&bytes[..left], hash));
        message[33..].copy_from_slice(&over(&bytes[left..], hash));
    }
    hash(&message)
}

/// The same over the plain BLAKE2b. Where nothing else calls it, the compiler knows that its message has 65 bytes and that there is no key,
/// and makes of it one for this call alone, without the block loop and the seven words that are 0.
pub fn plain(bytes: &[u8]) -> [u8; 32] {
    over(bytes, &|message| {
        let mut out = [0u8; 32];
        blake2b(&[], message, &mut out);
        out
    })
}

#[repr(C)]
struct Timespec {
    seconds: i64,
    nanoseconds: i64,
}

extern "C" {
    fn clock_gettime(clock: i32, time: *mut Timespec) -> i32;
}

/// The processor time of this thread, in nanoseconds: a turn in which another process had the core is not longer for it.
fn now() -> f64 {
    let mut t = Timespec { seconds: 0, nanoseconds: 0 };
    assert_eq!(unsafe { clock_gettime(3, &mut t) }, 0);
    t.seconds as f64 * 1e9 + t.nanoseconds as f64
}

/// The least processor time of `turns` turns of each side, in nanoseconds; the sides take turns.
pub fn least(turns: usize, sides: &mut [&mut dyn FnMut()]) -> Vec<f64> {
    let mut best = vec![f64::MAX; sides.len()];
    for _ in 0..turns {
        for (side, least) in sides.iter_mut().zip(&mut best) {
            let start = now();
            side();
            *least = least.min(now() - start);
        }
    }
    best
}
