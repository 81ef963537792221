//! The proved hash beside a plain scalar BLAKE2b in Rust, and beside the crate blake2b_simd where the machine has it, over the same messages
//! and in one run. Each figure is the least of many turns, and the sides take turns.
mod rival;
#[cfg(simd)]
mod simd;
use rival::{blake2b, least};
use std::hint::black_box;

extern "C" {
    fn candlebrood_digest(key: *const u8, kk: usize, message: *const u8, ll: usize, out: *mut u8, nn: usize) -> u64;
}

fn ours(key: &[u8], message: &[u8], out: &mut [u8]) {
    let n = unsafe { candlebrood_digest(key.as_ptr(), key.len(), message.as_ptr(), message.len(), out.as_mut_ptr(), out.len()) };
    assert_eq!(n, 0);
}

/// A row: the times of each side for one message, and beside each but the first its ratio to the plain Rust, the second.
fn row(name: &str, times: &[f64], messages: usize) {
    print!("{name:<12}");
    for (i, t) in times.iter().enumerate() {
        print!(" {:>13.1}", t / messages as f64);
        if i != 1 {
            print!(" {:>6.3}", t / times[1]);
        }
    }
    println!();
}

fn main() {
    let long: Vec<u8> = (0..1 << 20).map(|i| (i * 7 + i / 251) as u8).collect();
    for kk in [0, 1, 32, 64] {
        for ll in [0, 1, 63, 64, 65, 66, 127, 128, 129, 255, 256, 257, 1000, 1 << 20] {
            for nn in [1, 20, 31, 32, 33, 64] {
                let (mut x, mut y) = (vec![0u8; nn], vec![0u8; nn]);
                ours(&long[..kk], &long[..ll], &mut x);
                blake2b(&long[..kk], &long[..ll], &mut y);
                assert_eq!(x, y, "key {kk}, message {ll}, digest {nn}");
            }
        }
    }
    println!("ns a message, on {}; each ratio is to the plain Rust", std::env::consts::ARCH);
    print!("{:<12} {:>13} {:>6} {:>13}", "message", "proved", "ratio", "plain Rust");
    println!("{}", if cfg!(simd) { "  blake2b_simd  ratio          many  ratio" } else { "" });
    for (name, ll, n, turns) in [("65 bytes", 65, 2000, 1000), ("64 KiB", 1 << 16, 4, 1000), ("1 MiB", 1 << 20, 1, 400)] {
        let (mut x, mut y) = ([0u8; 32], [0u8; 32]);
        let mut proved = || (0..n).for_each(|i| ours(&[], &long[i..i + ll], &mut x));
        let mut plain = || (0..n).for_each(|i| blake2b(&[], &long[i..i + ll], &mut y));
        #[cfg(simd)]
        {
            let mut one = || (0..n).for_each(|i| { black_box(simd::digest(&long[i..i + ll])); });
            if ll == 65 {
                let messages: Vec<[u8; 65]> = (0..n).map(|i| long[i..i + 65].try_into().unwrap()).collect();
                let mut many = || messages.chunks(40).for_each(|m| { black_box(simd::digests(m)); });
                row(name, &least(turns, &mut [&mut proved, &mut plain, &mut one, &mut many]), n);
            } else {
                row(name, &least(turns, &mut [&mut proved, &mut plain, &mut one]), n);
            }
        }
        #[cfg(not(simd))]
        row(name, &least(turns, &mut [&mut proved, &mut plain]), n);
        black_box((x, y));
    }
}
