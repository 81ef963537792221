//! Roots of the proved tree beside plain Rust, over the same bytes and in one run: RFC 6962 by recursion over the same plain BLAKE2b
//! that bench/hash.rs compares with, and over the crate blake2b_simd where the machine has it. Each figure is the least of many turns, and
//! the sides take turns.
mod rival;
#[cfg(simd)]
mod simd;
use rival::{least, plain};
use std::hint::black_box;

extern "C" {
    fn candlebrood_root(bytes: *const u8, n: usize, out: *mut u8, m: usize) -> u64;
}

fn ours(bytes: &[u8]) -> [u8; 32] {
    let mut out = [0u8; 32];
    let n = unsafe { candlebrood_root(bytes.as_ptr(), bytes.len(), out.as_mut_ptr(), out.len()) };
    assert_eq!(n, 0);
    out
}

#[cfg(simd)]
fn one_by_one(bytes: &[u8]) -> [u8; 32] {
    rival::over(bytes, &|message| simd::digest(message))
}

fn main() {
    let all: Vec<u8> = (0..4 << 20).map(|i| (i * 7 + i / 251) as u8).collect();
    for n in [1, 2, 3, 5, 7, 63, 64, 65, 100, 128, 200, 1000, 4096] {
        assert_eq!(ours(&all[..64 * n]), plain(&all[..64 * n]), "{n} segments");
        #[cfg(simd)]
        assert_eq!(ours(&all[..64 * n]), one_by_one(&all[..64 * n]), "{n} segments, blake2b_simd");
        #[cfg(simd)]
        assert!(!n.is_power_of_two() || ours(&all[..64 * n]) == simd::root(&all[..64 * n]), "{n} segments, many");
    }
    println!("ns a segment, on {}; each ratio is to the plain Rust", std::env::consts::ARCH);
    print!("{:<10} {:>9} {:>6} {:>11}", "segments", "proved", "ratio", "plain Rust");
    println!("{}", if cfg!(simd) { "  blake2b_simd  ratio      many  ratio" } else { "" });
    for (n, repeat, turns) in [(64, 10, 1000), (256, 4, 500), (1024, 1, 500), (4096, 1, 150), (16384, 1, 60), (65536, 1, 40)] {
        let bytes = &all[..64 * n];
        let mut sides: Vec<Box<dyn FnMut()>> = vec![
            Box::new(|| (0..repeat).for_each(|_| { black_box(ours(black_box(bytes))); })),
            Box::new(|| (0..repeat).for_each(|_| { black_box(plain(black_box(bytes))); })),
        ];
        #[cfg(simd)]
        sides.push(Box::new(|| (0..repeat).for_each(|_| { black_box(one_by_one(black_box(bytes))); })));
        #[cfg(simd)]
        sides.push(Box::new(|| (0..repeat).for_each(|_| { black_box(simd::root(black_box(bytes))); })));
        let mut lent: Vec<&mut dyn FnMut()> = sides.iter_mut().map(|s| &mut **s as &mut dyn FnMut()).collect();
        let times: Vec<f64> = least(turns, &mut lent).iter().map(|t| t / (n * repeat) as f64).collect();
        print!("{:<10} {:>9.1} {:>6.3} {:>11.1}", n, times[0], times[0] / times[1], times[1]);
        if cfg!(simd) {
            print!(" {:>13.1} {:>6.3} {:>9.1} {:>6.3}", times[2], times[2] / times[1], times[3], times[3] / times[1]);
        }
        println!();
    }
}
