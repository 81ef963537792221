//! The plain Rust behind the names of the proved functions, for bench/count: the digest, or with `--cfg root` the root.
#![crate_type = "lib"]
mod rival;
use std::slice::{from_raw_parts, from_raw_parts_mut};

#[cfg(not(root))]
#[no_mangle]
pub unsafe extern "C" fn candlebrood_digest(key: *const u8, kk: usize, message: *const u8, ll: usize, out: *mut u8, nn: usize) -> u64 {
    rival::blake2b(from_raw_parts(key, kk), from_raw_parts(message, ll), from_raw_parts_mut(out, nn));
    0
}

#[cfg(root)]
#[no_mangle]
pub unsafe extern "C" fn candlebrood_root(bytes: *const u8, n: usize, out: *mut u8, m: usize) -> u64 {
    from_raw_parts_mut(out, m).copy_from_slice(&rival::plain(from_raw_parts(bytes, n)));
    0
}
