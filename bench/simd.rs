//! The hash and the tree over the crate blake2b_simd (Debian: librust-blake2b-simd-dev), which chooses its code by the processor at run
//! time: one digest at a time, and with `many`, which works on several messages side by side where the processor can.
#![allow(dead_code)]
use blake2b_simd::many::{hash_many, HashManyJob};
use blake2b_simd::Params;

fn params() -> Params {
    let mut p = Params::new();
    p.hash_length(32);
    p
}

pub fn digest(message: &[u8]) -> [u8; 32] {
    params().hash(message).as_bytes().try_into().unwrap()
}

pub fn digests(messages: &[[u8; 65]]) -> Vec<[u8; 32]> {
    let p = params();
    let mut jobs: Vec<_> = messages.iter().map(|m| HashManyJob::new(&p, m)).collect();
    hash_many(jobs.iter_mut());
    jobs.iter().map(|j| j.to_hash().as_bytes().try_into().unwrap()).collect()
}

/// The messages of the nodes over hashes, or of the leaves over segments: the byte, then 64 bytes.
fn messages(byte: u8, bytes: &[u8]) -> Vec<[u8; 65]> {
    bytes
        .chunks_exact(64)
        .map(|b| {
            let mut m = [byte; 65];
            m[1..].copy_from_slice(b);
            m
        })
        .collect()
}

/// The root of segments, a power of two of them, level by level; above 64 segments, of the roots of its parts of 64.
pub fn root(bytes: &[u8]) -> [u8; 32] {
    let mut level: Vec<[u8; 32]> = match bytes.len() {
        0..=4096 => digests(&messages(0, bytes)),
        _ => bytes.chunks_exact(4096).map(root).collect(),
    };
    while level.len() > 1 {
        level = digests(&messages(1, level.as_flattened()));
    }
    level[0]
}
