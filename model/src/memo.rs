//! For speed only: the roots of 4,096-byte parts seen before are kept beside the bytes they came from. The whole bytes are
//! compared, so a kept root is always the one that would be worked out. `MODEL_PLAIN=1` turns it off.

use std::cell::RefCell;
use std::collections::HashMap;
use std::hash::{BuildHasherDefault, Hasher};

pub const SIZE: usize = 4096;
const MOST_KEPT: usize = 4096;

#[derive(Default)]
struct Quick(u64);

impl Hasher for Quick {
    fn finish(&self) -> u64 {
        self.0 ^ (self.0 >> 32)
    }
    fn write(&mut self, bytes: &[u8]) {
        for word in bytes.chunks(8) {
            let mut number = [0u8; 8];
            number[..word.len()].copy_from_slice(word);
            self.0 = (self.0.rotate_left(5) ^ u64::from_le_bytes(number)).wrapping_mul(0x517cc1b727220a95);
        }
    }
}

type Kept = HashMap<Vec<u8>, [u8; 32], BuildHasherDefault<Quick>>;

thread_local! {
    static KEPT: RefCell<Kept> = RefCell::new(Kept::default());
    static PLAIN: bool = std::env::var("MODEL_PLAIN").is_ok();
}

pub fn remembered(bytes: &[u8], work_out: fn(&[u8]) -> [u8; 32]) -> [u8; 32] {
    if PLAIN.with(|plain| *plain) {
        return work_out(bytes);
    }
    if let Some(root) = KEPT.with(|kept| kept.borrow().get(bytes).copied()) {
        return root;
    }
    let root = work_out(bytes);
    KEPT.with(|kept| {
        let mut kept = kept.borrow_mut();
        if kept.len() >= MOST_KEPT {
            kept.clear();
        }
        kept.insert(bytes.to_vec(), root);
    });
    root
}
