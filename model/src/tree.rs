//! "Tree: RFC 6962 section 2.1 with it, no key, 32 bytes (leaf = byte 0 then a 64-byte segment; node = byte 1, left, right; the
//! left part is the largest power of two below the count)."

use crate::blake2b::hash32;
use crate::memo;

pub type Hash = [u8; 32];
pub const SEGMENT: usize = 64;
/// M-103: "A proof may now cover 4,194,304 segments, and the checker's count limit rises to that."
pub const MOST_SEGMENTS: u64 = 4_194_304;

/// "leaf = byte 0 then a 64-byte segment"
fn leaf(segment: &[u8]) -> Hash {
    let mut message = [0u8; 65];
    message[1..].copy_from_slice(segment);
    hash32(&message)
}

/// "node = byte 1, left, right"
fn node(left: &Hash, right: &Hash) -> Hash {
    let mut message = [1u8; 65];
    message[1..33].copy_from_slice(left);
    message[33..].copy_from_slice(right);
    hash32(&message)
}

/// "the left part is the largest power of two below the count"
fn left_part(count: u64) -> u64 {
    let mut part = 1;
    while part * 2 < count {
        part *= 2;
    }
    part
}

/// The root of one or more segments.
fn part_root(bytes: &[u8]) -> Hash {
    if bytes.len() == memo::SIZE {
        return memo::remembered(bytes, split_root);
    }
    split_root(bytes)
}

fn split_root(bytes: &[u8]) -> Hash {
    let count = (bytes.len() / SEGMENT) as u64;
    if count == 1 {
        return leaf(bytes);
    }
    let (left, right) = bytes.split_at(left_part(count) as usize * SEGMENT);
    node(&part_root(left), &part_root(right))
}

/// The root of a contract's or a sector's bytes. "House rule: an empty contract's root is 32 zero bytes."
pub fn root(bytes: &[u8]) -> Hash {
    if bytes.is_empty() {
        return [0; 32];
    }
    part_root(bytes)
}

/// The root of a contract from the roots of its sectors. Each sector is as many segments, a power of two, so the left part is whole
/// sectors too: as many as "the largest power of two below the count" of sectors.
pub fn joined(roots: &[Hash]) -> Hash {
    match roots {
        [] => [0; 32],
        [root] => *root,
        _ => {
            let (left, right) = roots.split_at(left_part(roots.len() as u64) as usize);
            node(&joined(left), &joined(right))
        }
    }
}

/// "The root of a sector of zeros is worked out by doubling: one leaf and one node a level."
pub fn zeros_root(sector: u64) -> Hash {
    let mut root = leaf(&[0; SEGMENT]);
    let mut length = SEGMENT as u64;
    while length < sector {
        root = node(&root, &root);
        length *= 2;
    }
    root
}

/// "Proof: walk the tree from the top; outside the range give the part's root, wholly inside nothing, else left then right."
/// The range is of segments, first to end (not with it).
pub fn proof(bytes: &[u8], first: u64, end: u64) -> Vec<Hash> {
    let mut hashes = Vec::new();
    walk(bytes, 0, first, end, &mut hashes);
    hashes
}

fn walk(bytes: &[u8], at: u64, first: u64, end: u64, hashes: &mut Vec<Hash>) {
    let count = (bytes.len() / SEGMENT) as u64;
    if at + count <= first || end <= at {
        hashes.push(part_root(bytes));
    } else if first <= at && at + count <= end {
    } else {
        let part = left_part(count);
        let (left, right) = bytes.split_at(part as usize * SEGMENT);
        walk(left, at, first, end, hashes);
        walk(right, at + part, first, end, hashes);
    }
}

/// The same of segments of one sector of a contract, first to end within it, from the roots of the contract's sectors and the bytes of
/// that one: a part that has none of its segments gives the root that its sectors' roots make.
pub fn proof_in(roots: &[Hash], position: u64, sector: &[u8], first: u64, end: u64) -> Vec<Hash> {
    let mut hashes = Vec::new();
    walk_sectors(roots, 0, position, &mut hashes, &|hashes| walk(sector, 0, first, end, hashes));
    hashes
}

fn walk_sectors(roots: &[Hash], at: u64, position: u64, hashes: &mut Vec<Hash>, inside: &dyn Fn(&mut Vec<Hash>)) {
    let count = roots.len() as u64;
    if at + count <= position || position < at {
        hashes.push(joined(roots));
    } else if count == 1 {
        inside(hashes);
    } else {
        let part = left_part(count);
        let (left, right) = roots.split_at(part as usize);
        walk_sectors(left, at, position, hashes, inside);
        walk_sectors(right, at + part, position, hashes, inside);
    }
}

/// "The checker (root, count 1 to 4,096, first, end, bytes, hashes) says yes exactly when first < end ≤ count, the bytes number
/// 64 × (end - first), and the same walk rebuilds the root using up all hash bytes; else no." Decision 29: no for other counts. M-103:
/// the count goes to 4,194,304.
pub fn check(root: &[u8], count: u64, first: u64, end: u64, bytes: &[u8], hashes: &[u8]) -> bool {
    fault(root, count, first, end, bytes, hashes).is_none()
}

/// The first of the checker's conditions that fails.
pub fn fault(root: &[u8], count: u64, first: u64, end: u64, bytes: &[u8], hashes: &[u8]) -> Option<&'static str> {
    if root.len() != 32 || count < 1 || count > MOST_SEGMENTS {
        return Some("k no: root's length or count");
    }
    if !(first < end && end <= count) {
        return Some("k no: first < end <= count");
    }
    if bytes.len() as u64 != 64 * (end - first) {
        return Some("k no: number of bytes");
    }
    let mut left_over = hashes;
    let Some(built) = rebuilt(count, first, end, bytes, &mut left_over) else {
        return Some("k no: hashes missing");
    };
    if !left_over.is_empty() {
        return Some("k no: hash bytes left over");
    }
    (built != root).then_some("k no: another root")
}

/// The root that bytes and hashes give, taking the hashes that the walk asks for; none where they are too few.
pub fn rebuilt(count: u64, first: u64, end: u64, bytes: &[u8], hashes: &mut &[u8]) -> Option<Hash> {
    rebuild(0, count, first, end, bytes, hashes)
}

/// The same walk: a part outside the range takes the next hash, a part inside is worked out from the bytes.
fn rebuild(at: u64, count: u64, first: u64, end: u64, bytes: &[u8], hashes: &mut &[u8]) -> Option<Hash> {
    if at + count <= first || end <= at {
        if hashes.len() < 32 {
            return None;
        }
        let (next, rest) = hashes.split_at(32);
        *hashes = rest;
        Some(next.try_into().unwrap())
    } else if first <= at && at + count <= end {
        let from = (at - first) as usize * SEGMENT;
        Some(part_root(&bytes[from..from + count as usize * SEGMENT]))
    } else {
        let part = left_part(count);
        let left = rebuild(at, part, first, end, bytes, hashes)?;
        let right = rebuild(at + part, count - part, first, end, bytes, hashes)?;
        Some(node(&left, &right))
    }
}
