//! Tests of the model itself: the vectors of RFC 7693, trees by hand, the figures of document 01's bench, and the rules that
//! they do not touch.

use crate::blake2b::{hash, hash32};
use crate::calls::{self, Item};
use crate::depot;
use crate::depot::SECTOR;
use crate::gen;
use crate::head::{self, filled, Head, Instruction, Operand};
use crate::host::{self, Host, NONE};
use crate::lookup::Spot;
use crate::program::Closed;
use crate::roots;
use crate::show;
use crate::tree;
use crate::unsound;

/// "Prices: Init 7, Memory 1, ReadBase 3, ReadLength 2, WriteBase 5, WriteLength 4, TruncateBase 6."
const PRICES: [u16; 7] = [7, 1, 3, 2, 5, 4, 6];
const BUDGET: u64 = 1_000_000_000;
const A: [u8; 32] = [0xA1; 32];
const B: [u8; 32] = [0xB2; 32];

pub fn run() {
    let tests: [(&str, fn()); 51] = [
        ("RFC 7693: abc", abc),
        ("RFC 7693: Appendix E self-test", self_test),
        ("hash: lengths refused", hash_lengths),
        ("tree: roots by hand", roots_by_hand),
        ("tree: proof counts of the bench (P)", proof_counts),
        ("tree: every proof is accepted, damaged ones are not", proofs_accepted),
        ("head: written and read", heads),
        ("head: faults in reading order", head_faults),
        ("bench (P): Truncate alone, 89 bytes, 5,242,933", truncate_alone),
        ("bench (P): budget one below", budget_below),
        ("bench (P): Truncate then Write, by pieces", truncate_write),
        ("bench (P): Truncate's input last", truncate_last),
        ("bench (P): Copy and Swap of 1 2 3 4", copy_swap),
        ("bench (P): Read at the sector's end", read_end),
        ("bench (P): Truncate to 4,095 or 8,192", truncate_bad),
        ("bench (P): ids that differ in byte 31", close_ids),
        ("forming and dropping", forming),
        ("M-106: padded ids refused, in their turn", padded_ids),
        ("M-106: a contract held under a padded id stays usable", padded_id_held),
        ("bench: the depot program", depot_program),
        ("interrupts", interrupts),
        ("commits and slots", commits),
        ("stage slots", stage_slots),
        ("growing over a cut-off position", grow_over),
        ("reads of roots and of others", reads),
        ("agreements", agreements),
        ("nothing changed", nothing_changed),
        ("order of hosts", orders),
        ("the script player", script),
        ("M-103: sector sizes taken and refused", sizes_taken),
        ("M-103: hosts of larger sectors", larger_sectors),
        ("M-103: commits of larger sectors", larger_commits),
        ("M-103: a damaged sector size", damaged_sizes),
        ("M-103: sector sizes in scripts", sized_scripts),
        ("M-103: proofs of up to 4,194,304 segments", large_proofs),
        ("M-103: the checker in scripts", checker_in_scripts),
        ("M-105: roots and proofs from the roots of sectors", joined_roots),
        ("M-105: what changes kept roots", roots_kept),
        ("M-105: kept roots of larger sectors", larger_roots_kept),
        ("M-105: sound and unsound hosts", soundness),
        ("M-105: what follows from kept roots that are wrong", wrong_roots),
        ("M-105: a change that no kept root shows", unseen_change),
        ("M-105: kept roots in scripts", roots_in_scripts),
        ("M-105: random inputs, by kept roots and by roots worked out", as_worked_out),
        ("M-110: written, and read back by its root", read_back),
        ("M-110: overwritten and cut off, not found", gone),
        ("M-110: the parent before the others", parent_first),
        ("M-110: locate with and without a program", located),
        ("M-110: look-ups by kept roots that are wrong", located_by_wrong_roots),
        ("M-110: locate in scripts", locate_in_scripts),
        ("M-110: random inputs, the look-up beside a list in its order", looked_up_otherwise),
    ];
    for (name, test) in tests {
        test();
        println!("passed: {name}");
    }
    println!("{} passed", tests.len());
}

// Hash

fn hex(bytes: &[u8]) -> String {
    bytes.iter().map(|byte| format!("{byte:02X}")).collect()
}

fn abc() {
    let expected = "BA80A53F981C4D0D6A2797B69F12F6E94C212F14685AC4B74B12BB6FDBFFA2D1\
                    7D87C5392AAB792DC252D5DE4533CC9518D38AA8DBF1925AB92386EDD4009923";
    assert_eq!(hex(&hash(64, &[], b"abc").unwrap()), expected);
}

/// RFC 7693 Appendix E: a Fibonacci generator.
fn sequence(length: usize) -> Vec<u8> {
    let mut a = 0xDEAD4BADu32.wrapping_mul(length as u32);
    let mut b = 1u32;
    let mut bytes = Vec::new();
    for _ in 0..length {
        let t = a.wrapping_add(b);
        a = b;
        b = t;
        bytes.push((t >> 24) as u8);
    }
    bytes
}

fn self_test() {
    let mut all = Vec::new();
    for digest_length in [20, 32, 48, 64] {
        for length in [0, 3, 128, 129, 255, 1024] {
            let message = sequence(length);
            all.extend(hash(digest_length, &[], &message).unwrap());
            all.extend(hash(digest_length, &sequence(digest_length), &message).unwrap());
        }
    }
    assert_eq!(hex(&hash32(&all)), "C23A7800D98123BD10F506C61E29DA5603D763B8BBAD2E737F5E765A7BCCD475");
}

fn hash_lengths() {
    assert_eq!(hash(0, &[], b""), Err(2));
    assert_eq!(hash(65, &[], b""), Err(2));
    assert_eq!(hash(64, &[0; 65], b""), Err(2));
    assert_eq!(hash(1, &[0; 64], b"").unwrap().len(), 1);
    assert_eq!(hash(32, &[], b"x").unwrap(), hash32(b"x"));
}

// Tree

fn segments(count: usize) -> Vec<u8> {
    (0..count * 64).map(|i| (i / 64 * 31 + i) as u8).collect()
}

fn roots_by_hand() {
    let bytes = segments(5);
    let leaf = |i: usize| hash32(&[&[0u8][..], &bytes[i * 64..i * 64 + 64]].concat());
    let node = |l: [u8; 32], r: [u8; 32]| hash32(&[&[1u8][..], &l, &r].concat());
    assert_eq!(tree::root(&[]), [0; 32]);
    assert_eq!(tree::root(&bytes[..64]), leaf(0));
    assert_eq!(tree::root(&bytes[..128]), node(leaf(0), leaf(1)));
    assert_eq!(tree::root(&bytes[..192]), node(node(leaf(0), leaf(1)), leaf(2)));
    let four = node(node(leaf(0), leaf(1)), node(leaf(2), leaf(3)));
    assert_eq!(tree::root(&bytes[..256]), four);
    assert_eq!(tree::root(&bytes), node(four, leaf(4)));
}

/// "64 segments, range 0..1, 6; 0..64, none; 128 segments, 63..65, 12; 192 segments, 128..129, 7, and 0..1, 8."
fn proof_counts() {
    for (count, first, end, hashes) in [(64, 0, 1, 6), (64, 0, 64, 0), (128, 63, 65, 12), (192, 128, 129, 7), (192, 0, 1, 8)] {
        assert_eq!(tree::proof(&segments(count), first, end).len(), hashes);
    }
}

fn proofs_accepted() {
    for count in [1u64, 2, 3, 5, 7, 8, 64, 65] {
        let bytes = segments(count as usize);
        let root = tree::root(&bytes);
        for (first, end) in (0..count).flat_map(|f| [(f, f + 1), (f, count), (0, f + 1)]) {
            let part = &bytes[first as usize * 64..end as usize * 64];
            let mut hashes = tree::proof(&bytes, first, end).concat();
            assert!(tree::check(&root, count, first, end, part, &hashes));
            assert!(!tree::check(&root, count, first, end, &part[1..], &hashes));
            assert!(!tree::check(&root, count, end, first, part, &hashes));
            assert!(!tree::check(&root[..31], count, first, end, part, &hashes));
            assert!(!tree::check(&hash32(&root), count, first, end, part, &hashes));
            hashes.push(0);
            assert!(!tree::check(&root, count, first, end, part, &hashes));
            hashes.truncate(hashes.len().saturating_sub(2));
            assert!(hashes.is_empty() || !tree::check(&root, count, first, end, part, &hashes));
        }
    }
    assert!(!tree::check(&[0; 32], 0, 0, 0, &[], &[]));
    let more = segments(4097);
    assert!(tree::check(&tree::root(&more[..4096 * 64]), 4096, 0, 4096, &more[..4096 * 64], &[]));
    assert!(tree::check(&tree::root(&more), 4097, 0, 4097, &more, &[]));
}

// Heads

fn instruction(name: &str, operands: &[(u64, u64)]) -> Instruction {
    let mut made = Instruction { name: filled(name.as_bytes()), operand_count: operands.len() as u64, ..Instruction::default() };
    for (i, &(offset, length)) in operands.iter().enumerate() {
        made.operands[i] = Operand { offset, length };
    }
    made
}

fn head(contract: [u8; 32], instructions: &[Instruction], declared: u64) -> Head {
    let mut made = Head { contract, count: instructions.len() as u64, declared, ..Head::default() };
    made.instructions[..instructions.len()].copy_from_slice(instructions);
    made
}

fn heads() {
    let mut proved = instruction("Read", &[(0, 32), (32, 8), (40, 8)]);
    proved.proof = true;
    let made = head(A, &[proved, instruction("Truncate", &[(48, 8)])], 56);
    let bytes = head::encoded(&made);
    assert_eq!(head::read(&bytes), Ok(made.clone()));
    let mut area = vec![9u8; bytes.len() + 3];
    assert_eq!(head::write(&made, &mut area), (0, bytes.len() as u64));
    assert_eq!(area[..bytes.len()], bytes);
    assert_eq!(area[bytes.len()..], [9, 9, 9]);
    assert_eq!(head::write(&made, &mut area[..bytes.len() - 1]), (2, 0));
    let mut over = made.clone();
    over.declared = 65_537;
    assert_eq!(head::write(&over, &mut []), (10, 0));
    let mut over = made;
    over.instructions[1].operand_count = 5;
    assert_eq!(head::write(&over, &mut []), (10, 0));
}

fn head_faults() {
    let bytes = head::encoded(&head(A, &[instruction("Truncate", &[(0, 8)])], 8));
    assert_eq!(bytes.len(), 89);
    for length in 0..89 {
        assert_eq!(head::read(&bytes[..length]), Err(9));
    }
    assert_eq!(head::read(&[&bytes[..], &[0]].concat()), Err(9));
    let changed = |at: usize, value: u8| {
        let mut bytes = bytes.clone();
        bytes[at] = value;
        head::read(&bytes)
    };
    assert_eq!(changed(32, 33), Err(10));
    assert_eq!(changed(32, 32), Err(9));
    assert_eq!(changed(56, 5), Err(10));
    assert_eq!(changed(80, 2), Err(9));
    assert_eq!(changed(83, 1), Err(10));
    assert_eq!(changed(45, 7).unwrap().instructions[0].name[5], 7);
    // a count above its limit with nothing after it
    assert_eq!(head::read(&[&[0u8; 32][..], &33u64.to_le_bytes()].concat()), Err(10));
}

// The bench

/// A host with its areas.
struct Bench {
    host: Host,
    disk: Vec<u8>,
    stage: Vec<u8>,
    input: Vec<u8>,
    output: Vec<u8>,
}

/// Data being laid out, and the instructions that name its parts.
#[derive(Default)]
struct Layout {
    data: Vec<u8>,
    instructions: Vec<Instruction>,
}

impl Layout {
    fn add(mut self, name: &str, inputs: &[Vec<u8>]) -> Layout {
        let mut operands = Vec::new();
        for input in inputs {
            operands.push((self.data.len() as u64, input.len() as u64));
            self.data.extend(input);
        }
        self.instructions.push(instruction(name, &operands));
        self
    }
    fn proved(mut self) -> Layout {
        self.instructions.last_mut().unwrap().proof = true;
        self
    }
    fn numbers(self, name: &str, numbers: &[u64]) -> Layout {
        let inputs: Vec<Vec<u8>> = numbers.iter().map(|n| n.to_le_bytes().to_vec()).collect();
        self.add(name, &inputs)
    }
    fn write(self, offset: u64, data: &[u8]) -> Layout {
        self.add("Write", &[offset.to_le_bytes().to_vec(), counted(data)])
    }
    fn read(self, contract: [u8; 32], offset: u64, length: u64) -> Layout {
        self.add("Read", &[contract.to_vec(), offset.to_le_bytes().to_vec(), length.to_le_bytes().to_vec()])
    }
    fn read_sector(self, root: [u8; 32], offset: u64, length: u64) -> Layout {
        self.add("ReadSector", &[root.to_vec(), offset.to_le_bytes().to_vec(), length.to_le_bytes().to_vec()])
    }
}

fn counted(data: &[u8]) -> Vec<u8> {
    [&(data.len() as u64).to_le_bytes()[..], data].concat()
}

fn bench(disk: u64, stage: u64, ids: &[[u8; 32]]) -> Bench {
    bench_of(SECTOR, disk, stage, ids)
}

/// A host of sectors of this size.
fn bench_of(sector: u64, disk: u64, stage: u64, ids: &[[u8; 32]]) -> Bench {
    let (answer, mut host) = host::fresh(sector, disk * sector, stage * sector);
    assert_eq!(answer, 0);
    for id in ids {
        assert_eq!(host.form(id), 0);
    }
    let area = |sectors: u64| vec![0u8; (sectors * sector) as usize];
    Bench { host, disk: area(disk), stage: area(stage), input: vec![], output: vec![0; 16_384] }
}

/// Number, cost, size, root, proof hashes, output.
type Record = (u64, u64, u64, [u8; 32], Vec<u8>, Vec<u8>);

impl Bench {
    fn open(&mut self, contract: [u8; 32], layout: &Layout, budget: u64) -> u64 {
        let bytes = head::encoded(&head(contract, &layout.instructions, layout.data.len() as u64));
        self.input = vec![0; layout.data.len()];
        self.host.open(16_384, budget, PRICES, &bytes)
    }
    fn piece(&mut self, piece: &[u8]) -> u64 {
        self.host.piece(&self.disk, &mut self.stage, &mut self.input, &mut self.output, piece)
    }
    fn run(&mut self, contract: [u8; 32], layout: &Layout) -> Vec<Record> {
        assert_eq!(self.open(contract, layout, BUDGET), 0);
        assert_eq!(self.piece(&layout.data), 0);
        self.records()
    }
    fn records(&self) -> Vec<Record> {
        parse_records(&self.output[..self.host.program.written as usize])
    }
    fn numbers(&self) -> Vec<u64> {
        self.records().iter().map(|record| record.0).collect()
    }
    fn agree(&mut self) -> Closed {
        let (answer, size, root) = self.host.reached(&self.disk, &self.stage);
        assert_eq!(answer, 0);
        self.host.agree(&mut self.disk, &self.stage, size, &root)
    }
    fn run_and_commit(&mut self, contract: [u8; 32], layout: &Layout) -> Closed {
        let records = self.run(contract, layout);
        assert!(records.iter().all(|record| record.0 == 0), "{:?}", self.numbers());
        self.agree()
    }
    fn give_up(&mut self) -> Closed {
        self.host.give_up(&self.disk, &self.stage)
    }
    fn slots(&self, place: usize) -> Vec<u8> {
        self.host.places[place].slots[..(self.host.places[place].size / self.host.sector) as usize].to_vec()
    }
}

fn parse_records(mut bytes: &[u8]) -> Vec<Record> {
    let mut records = Vec::new();
    while !bytes.is_empty() {
        let mut reader = head::Reader { rest: bytes };
        let (number, cost, size) = (reader.number().unwrap(), reader.number().unwrap(), reader.number().unwrap());
        let root = reader.array().unwrap();
        let hashes = reader.number().unwrap();
        let proof = reader.bytes(32 * hashes).unwrap().to_vec();
        let length = reader.number().unwrap();
        let output = reader.bytes(length).unwrap().to_vec();
        records.push((number, cost, size, root, proof, output));
        bytes = reader.rest;
    }
    records
}

fn grow(sizes: &[u64]) -> Layout {
    grow_of(SECTOR, sizes)
}

fn grow_of(sector: u64, sizes: &[u64]) -> Layout {
    sizes.iter().fold(Layout::default(), |layout, &size| layout.numbers("Truncate", &[size * sector]))
}

fn truncate_alone() {
    let layout = grow(&[1]);
    assert_eq!(head::encoded(&head(A, &layout.instructions, 8)).len(), 89);
    let mut bench = bench(8, 4, &[A]);
    assert_eq!(bench.open(A, &layout, 5_242_933), 0);
    assert_eq!(bench.piece(&layout.data), 0);
    assert_eq!(bench.host.program.tally, 5_242_933);
    let records = bench.records();
    assert_eq!((records[0].0, records[0].1, records[0].2), (0, 5_242_926, 4096));
    assert_eq!(bench.agree(), Closed { answer: 0, tally: 5_242_933, growth: 4096 });
}

/// "Budget 5,242,932, empty contract: 28, tally 7. Whole record: 1C, then 71 zero bytes."
fn budget_below() {
    let layout = grow(&[1]);
    let mut bench = bench(8, 4, &[A]);
    assert_eq!(bench.open(A, &layout, 5_242_932), 0);
    assert_eq!(bench.piece(&layout.data), 0);
    assert_eq!((bench.host.program.tally, bench.host.program.written), (7, 72));
    assert_eq!(bench.output[0], 0x1C);
    assert!(bench.output[1..72].iter().all(|&byte| byte == 0));
    assert_eq!(bench.agree().answer, 13);
    assert_eq!(bench.give_up(), Closed { answer: 0, tally: 7, growth: 0 });
}

fn truncate_write() {
    let layout = grow(&[1]).write(0, &[0x5A; 64]);
    assert_eq!(layout.instructions[1].operands[..2], [Operand { offset: 8, length: 8 }, Operand { offset: 16, length: 72 }]);
    let mut bench = bench(8, 4, &[A]);
    assert_eq!(bench.open(A, &layout, BUDGET), 0);
    let mut records = Vec::new();
    for (from, to) in [(0, 7), (7, 8), (8, 87), (87, 88)] {
        assert_eq!(bench.piece(&layout.data[from..to]), 0);
        records.push(bench.records().len());
    }
    assert_eq!(records, [0, 1, 1, 2]);
    assert_eq!(bench.host.program.tally, 26_216_874);
    assert_eq!(bench.piece(&[0]), 12);
}

fn truncate_last() {
    let data = [&0u64.to_le_bytes()[..], &counted(&[1; 64]), &4096u64.to_le_bytes()].concat();
    let layout =
        Layout { data, instructions: vec![instruction("Truncate", &[(80, 8)]), instruction("Write", &[(0, 8), (8, 72)])] };
    let mut bench = bench(8, 4, &[A]);
    assert_eq!(bench.open(A, &layout, BUDGET), 0);
    assert_eq!(bench.piece(&layout.data[..87]), 0);
    assert_eq!(bench.records().len(), 0);
    assert_eq!(bench.piece(&layout.data[87..]), 0);
    assert_eq!(bench.records().len(), 2);
}

/// "On 1 2 3 4: Copy(1, 0, 3) gives 1 1 2 3." "Same bytes: Swap(0, 1, 3) gives 2 3 4 3."
fn copy_swap() {
    for (name, numbers, expected) in [("Copy", [1, 0, 3], [1, 1, 2, 3]), ("Swap", [0, 1, 3], [2, 3, 4, 3])] {
        let mut bench = bench(8, 4, &[A]);
        let layout = grow(&[1]).write(0, &[1, 2, 3, 4]).numbers(name, &numbers).read(A, 0, 4);
        let records = bench.run(A, &layout);
        assert_eq!(records[3].5, expected);
        assert_eq!(records[2].3, tree::root(&[&expected[..], &[0; 4092]].concat()));
    }
}

fn read_end() {
    let mut bench = bench(8, 4, &[A]);
    bench.run_and_commit(A, &grow(&[1]));
    assert_eq!(bench.run(A, &Layout::default().read(A, 4095, 1))[0].0, 0);
    assert_eq!(bench.give_up().answer, 0);
    assert_eq!(bench.run(A, &Layout::default().read(A, 4095, 2))[0].0, 26);
}

fn truncate_bad() {
    for size in [4095, 8192] {
        let mut bench = bench(8, 4, &[A]);
        assert_eq!(bench.run(A, &Layout::default().numbers("Truncate", &[size]))[0].0, 26);
    }
}

fn close_ids() {
    let mut other = A;
    other[31] ^= 1;
    let bench = bench(8, 4, &[A, other]);
    assert!(bench.host.places[0].held && bench.host.places[1].held);
}

fn forming() {
    assert_eq!(host::fresh(4096, 4096, 0).0, 2);
    assert_eq!(host::fresh(4096, 65 * 4096, 4096).0, 2);
    assert_eq!(host::fresh(4096, 4097, 4096).0, 2);
    assert_eq!(host::fresh(4096, 4096, 17 * 4096).0, 2);
    let (_, mut none) = host::fresh(4096, 0, 0);
    assert_eq!(none.form(&A), 1);
    let mut bench = bench(8, 4, &[A, B]);
    let read_only = head::read_only_word();
    assert_eq!(bench.host.form(&read_only), 5);
    assert_eq!(bench.host.form(&A), 6);
    for i in 1..7 {
        assert_eq!(bench.host.form(&[i; 32]), 0);
    }
    assert_eq!(bench.host.form(&[9; 32]), 8);
    assert_eq!(bench.host.drop(&[9; 32]), 7);
    assert_eq!(bench.host.drop(&read_only), 5);
    assert_eq!(bench.host.drop(&B), 0);
    assert_eq!(bench.host.form(&[9; 32]), 0);
    assert_eq!(bench.host.find(&[9; 32]), Some(1));
    assert_eq!(bench.open(A, &Layout::default(), 7), 0);
    assert_eq!((bench.host.form(&A), bench.host.drop(&A)), (3, 3));
}

/// Ids of which `at` is the only byte that is not zero.
fn one_byte(at: usize) -> [u8; 32] {
    let mut id = [0; 32];
    id[at] = 1;
    id
}

/// "Forming shall refuse any id whose last 28 bytes are all zero, the zero id included, with the new number 15, checked right after
/// 5."
fn padded_ids() {
    let short: [[u8; 32]; 6] = [[0; 32], filled(b"old1"), filled(&[255; 4]), filled(b"Read"), one_byte(0), one_byte(3)];
    let (_, mut none) = host::fresh(4096, 0, 0);
    for id in &short {
        assert!(host::padded(id));
        assert_eq!(none.form(id), 1);
        let mut bench = bench(8, 4, &[A]);
        assert_eq!(bench.host.form(id), 15);
        assert!(bench.host.places[1..].iter().all(|place| !place.held));
        // before 6: the id is held; before 8: no place is free; both
        hold(&mut bench, 3, *id);
        assert_eq!(bench.host.form(id), 15);
        assert_eq!(bench.host.drop(id), 0);
        for i in 1..8 {
            assert_eq!(bench.host.form(&[i; 32]), 0);
        }
        assert_eq!((bench.host.form(&[8; 32]), bench.host.form(id)), (8, 15));
        assert_eq!(bench.host.drop(&A), 0);
        hold(&mut bench, 0, *id);
        assert_eq!((bench.host.form(&[8; 32]), bench.host.form(id)), (8, 15));
        // behind 3; dropping answers 7
        assert_eq!(bench.open([1; 32], &Layout::default(), 7), 0);
        assert_eq!((bench.host.form(id), bench.host.drop(id)), (3, 3));
        bench.give_up();
        assert_eq!((bench.host.drop(id), bench.host.drop(id)), (0, 7));
        assert_eq!(bench.open(*id, &Layout::default(), 7), 7);
    }
    // 5 before 15: the ReadOnly word, whose "Only" stands in bytes 4 to 7
    assert!(!host::padded(&head::read_only_word()));
    assert_eq!(bench(8, 4, &[]).host.form(&head::read_only_word()), 5);
    for at in 4..32 {
        assert_eq!(bench(8, 4, &[]).host.form(&one_byte(at)), 0);
    }
    let bench = bench(8, 4, &[one_byte(4), one_byte(31), filled(b"old1\x01"), filled(b"ReadO")]);
    assert_eq!(bench.host.find(&one_byte(31)), Some(1));
}

/// A contract under this id in a place, as a host that was made before M-106 may hold it.
fn hold(bench: &mut Bench, place: usize, id: [u8; 32]) {
    bench.host.places[place] = host::Place { held: true, id, ..host::EMPTY_PLACE };
    assert!(bench.host.in_order());
}

/// "Contracts already held stay usable."
fn padded_id_held() {
    for id in [[0; 32], filled(b"old1")] {
        let mut bench = bench(8, 4, &[A, B]);
        hold(&mut bench, 2, id);
        assert_eq!(bench.run_and_commit(id, &grow(&[1, 2]).write(4096, b"snack")).growth, 2 * 4096);
        assert_eq!((bench.host.form(&id), bench.host.in_order()), (15, true));
        let read = |from: [u8; 32]| Layout::default().read(from, 4096, 5);
        for contract in [A, id, head::read_only_word()] {
            assert_eq!(bench.run(contract, &read(id))[0].5, *b"snack");
            assert_eq!(bench.agree().answer, 0);
        }
        assert_eq!(bench.run_and_commit(id, &grow(&[1])).growth, -4096);
        assert_eq!((bench.slots(2), bench.host.drop(&id)), (vec![0], 0));
        assert_eq!(bench.run(A, &read(id))[0].0, 25);
        bench.give_up();
        assert_eq!((bench.open(id, &read(A), BUDGET), bench.host.form(&id)), (7, 15));
    }
}

fn depot_input(prices: &[u64], budget: u64, ids: &[[u8; 32]], head: &[u8], data: &[u8]) -> Vec<u8> {
    let mut bytes = Vec::new();
    let numbers = [&[prices.len() as u64], prices, &[budget, ids.len() as u64]].concat();
    bytes.extend(numbers.iter().flat_map(|number| number.to_le_bytes()));
    bytes.extend(ids.concat());
    bytes.extend((head.len() as u64).to_le_bytes());
    bytes.extend(head);
    bytes.extend(data);
    bytes
}

fn depot_program() {
    let prices: Vec<u64> = PRICES.iter().map(|&price| price as u64).collect();
    let layout = grow(&[1]);
    let head_bytes = head::encoded(&head(A, &layout.instructions, 8));
    let play = |budget, ids: &[[u8; 32]], head: &[u8], data: &[u8]| depot::play(&depot_input(&prices, budget, ids, head, data));
    let refusal = |number: u64| number.to_le_bytes().to_vec();
    let mut record = vec![0u8; 72];
    record[0] = 0x1C;
    assert_eq!(play(5_242_932, &[A], &head_bytes, &layout.data), record);
    let good = play(5_242_933, &[A], &head_bytes, &layout.data);
    assert_eq!(good[..24], [0u64, 5_242_926, 4096].map(u64::to_le_bytes).concat());
    assert_eq!(good[24..56], tree::root(&[0; 4096]));
    assert_eq!(play(6, &[A], &head_bytes, &layout.data), refusal(11));
    assert_eq!(play(7, &[B], &head_bytes, &layout.data), refusal(7));
    assert_eq!(play(7, &[A, A], &head_bytes, &layout.data), refusal(6));
    assert_eq!(play(7, &[A, head::read_only_word()], &head_bytes, &layout.data), refusal(5));
    let nine: Vec<[u8; 32]> = (1..10).map(|i| [i; 32]).collect();
    assert_eq!(play(7, &nine, &head_bytes, &layout.data), refusal(8));
    assert_eq!(play(7, &[&nine[..8], &[filled(b"old1")]].concat(), &head_bytes, &layout.data), refusal(15));
    assert_eq!(play(7, &[A, [0; 32], A], &head_bytes, &layout.data), refusal(15));
    assert_eq!(play(7, &[A, A, [0; 32]], &head_bytes, &layout.data), refusal(6));
    let short_head = head::encoded(&head(filled(b"old1"), &layout.instructions, 8));
    assert_eq!(play(7, &[A], &short_head, &layout.data), refusal(7));
    assert_eq!(play(7, &[A], &head_bytes[..88], &layout.data), refusal(9));
    assert_eq!(play(BUDGET, &[A], &head_bytes, &[0; 9]), refusal(12));
    assert_eq!(play(BUDGET, &[A], &head_bytes, &[0; 7]), refusal(13));
    assert_eq!(play(BUDGET, &[A], &head::encoded(&head(A, &[], 0)), &[]), Vec::<u8>::new());
    assert_eq!(depot::play(&depot_input(&prices[..6], 7, &[A], &head_bytes, &[])), refusal(9));
    assert_eq!(depot::play(&depot_input(&[7, 1, 65_536, 2, 5, 4, 6], 7, &[A], &head_bytes, &[])), refusal(9));
    let whole = depot_input(&prices, 7, &[A], &head_bytes, &[]);
    for length in 0..whole.len() {
        assert_eq!(depot::play(&whole[..length]), refusal(9));
    }
    let mut wrapping = depot_input(&prices, 7, &[], &head_bytes, &[]);
    wrapping[72..80].copy_from_slice(&(1u64 << 59).to_le_bytes());
    assert_eq!(depot::play(&wrapping), refusal(9));
}

fn interrupts() {
    let mut bench = bench(8, 4, &[A]);
    bench.run_and_commit(A, &grow(&[1]).write(0, b"snack"));
    let layout = grow(&[2]).write(4096, &[7; 100]);
    assert_eq!(bench.host.interrupt(&bench.disk, &mut bench.output), 4);
    assert_eq!(bench.open(A, &layout, BUDGET), 0);
    assert_eq!(bench.piece(&layout.data[..50]), 0);
    assert_eq!(bench.numbers(), [0]);
    assert_eq!(bench.host.interrupt(&bench.disk, &mut bench.output), 0);
    let records = bench.records();
    let (size, root) = bench.host.starting_pair(&bench.disk);
    assert_eq!(records[1], (20, 0, size, root, vec![], vec![]));
    assert_eq!(bench.host.interrupt(&bench.disk, &mut bench.output), 0);
    assert_eq!(bench.records().len(), 2);
    assert_eq!(bench.piece(&layout.data[50..]), 0);
    assert_eq!((bench.records().len(), bench.host.program.came), (2, layout.data.len() as u64));
    assert_eq!(bench.host.reached(&bench.disk, &bench.stage), (0, size, root));
    assert_eq!(bench.agree().answer, 13);
    assert_eq!(bench.give_up().growth, 0);
}

fn commits() {
    let mut bench = bench(8, 4, &[A, B]);
    assert_eq!(bench.run_and_commit(A, &grow(&[1, 2, 3])).growth, 3 * 4096);
    assert_eq!(bench.run_and_commit(B, &grow(&[1, 2]).write(0, b"b").write(4096, b"bb")).growth, 2 * 4096);
    assert_eq!((bench.slots(0), bench.slots(1)), (vec![0, 1, 2], vec![3, 4]));
    assert_eq!(bench.run_and_commit(A, &grow(&[2, 1])).growth, -2 * 4096);
    assert_eq!(bench.host.places[0].slots, [0; 64]);
    assert_eq!(bench.run_and_commit(B, &grow(&[3, 4, 5])).growth, 3 * 4096);
    assert_eq!((bench.slots(0), bench.slots(1)), (vec![0], vec![3, 4, 1, 2, 5]));
    assert_eq!(bench.disk[3 * 4096..3 * 4096 + 2], *b"b\0");
    assert_eq!(bench.disk[4 * 4096..4 * 4096 + 2], *b"bb");
    let (size, root) = bench.host.starting_pair(&bench.disk);
    assert_eq!((size, root), (0, [0; 32]));
    assert_eq!(bench.host.drop(&A), 0);
    assert_eq!(bench.host.form(&[1; 32]), 0);
    assert_eq!(bench.run_and_commit([1; 32], &grow(&[1, 2, 3])).growth, 3 * 4096);
    assert_eq!(bench.slots(0), [0, 6, 7]);
    assert_eq!(bench.run(B, &grow(&[6]))[0].0, 41);
}

fn stage_slots() {
    let mut bench = bench(8, 2, &[A]);
    bench.run_and_commit(A, &grow(&[1, 2]));
    bench.run_and_commit(A, &grow(&[3, 4]));
    let swap = Layout::default().numbers("Swap", &[0, 3 * 4096, 1]);
    bench.run(A, &swap);
    assert_eq!((bench.host.program.staged[0], bench.host.program.staged[3]), (1, 0));
    bench.give_up();
    let records = bench.run(A, &Layout::default().write(0, b"x").numbers("Swap", &[4096, 8192, 5]));
    assert_eq!((records[0].0, records[1].0), (0, 40));
    bench.give_up();
    let layout = Layout::default().write(0, b"x").numbers("Swap", &[0, 1, 1]).numbers("Copy", &[4096, 8192, 9]).write(8192, b"y");
    let numbers: Vec<u64> = bench.run(A, &layout).iter().map(|record| record.0).collect();
    assert_eq!(numbers, [0, 0, 0, 40]);
    bench.give_up();
    let layout = Layout::default().write(3 * 4096, b"x").write(0, b"y").numbers("Truncate", &[3 * 4096]).write(4096, b"z");
    bench.run(A, &layout);
    assert_eq!(bench.host.program.staged[..4], [1, 0, NONE, NONE]);
}

/// "at commit that position is a kept one and keeps its disk slot" (decision 22).
fn grow_over() {
    let mut bench = bench(8, 4, &[A, B]);
    bench.run_and_commit(A, &grow(&[1, 2]).write(4096, b"old"));
    bench.run_and_commit(B, &grow(&[1]));
    let records = bench.run(A, &grow(&[1, 2]).read(A, 4096, 3));
    assert_eq!(records[2].5, [0, 0, 0]);
    assert_eq!(bench.disk[4096..4099], *b"old");
    assert_eq!(bench.agree().growth, 0);
    assert_eq!(bench.slots(0), [0, 1]);
    assert_eq!(bench.disk[4096..4099], [0, 0, 0]);
}

fn reads() {
    let mut bench = bench(8, 4, &[A, B]);
    bench.run_and_commit(A, &grow(&[1, 2, 3]).write(4096, &[5; 4096]));
    bench.run_and_commit(B, &grow(&[1]).write(0, &[5; 4096]));
    let five = tree::root(&[5; 4096]);
    // the parent's sector is overwritten, and another contract's equal one is found
    let layout = Layout::default().write(4096, &[6; 4096]).read_sector(five, 64, 64).proved().read(A, 4096, 1);
    let records = bench.run(A, &layout);
    assert_eq!((records[1].0, records[1].5.clone(), records[2].5.clone()), (0, vec![5; 64], vec![6]));
    assert!(tree::check(&five, 64, 1, 2, &records[1].5, &records[1].4));
    assert_eq!(records[1].3, records[0].3);
    bench.give_up();
    assert_eq!(bench.run(A, &Layout::default().read_sector(tree::root(&[6; 4096]), 0, 1))[0].0, 25);
    bench.give_up();
    let read_only = head::read_only_word();
    let records = bench.run(read_only, &Layout::default().read(B, 0, 64).proved().read_sector(five, 4032, 64));
    assert_eq!((records[0].2, records[0].3, records[0].4.len()), (0, [0; 32], 6 * 32));
    assert_eq!(records[1].0, 0);
    assert_eq!(bench.agree(), Closed { answer: 0, tally: bench_tally(&records), growth: 0 });
    for (layout, number) in [
        (Layout::default().read(read_only, 0, 1), 25),
        (grow(&[1]), 24),
        (Layout::default().add("Write", &[vec![0; 8], vec![1; 8]]), 23),
        (Layout::default().add("Write", &[vec![0; 8], vec![0; 7]]), 23),
        (Layout::default().read(A, 1, 64).proved(), 27),
        (Layout::default().read(A, 0, 0), 26),
        (Layout::default().read(A, 4095, 2), 26),
        (Layout::default().read(A, u64::MAX, 2), 26),
        (Layout::default().read_sector(five, 4096, 1), 26),
        (Layout::default().add("Read\0x", &[]), 21),
        (Layout::default().add("Truncate", &[]), 21),
    ] {
        assert_eq!(bench.run(read_only, &layout)[0].0, number);
        bench.give_up();
    }
}

/// M-104: "closes with 0 whatever pair is given, and nothing is committed, its stage copies included"; "A read-only program falls under the
/// same rule."
fn nothing_changed() {
    let mut bench = bench(8, 3, &[A, B]);
    bench.run_and_commit(A, &grow(&[1, 2]).write(5, b"crisps"));
    bench.run_and_commit(B, &grow(&[1]));
    let (size, root) = (8192, tree::root(&bench.disk[..8192]));
    let read_only = head::read_only_word();
    let still = [
        (A, Layout::default(), 0),
        (A, Layout::default().read(B, 0, 64), 0),
        (A, Layout::default().write(5, b"crisps"), 1),
        (A, Layout::default().write(5, b"peanut").write(5, b"crisps"), 1),
        (A, Layout::default().numbers("Swap", &[0, 4096, 64]).numbers("Swap", &[0, 4096, 64]), 2),
        (A, Layout::default().numbers("Copy", &[5, 5, 6]), 1),
        (A, Layout::default().numbers("Truncate", &[12_288]).numbers("Truncate", &[8192]), 0),
        (A, Layout::default().numbers("Truncate", &[4096]).numbers("Truncate", &[8192]), 1),
        (A, Layout::default().numbers("Truncate", &[8192]), 0),
        (read_only, Layout::default().read(A, 0, 64), 0),
    ];
    for (contract, layout, staged) in still {
        for (size, root) in [(size, root), (size, [0; 32]), (0, root), (0, [0; 32]), (12_288, [1; 32])] {
            let tally = bench_tally(&bench.run(contract, &layout));
            assert_eq!(bench.host.program.staged.iter().filter(|&&slot| slot != NONE).count(), staged);
            let (places, disk) = (bench.host.places, bench.disk.clone());
            let closed = bench.host.agree(&mut bench.disk, &bench.stage, size, &root);
            assert_eq!(closed, Closed { answer: 0, tally, growth: 0 });
            assert!(bench.host.places == places && bench.disk == disk && !bench.host.program.open);
        }
    }
    // the size as it was and the root another; the root as it was cannot be with another size
    let changed = Layout::default().write(5, b"crisp!");
    bench.run(A, &changed);
    assert_eq!(bench.host.agree(&mut bench.disk, &bench.stage, size, &root).answer, 14);
    bench.run_and_commit(A, &changed);
    assert_eq!(bench.disk[5..11], *b"crisp!");
    // 13 comes first: not ended, and failed
    assert_eq!(bench.open(A, &changed, BUDGET), 0);
    assert_eq!(bench.agree().answer, 13);
    assert_eq!(bench.piece(&[0; 1]), 0);
    assert_eq!(bench.host.interrupt(&bench.disk, &mut bench.output), 0);
    assert_eq!(bench.agree().answer, 13);
}

fn bench_tally(records: &[Record]) -> u64 {
    7 + records.iter().map(|record| record.1).sum::<u64>()
}

fn agreements() {
    let mut bench = bench(8, 4, &[A]);
    let layout = grow(&[1]);
    assert_eq!(bench.host.agree(&mut bench.disk, &bench.stage, 0, &[0; 32]).answer, 4);
    assert_eq!(bench.host.agree(&mut bench.disk[..4096], &bench.stage, 0, &[0; 32]).answer, 2);
    assert_eq!(bench.open(A, &layout, BUDGET), 0);
    assert_eq!(bench.host.agree(&mut bench.disk, &bench.stage, 0, &[0; 32]).answer, 13);
    assert_eq!(bench.piece(&layout.data), 0);
    let root = tree::root(&[0; 4096]);
    assert_eq!(bench.host.agree(&mut bench.disk, &bench.stage, 0, &root), Closed { answer: 14, tally: 5_242_933, growth: 0 });
    assert_eq!((bench.host.places[0].size, bench.host.program.open), (0, false));
    bench.run(A, &layout);
    assert_eq!(bench.host.agree(&mut bench.disk, &bench.stage, 4096, &[0; 32]).answer, 14);
    bench.run(A, &layout);
    assert_eq!(bench.host.agree(&mut bench.disk, &bench.stage, 4096, &root).growth, 4096);
    // 22: an offset plus length that wraps, and one of length 0 past the declared length
    for operand in [(u64::MAX, 2), (1, 0)] {
        let layout = Layout { data: vec![], instructions: vec![instruction("Truncate", &[operand])] };
        assert_eq!(bench.run(A, &layout)[0].0, 22);
        bench.give_up();
    }
}

fn orders() {
    let mut bench = bench(8, 4, &[A, B]);
    bench.run_and_commit(A, &grow(&[1, 2]));
    bench.run(A, &grow(&[3]).write(0, b"x"));
    assert!(bench.host.in_order());
    let damages: [fn(&mut Host); 22] = [
        |h| h.disk_sectors = 65,
        |h| h.stage_sectors = 0,
        |h| h.disk_sectors = 2,
        |h| h.stage_sectors = 1,
        |h| h.places[1].id = A,
        |h| h.places[1].id = head::read_only_word(),
        |h| h.places[0].size += 1,
        |h| h.places[0].slots[1] = 0,
        |h| h.places[0].slots[1] = 8,
        |h| h.places[0].id[0] ^= 1,
        |h| h.program.head.count = 33,
        |h| h.program.head.declared = 65_537,
        |h| h.program.head.instructions[1].operand_count = 5,
        |h| h.program.output_length = 71,
        |h| h.program.came = h.program.head.declared + 1,
        |h| h.program.ran = 3,
        |h| h.program.tally = BUDGET + 1,
        |h| h.program.written = 16_384 - 71,
        |h| h.program.running = 2 * SECTOR,
        |h| h.program.running = 4 * SECTOR,
        |h| h.program.staged[0] = h.program.staged[2],
        |h| h.program.staged[0] = 4,
    ];
    for (i, damage) in damages.iter().enumerate() {
        let mut host = bench.host.clone();
        damage(&mut host);
        assert!(!host.in_order(), "damage {i}");
        assert_eq!(host.form(&[3; 32]), 1);
    }
    let harmless: [fn(&mut Host); 6] = [
        |h| h.program.tally = 0,
        |h| h.program.failed = true,
        |h| (h.program.failed, h.program.written) = (true, 16_384),
        |h| h.places[7].slots[0] = 200,
        |h| h.program.head.instructions[2].operand_count = 5,
        |h| h.program.staged[0] = NONE,
    ];
    for (i, change) in harmless.iter().enumerate() {
        let mut host = bench.host.clone();
        change(&mut host);
        assert!(host.in_order(), "change {i}");
    }
}

fn script() {
    let fresh = Item::Fresh { disk: 8192, stage: 4096, fill: 7 };
    let mut bytes = calls::item_bytes(&fresh);
    bytes.extend(calls::item_bytes(&Item::Form { id: A }));
    let out = calls::play(&bytes);
    // answer, tally, growth; sector size, disk, stage; 8 places; no program; 4 digests of areas, 2 of kept roots
    let first = 3 * 8 + 3 * 8 + 8 * 8 + 8 + 6 * 32;
    assert_eq!(out.len(), first + first + 32 + 8);
    let digests = [262_144, 65_536, 65_536, 65_536].map(|length| hash32(&vec![7; length]));
    assert_eq!(out[first - 192..first - 64], digests.concat());
    assert_eq!(out[first - 64..first], [hash32(&[0; 2_048]), hash32(&[0; 512])].concat());
    bytes.push(b'?');
    assert_eq!(calls::play(&bytes), out);
    bytes.pop();
    bytes.extend(calls::item_bytes(&Item::Reached { disk: 262_145, stage: 0 }));
    assert_eq!(calls::play(&bytes), out);
}

// M-103

/// Sizes that are no power of two, too small or too large.
const BAD_SIZES: [u64; 17] = [
    0,
    1,
    64,
    2_048,
    4_095,
    4_097,
    6_144,
    12_288,
    4_194_303,
    4_194_305,
    6_291_456,
    1 << 23,
    1 << 32,
    1 << 44,
    1 << 63,
    (1 << 63) + 1,
    u64::MAX,
];

/// "any power of two from 4,096 to 4,194,304, else 2"
fn sizes_taken() {
    let made = |host: &Host| (host.sector, host.disk_sectors, host.stage_sectors);
    for bits in 12..=22 {
        let z = 1u64 << bits;
        for (disk, stage) in [(1, 1), (64, 16), (8, 4)] {
            let (answer, mut host) = host::fresh(z, disk * z, stage * z);
            assert_eq!((answer, made(&host)), (0, (z, disk, stage)));
            assert_eq!((host.in_order(), host.form(&A)), (true, 0));
        }
        let bad = [0, 1, z - 1, z + 1, z / 2, 65 * z, 64 * z + 1, u64::MAX, 1 << 63];
        for (disk, stage) in bad.iter().flat_map(|&length| [(length, z), (z, length), (length, length)]).chain([(z, 17 * z)]) {
            let (answer, mut host) = host::fresh(z, disk, stage);
            assert_eq!((answer, made(&host)), (2, (0, 0, 0)));
            assert_eq!((host.in_order(), host.form(&A)), (false, 1));
        }
    }
    for z in BAD_SIZES {
        for length in [z, z.saturating_mul(8), 4_096, 8_192, 0, 4_194_304, 12_288] {
            let (answer, host) = host::fresh(z, length, length);
            assert_eq!((answer, made(&host), host.in_order()), (2, (0, 0, 0), false));
        }
    }
}

/// "In 01, read "4,096" in 26, Truncate and commit as the host's size."
fn larger_sectors() {
    for z in [8_192, 65_536, 1_048_576, 4_194_304] {
        let mut bench = bench_of(z, 3, 2, &[A, B]);
        // grown by one sector, not by 4,096 and not by two
        for (size, number) in [(4_096, 26), (z / 2, 26), (z - 1, 26), (z + 4_096, 26), (2 * z, 26), (z, 0), (0, 0)] {
            assert_eq!(bench.run(A, &Layout::default().numbers("Truncate", &[size]))[0].0, number, "{z}: {size}");
            bench.give_up();
        }
        // across edges of 4,096 bytes, within a sector
        let long: Vec<u8> = (0..5_000).map(|i| (i % 251) as u8).collect();
        let layout = grow_of(z, &[1, 2]).write(4_090, b"crisps and nuts").write(z + z - 5_000, &long).write(z - 1, b"!");
        assert_eq!(bench.run_and_commit(A, &layout).growth, 2 * z as i64);
        assert_eq!(bench.disk[4_090..4_105], *b"crisps and nuts");
        assert_eq!((bench.disk[z as usize - 1], &bench.disk[2 * z as usize - 5_000..2 * z as usize]), (b'!', &long[..]));
        // spans at the sector's edge and across it
        for (offset, length, number) in [
            (z - 1, 1, 0),
            (z - 1, 2, 26),
            (z, 1, 0),
            (z - 4_096, 4_096, 0),
            (z - 4_096, 4_097, 26),
            (4_095, 2, 0),
            (2 * z - 1, 1, 0),
            (2 * z, 1, 26),
            (2 * z - 1, 2, 26),
        ] {
            assert_eq!(bench.run(A, &Layout::default().read(A, offset, length))[0].0, number, "{z}: {offset}, {length}");
            bench.give_up();
            let copy = Layout::default().numbers("Copy", &[offset, 0, length]);
            assert_eq!(bench.run(A, &copy)[0].0, if number == 0 { 0 } else { 26 });
            bench.give_up();
        }
        // proofs: of the contract, and of a sector found by its root, across an edge of 4,096
        let sector_root = tree::root(&bench.disk[..z as usize]);
        let root = tree::root(&bench.disk[..2 * z as usize]);
        let layout = Layout::default().read(A, 4_032, 128).proved().read_sector(sector_root, 4_032, 128).proved();
        let layout = layout.read(A, z - 64, 64).proved().read_sector(sector_root, z - 1, 2);
        let records = bench.run(A, &layout);
        assert_eq!(records.iter().map(|record| record.0).collect::<Vec<u64>>(), [0, 0, 0, 26]);
        assert_eq!((records[0].2, records[0].3), (2 * z, root));
        assert!(tree::check(&root, 2 * z / 64, 63, 65, &records[0].5, &records[0].4));
        assert!(tree::check(&sector_root, z / 64, 63, 65, &records[1].5, &records[1].4));
        assert!(tree::check(&root, 2 * z / 64, z / 64 - 1, z / 64, &records[2].5, &records[2].4));
        bench.give_up();
        // areas of other lengths
        for length in [3 * 4_096, z as usize, 3 * z as usize - 1] {
            assert_eq!(bench.host.reached(&bench.disk[..length], &bench.stage).0, 2);
        }
        assert_eq!(bench.host.reached(&bench.disk, &bench.stage[..2 * 4_096]).0, 2);
        assert_eq!(bench.host.reached(&bench.disk, &bench.stage).0, 4);
    }
}

/// "Commit: positions past the final size free their slots; ... staged sectors are copied there", whole sectors of the host's size.
fn larger_commits() {
    let z = 16_384;
    let mut bench = bench_of(z, 4, 2, &[A, B]);
    bench.disk.fill(7);
    bench.stage.fill(9);
    assert_eq!(bench.run_and_commit(A, &grow_of(z, &[1, 2])).growth, 2 * z as i64);
    assert_eq!(bench.run_and_commit(B, &grow_of(z, &[1]).write(z - 3, b"end")).growth, z as i64);
    assert_eq!((bench.slots(0), bench.slots(1)), (vec![0, 1], vec![2]));
    assert!(bench.disk[..3 * 16_384 - 3].iter().all(|&byte| byte == 0) && bench.disk[3 * 16_384..].iter().all(|&byte| byte == 7));
    // swapped across sectors; the stage takes offset 2's sector first
    let layout = Layout::default().write(z + 5, b"raisins").numbers("Swap", &[z + 4, z - 9, 9]).read(A, z - 9, 9);
    assert_eq!(bench.run(A, &layout)[2].5, *b"\0raisins\0");
    assert_eq!(bench.host.program.staged[..2], [1, 0]);
    assert_eq!(bench.agree().answer, 0);
    assert_eq!(bench.disk[16_384 - 9..16_384], *b"\0raisins\0");
    assert_eq!(bench.run(A, &grow_of(z, &[1, 2, 3]))[2].0, 0);
    assert_eq!(bench.agree().growth, z as i64);
    assert_eq!(bench.run(B, &grow_of(z, &[2]))[0].0, 41);
    bench.give_up();
    assert_eq!(bench.run(A, &Layout::default().write(0, b"x").write(z, b"y").write(2 * z, b"z"))[2].0, 40);
}

/// "a host holding another is not in order": ahead of all other conditions, and of 2.
fn damaged_sizes() {
    let mut bench = bench(8, 4, &[A]);
    assert_eq!(bench.open(A, &grow(&[1, 2]), BUDGET), 0);
    for z in BAD_SIZES {
        let mut host = bench.host.clone();
        host.sector = z;
        (host.disk_sectors, host.stage_sectors) = (u64::MAX, u64::MAX);
        host.places[0].size = u64::MAX;
        host.program.running = u64::MAX;
        assert_eq!(host.disorder(), Some("sector size a power of two from 4,096 to 4,194,304"));
        for mut host in [host, Host { sector: z, ..bench.host.clone() }] {
            assert_eq!((host.form(&B), host.drop(&A), host.open(72, 7, PRICES, &[])), (1, 1, 1));
            assert_eq!(host.piece(&[], &mut [], &mut [], &mut [], &[]), 1);
            assert_eq!(host.interrupt(&[], &mut []), 1);
            assert_eq!(host.reached(&[], &[]), (1, 0, [0; 32]));
            assert_eq!((host.give_up(&[], &[]).answer, host.agree(&mut [], &[], 0, &[0; 32]).answer), (1, 1));
        }
    }
    // another size that hosts have: in order, with other lengths to lend, and other edges
    bench.give_up();
    bench.run_and_commit(A, &grow(&[1, 2]).write(0, b"old"));
    bench.host.sector = 8_192;
    assert!(bench.host.in_order());
    assert_eq!((bench.host.disk_length(), bench.host.reached(&bench.disk, &bench.stage).0), (65_536, 2));
    bench.disk.resize(65_536, 0);
    bench.stage.resize(32_768, 0);
    assert_eq!(bench.run(A, &Layout::default().read(A, 4_090, 12))[0].0, 0);
    bench.give_up();
    bench.host.sector = 16_384;
    assert_eq!(bench.host.disorder(), Some("sizes whole sectors"));
}

/// `N`, poke 25, and the report's sector size.
fn sized_scripts() {
    let fresh = |sector, disk, stage| calls::item_bytes(&Item::FreshOfSize { sector, disk, stage, fill: 7 });
    let same = calls::item_bytes(&Item::Fresh { disk: 8_192, stage: 4_096, fill: 7 });
    assert_eq!(calls::play(&fresh(4_096, 8_192, 4_096)), calls::play(&same));
    let number = |out: &[u8], at: usize| u64::from_le_bytes(out[8 * at..8 * at + 8].try_into().unwrap());
    // answer, then sector size, disk and stage sectors behind tally and growth
    let first = |script: &[u8]| {
        let out = calls::play(script);
        [0, 3, 4, 5].map(|at| number(&out, at))
    };
    assert_eq!(first(&fresh(65_536, 262_144, 65_536)), [0, 65_536, 4, 1]);
    assert_eq!(first(&fresh(4_194_304, 64 << 22, 16 << 22)), [0, 4_194_304, 64, 16]);
    assert_eq!(first(&fresh(6_144, 12_288, 6_144)), [2, 0, 0, 0]);
    assert_eq!(first(&fresh(8_192, 12_288, 8_192)), [2, 0, 0, 0]);
    assert_eq!(first(&calls::item_bytes(&Item::Form { id: A })), [1, 0, 0, 0]);
    // the areas are filled, whatever is answered
    assert_eq!(calls::play(&fresh(1, 1, 1))[14 * 8 + 8..][..32], hash32(&[7; 262_144]));
    // slots shown: size / sector size, at most 64, none where that is 0
    let poke = |field, i, value| calls::item_bytes(&Item::Poke { field, i, j: 0, value });
    for (sector, size, slots) in
        [(4_096, 40_960, 10), (8_192, 40_960, 5), (16_384, 40_960, 2), (1, 40_960, 64), (0, 40_960, 0), (u64::MAX, u64::MAX, 1)]
    {
        let script = [fresh(4_096, 8_192, 4_096), poke(2, 0, 1), poke(4, 0, size)].concat();
        let before = calls::play(&script).len();
        let out = calls::play(&[script, poke(25, 0, sector)].concat());
        assert_eq!(out.len() - before, 3 * 8 + 3 * 8 + 8 * 8 + 40 + 8 * slots + 8 + 6 * 32, "{sector}");
        assert_eq!(number(&out[before..], 3), sector);
    }
    assert_eq!(calls::play(&poke(28, 0, 0)), Vec::<u8>::new());
}

/// "A proof may now cover 4,194,304 segments, and the checker's count limit rises to that."
fn large_proofs() {
    let most = 4_194_304u64;
    // every segment alike, so that a level has one hash, or two where the last part is another
    let segment = [5u8; 64];
    let mut level = vec![hash32(&[&[0u8][..], &segment].concat())];
    for _ in 0..22 {
        let last = level[level.len() - 1];
        level.push(hash32(&[&[1u8][..], &last, &last].concat()));
    }
    let root = level[22];
    let bottom_up: Vec<u8> = level[..22].concat();
    let top_down: Vec<u8> = level[..22].iter().rev().copied().collect::<Vec<_>>().concat();
    assert!(tree::check(&root, most, 0, 1, &segment, &bottom_up));
    assert!(tree::check(&root, most, most - 1, most, &segment, &top_down));
    assert!(!tree::check(&root, most, 2, 3, &segment, &bottom_up));
    assert!(!tree::check(&root, most, most, most + 1, &segment, &top_down));
    assert!(!tree::check(&root, most / 2, 0, 1, &segment, &bottom_up));
    // one above: the node of that tree and one more segment
    let above = hash32(&[&[1u8][..], &root, &level[0]].concat());
    assert!(!tree::check(&above, most + 1, most, most + 1, &segment, &root));
    let below = hash32(&[&[1u8][..], &level[21], &level[0]].concat());
    assert!(tree::check(&below, most / 2 + 1, most / 2, most / 2 + 1, &segment, &level[21]));
    for count in [0, 1 << 32, 1 << 63, u64::MAX] {
        assert!(!tree::check(&root, count, 0, 1, &segment, &bottom_up));
        assert!(!tree::check(&root, most, count, 1, &segment, &bottom_up) || count == 0);
        assert!(!tree::check(&root, most, 0, count, &segment, &bottom_up));
    }
    // a contract of two sectors of the largest size
    let mut bytes = vec![0u8; 2 << 22];
    bytes[123_456] = 1;
    let (first, end) = (65_535, 65_537);
    let hashes = tree::proof(&bytes, first, end).concat();
    let root = tree::root(&bytes);
    assert_eq!(hashes.len(), 32 * 32);
    assert!(tree::check(&root, 131_072, first, end, &bytes[first as usize * 64..end as usize * 64], &hashes));
}

/// `k`: yes or no, and a tail of at most 131,072 bytes.
fn checker_in_scripts() {
    let said = |item: &Item| {
        let out = calls::play(&calls::item_bytes(item));
        assert_eq!(out.len(), 3 * 8 + 3 * 8 + 8 * 8 + 8 + 6 * 32);
        out[0]
    };
    let tree = segments(5);
    let (first, end) = (1, 3);
    let hashes = tree::proof(&tree, first, end).concat();
    let tail = [&tree[64..192], &hashes].concat();
    let proof = |data: u64, tail: &[u8]| Item::Check { root: tree::root(&tree), count: 5, first, end, data, tail: tail.to_vec() };
    assert_eq!(said(&proof(128, &tail)), 1);
    assert_eq!(said(&proof(127, &tail)), 0);
    assert_eq!(said(&proof(128, &[&tail[..], &[0]].concat())), 0);
    assert_eq!(said(&proof(128, &tail[..tail.len() - 1])), 0);
    assert_eq!(said(&proof(0, &[])), 0);
    // malformed: a data length above the tail's, and a tail that is cut
    assert_eq!(calls::play(&calls::item_bytes(&proof(tail.len() as u64 + 1, &tail))), Vec::<u8>::new());
    let bytes = calls::item_bytes(&proof(128, &tail));
    assert_eq!(calls::play(&bytes[..bytes.len() - 1]), Vec::<u8>::new());
    // long tails, the last of which would be right
    let long = segments(2_049);
    let (root, tail) = (tree::root(&long[..131_072]), long[..131_072].to_vec());
    assert_eq!(said(&Item::Check { root, count: 2_048, first: 0, end: 2_048, data: 131_072, tail }), 1);
    let hashes = tree::proof(&long, 0, 2_048).concat();
    assert!(tree::check(&tree::root(&long), 2_049, 0, 2_048, &long[..131_072], &hashes));
    let tail = [&long[..131_072], &hashes].concat();
    assert_eq!(said(&Item::Check { root: tree::root(&long), count: 2_049, first: 0, end: 2_048, data: 131_072, tail }), 0);
}

// M-105

/// The roots of sectors make the contract's root and the proof of a Read, as all the bytes do.
fn joined_roots() {
    for bits in 12..=22 {
        assert_eq!(tree::zeros_root(1 << bits), tree::root(&vec![0; 1 << bits]));
    }
    for (z, most) in [(4_096usize, 64usize), (8_192, 9), (65_536, 5)] {
        let bytes: Vec<u8> = (0..most * z).map(|i| (i / 7 + i / z) as u8).collect();
        let all: Vec<tree::Hash> = bytes.chunks(z).map(tree::root).collect();
        for count in 0..=most {
            assert_eq!(tree::joined(&all[..count]), tree::root(&bytes[..count * z]));
        }
        let in_sector = (z / 64) as u64;
        for (count, position) in (1..=most.min(9)).chain([most]).flat_map(|count| (0..count).map(move |at| (count, at))) {
            for (first, end) in
                [(0, 1), (0, in_sector), (in_sector - 1, in_sector), (3, 9), (in_sector / 2 - 1, in_sector / 2 + 1)]
            {
                let before = position as u64 * in_sector;
                let proof = tree::proof_in(&all[..count], position as u64, &bytes[position * z..][..z], first, end);
                assert_eq!(proof, tree::proof(&bytes[..count * z], before + first, before + end));
            }
        }
    }
}

/// The kept roots of disk and stage slots.
fn kept(bench: &Bench) -> ([tree::Hash; 64], [tree::Hash; 16]) {
    (bench.host.disk_roots, bench.host.stage_roots)
}

/// The roots of all slots, worked out.
fn worked_out(bench: &Bench) -> (Vec<tree::Hash>, Vec<tree::Hash>) {
    let roots = |area: &[u8]| area.chunks(bench.host.sector as usize).map(tree::root).collect();
    (roots(&bench.disk), roots(&bench.stage))
}

fn sound(bench: &Bench) -> (u64, bool) {
    bench.host.sound(&bench.disk, &bench.stage)
}

/// "an instruction that writes a sector ... sets the kept root of its stage slot ...; growth sets that of the new stage slot ...; commit
/// copies the stage slot's kept root ...; Nothing else touches a kept root: slots that are freed, by shrinking, dropping or closing,
/// keep theirs."
fn roots_kept() {
    let mut bench = bench(8, 4, &[A, B]);
    let mut expected = ([[0; 32]; 64], [[0; 32]; 16]);
    bench.disk.fill(7);
    bench.stage.fill(9);
    assert_eq!((kept(&bench), sound(&bench)), (expected, (0, true)));
    let zeros = tree::root(&[0; 4096]);
    // growth, growth, a Write: the slots in turn; the disk's at commit
    bench.run(A, &grow(&[1, 2]).write(4096, b"snack"));
    let snack = tree::root(&[&b"snack"[..], &[0; 4091]].concat());
    expected.1[..2].copy_from_slice(&[zeros, snack]);
    assert_eq!((kept(&bench), sound(&bench)), (expected, (0, true)));
    assert_eq!(bench.agree().answer, 0);
    expected.0[..2].copy_from_slice(&[zeros, snack]);
    assert_eq!((kept(&bench), sound(&bench)), (expected, (0, true)));
    // Reads touch none; a failure, an interrupt, a close, forming and dropping neither
    bench.run(B, &grow(&[9]));
    bench.give_up();
    let layout = Layout::default().read(A, 0, 64).proved().read_sector(snack, 0, 64).proved();
    bench.run_and_commit(B, &layout);
    assert_eq!(bench.open(B, &layout, BUDGET), 0);
    assert_eq!(bench.host.interrupt(&bench.disk, &mut bench.output), 0);
    bench.give_up();
    assert_eq!((bench.host.form(&[3; 32]), bench.host.drop(&[3; 32])), (0, 0));
    assert_eq!((kept(&bench), sound(&bench)), (expected, (0, true)));
    // Swap of two sectors rehashes both, offset 2's in the first slot; Copy its destination alone; equal bytes are rehashed too
    bench.run(A, &Layout::default().numbers("Swap", &[0, 4096, 5]));
    expected.1[..2].copy_from_slice(&[zeros, snack]);
    assert_eq!(bench.host.program.staged[..2], [1, 0]);
    assert_eq!((kept(&bench), sound(&bench)), (expected, (0, true)));
    bench.give_up();
    assert_eq!((kept(&bench), sound(&bench)), (expected, (0, true)));
    bench.run(A, &Layout::default().numbers("Copy", &[0, 4096, 5]));
    expected.1[0] = snack;
    assert_eq!((kept(&bench), sound(&bench)), (expected, (0, true)));
    bench.give_up();
    bench.run(A, &Layout::default().write(0, &[0]));
    expected.1[0] = zeros;
    assert_eq!((kept(&bench), sound(&bench)), (expected, (0, true)));
    // shrinking frees the staged slot, which keeps its root until it is taken again, by growth
    assert_eq!(bench.give_up().answer, 0);
    bench.run(A, &grow(&[3]).write(8192, b"!").numbers("Truncate", &[8192]));
    expected.1[0] = tree::root(&[&b"!"[..], &[0; 4095]].concat());
    assert_eq!((kept(&bench), sound(&bench)), (expected, (0, true)));
    bench.give_up();
    bench.run(A, &grow(&[3]));
    expected.1[0] = zeros;
    assert_eq!((kept(&bench), sound(&bench)), (expected, (0, true)));
    // committed: the new slot's; a shorter contract's slots keep theirs, and so do a dropped one's
    assert_eq!(bench.agree().growth, 4096);
    expected.0[2] = zeros;
    assert_eq!((kept(&bench), sound(&bench)), (expected, (0, true)));
    assert_eq!(bench.run_and_commit(A, &grow(&[2, 1])).growth, -8192);
    assert_eq!((kept(&bench), bench.slots(0)), (expected, vec![0]));
    assert_eq!((bench.host.drop(&A), kept(&bench), sound(&bench)), (0, expected, (0, true)));
    // agreement to another pair, and one to nothing changed, copy none
    bench.run(B, &grow(&[1]).write(0, b"dropped"));
    expected.1[0] = tree::root(&bench.stage[..4096]);
    assert_eq!(bench.host.agree(&mut bench.disk, &bench.stage, 4096, &zeros).answer, 14);
    assert_eq!((kept(&bench), sound(&bench)), (expected, (0, true)));
    bench.run(B, &grow(&[1, 0]));
    expected.1[0] = zeros;
    assert_eq!(bench.host.agree(&mut bench.disk, &bench.stage, 9, &zeros).answer, 0);
    assert_eq!((kept(&bench), sound(&bench)), (expected, (0, true)));
    // a host that is made anew
    assert!(host::fresh(4096, 4096, 4096)
        .1
        .disk_roots
        .iter()
        .chain(&host::fresh(1, 1, 1).1.stage_roots)
        .all(|root| *root == [0; 32]));
}

/// A root is of a whole sector of the host's size.
fn larger_roots_kept() {
    for z in [8_192, 65_536, 1_048_576] {
        let mut bench = bench_of(z, 3, 3, &[A]);
        let layout =
            grow_of(z, &[1, 2]).write(z - 3, b"end").numbers("Copy", &[2 * z - 3, z - 3, 3]).numbers("Swap", &[0, 2 * z - 3, 3]);
        bench.run_and_commit(A, &layout);
        let (disk, stage) = worked_out(&bench);
        assert_eq!((&bench.host.disk_roots[..2], &bench.host.stage_roots[..2]), (&disk[..2], &stage[..2]));
        assert_eq!(bench.host.starting_pair(&bench.disk), (0, [0; 32]));
        bench.run(A, &Layout::default().read(A, z, 64).proved());
        assert_eq!(bench.records()[0].3, tree::root(&bench.disk[..2 * z as usize]));
        assert_eq!(sound(&bench), (0, true));
    }
}

/// "1, 2 (disk and stage), never 4; else 0 and whether the host is sound, everything worked out afresh." "Other slots are not looked at."
fn soundness() {
    assert_eq!(host::fresh(4096, 0, 0).1.sound(&[], &[]), (1, false));
    let mut bench = bench(4, 3, &[A, B]);
    bench.run_and_commit(A, &grow(&[1, 2]).write(0, b"a"));
    bench.run_and_commit(B, &grow(&[1]).write(9, b"b"));
    bench.run_and_commit(A, &grow(&[1]));
    assert_eq!((bench.slots(0), bench.slots(1)), (vec![0], vec![2]));
    // no program open: 0; other lengths: 2
    let asked = |bench: &Bench, disk: usize, stage: usize| bench.host.sound(&bench.disk[..disk], &bench.stage[..stage]);
    assert_eq!(asked(&bench, 16_384, 12_288), (0, true));
    for (disk, stage) in [(16_383, 12_288), (12_288, 12_288), (16_384, 8_192), (0, 12_288), (16_384, 0)] {
        assert_eq!(asked(&bench, disk, stage), (2, false));
    }
    let damaged = |bench: &Bench, damage: &dyn Fn(&mut Bench)| {
        let mut other = Bench {
            host: bench.host.clone(),
            disk: bench.disk.clone(),
            stage: bench.stage.clone(),
            input: bench.input.clone(),
            output: bench.output.clone(),
        };
        damage(&mut other);
        sound(&other)
    };
    for j in 0..32 {
        assert_eq!(damaged(&bench, &|b| b.host.disk_roots[0][j] ^= 1), (0, false));
        assert_eq!(damaged(&bench, &|b| b.host.disk_roots[2][j] ^= 128), (0, false));
        // slots that no position has: free, cut off, of the stage, past the disk
        for slot in [1, 3, 4, 63] {
            assert_eq!(damaged(&bench, &|b| b.host.disk_roots[slot][j] ^= 1), (0, true));
        }
        assert!((0..16).all(|slot| damaged(&bench, &|b| b.host.stage_roots[slot][j] ^= 1) == (0, true)));
    }
    // bytes of the disk: the first and the last of a sector that a position has, and others
    for (at, answer) in [(0, false), (4095, false), (4096, true), (8191, true), (8192, false), (12_287, false), (12_288, true)] {
        assert_eq!(damaged(&bench, &|b| b.disk[at] ^= 1), (0, answer));
    }
    // a program: its staged positions too, which no disk slot stands for
    bench.run(A, &Layout::default().write(5, b"staged").numbers("Truncate", &[8192]));
    assert_eq!((bench.host.program.staged[..3].to_vec(), sound(&bench)), (vec![0, 1, NONE], (0, true)));
    for (slot, answer) in [(0, false), (1, false), (2, true), (3, true), (15, true)] {
        assert_eq!(damaged(&bench, &|b| b.host.stage_roots[slot][31] ^= 1), (0, answer));
    }
    for (at, answer) in [(0, false), (4095, false), (4096, false), (8191, false), (8192, true), (12_287, true)] {
        assert_eq!(damaged(&bench, &|b| b.stage[at] ^= 1), (0, answer));
    }
    // the disk's sector under a stage copy is looked at
    assert_eq!(damaged(&bench, &|b| b.host.disk_roots[0][0] ^= 1), (0, false));
    // in order, with sectors in other slots: unsound; two that are exchanged are another contract and sound with it
    assert_eq!(damaged(&bench, &|b| b.host.places[0].slots[0] = 3), (0, false));
    assert_eq!(damaged(&bench, &|b| (b.host.places[0].slots[0], b.host.places[1].slots[0]) = (2, 0)), (0, true));
    assert_eq!(damaged(&bench, &|b| b.host.program.staged[..2].swap(0, 1)), (0, true));
    assert_eq!(damaged(&bench, &|b| b.host.program.staged[1] = 2), (0, false));
    // 1 first, whatever the roots are
    for damage in [|b: &mut Bench| b.host.disk_sectors = 65, |b: &mut Bench| b.host.program.ran = 9] {
        assert_eq!(damaged(&bench, &|b| damage(b)), (1, false));
        assert_eq!(damaged(&bench, &|b| (damage(b), b.stage.clear()).1), (1, false));
    }
    assert_eq!((sound(&bench), bench.give_up().answer, sound(&bench)), ((0, true), 0, (0, true)));
}

/// "For any areas, results are those that follow from the kept roots": the root of a contract, the look-up of ReadSector, and in the proof
/// of a Read the roots of all other sectors. A Write heals what it stages, a commit the disk.
fn wrong_roots() {
    let mut bench = bench(8, 4, &[A, B]);
    bench.run_and_commit(A, &grow(&[1, 2, 3]).write(0, b"one").write(4096, b"two").write(8192, b"three"));
    let right = bench.host.disk_roots;
    let wrong = [0x77; 32];
    bench.host.disk_roots[1] = wrong;
    let joined = tree::joined(&[right[0], wrong, right[2]]);
    assert_eq!((sound(&bench), bench.host.in_order()), ((0, false), true));
    // reading: the record's root, the proofs, the look-up
    let layout = Layout::default().read(A, 64, 64).proved().read(A, 4096 + 64, 64).proved().read(A, 4096, 3);
    let layout = layout.read_sector(wrong, 0, 64).proved().read_sector(right[0], 0, 3).read_sector(right[1], 0, 3);
    let records = bench.run(A, &layout);
    assert_eq!(records.iter().map(|record| record.0).collect::<Vec<u64>>(), [0, 0, 0, 0, 0, 25]);
    assert!(records.iter().all(|record| (record.2, record.3) == (12_288, joined)));
    // outside the sector that is read: kept; inside it: from its bytes, so that its proof gives the right root for its sector
    let sector = |position: usize| bench.disk[position * 4096..][..4096].to_vec();
    assert_eq!(records[0].4, [tree::proof(&sector(0), 1, 2).concat(), wrong.to_vec(), right[2].to_vec()].concat());
    assert_eq!(records[1].4, [right[0].to_vec(), tree::proof(&sector(1), 1, 2).concat(), right[2].to_vec()].concat());
    assert!(tree::check(&joined, 192, 1, 2, &records[0].5, &records[0].4));
    assert!(!tree::check(&joined, 192, 65, 66, &records[1].5, &records[1].4));
    assert!(tree::check(&tree::joined(&right[..3]), 192, 65, 66, &records[1].5, &records[1].4));
    assert_eq!((&records[2].5[..], &records[3].5[..3], &records[4].5[..]), (&b"two"[..], &b"two"[..], &b"one"[..]));
    assert!(tree::check(&right[1], 64, 0, 1, &records[3].5, &records[3].4));
    assert_eq!(bench.host.reached(&bench.disk, &bench.stage), (0, 12_288, joined));
    bench.give_up();
    // another contract reads it: its committed roots
    let records = bench.run(B, &Layout::default().read(A, 0, 64).proved());
    assert!(tree::check(&joined, 192, 0, 1, &records[0].5, &records[0].4));
    // nothing changed: by kept roots
    assert_eq!(bench.host.agree(&mut bench.disk, &bench.stage, 1, &[1; 32]).answer, 0);
    // agreement to the bytes' pair is to another pair; a failure's record shows the kept one
    let layout = Layout::default().write(0, b"One");
    bench.run(A, &layout);
    let by_bytes = tree::root(&[&bench.stage[..4096], &bench.disk[4096..12_288]].concat());
    assert_eq!(bench.host.agree(&mut bench.disk, &bench.stage, 12_288, &by_bytes).answer, 14);
    bench.open(A, &layout, BUDGET);
    assert_eq!(bench.host.interrupt(&bench.disk, &mut bench.output), 0);
    assert_eq!(bench.records(), [(20, 0, 12_288, joined, vec![], vec![])]);
    bench.give_up();
    bench.run_and_commit(A, &layout);
    assert_eq!(bench.host.disk_roots[..3], [tree::root(&bench.disk[..4096]), wrong, right[2]]);
    assert_eq!(sound(&bench), (0, false));
    // equal bytes: the stage's root is the right one, so that the root is another than at the start, and is committed
    bench.run(A, &Layout::default().write(4096, b"two"));
    assert_eq!(bench.records()[0].3, tree::root(&bench.disk[..12_288]));
    assert_eq!((bench.host.disk_roots[1], sound(&bench)), (wrong, (0, false)));
    assert_eq!((bench.agree().answer, bench.host.disk_roots[1], sound(&bench)), (0, right[1], (0, true)));
    // of the stage: seen in the records, committed, and healed by the next Write to that sector
    for heals in [false, true] {
        let layout = Layout::default().write(4096, b"Two").write(4096, b"TWO");
        bench.open(A, &layout, BUDGET);
        assert_eq!(bench.piece(&layout.data[..19]), 0);
        bench.host.stage_roots[0] = wrong;
        assert_eq!(sound(&bench), (0, false));
        let one = bench.host.disk_roots[0];
        let (size, root) = bench.host.running_pair(&bench.disk, &bench.stage);
        assert_eq!((size, root), (12_288, tree::joined(&[one, wrong, right[2]])));
        if heals {
            assert_eq!(bench.piece(&layout.data[19..]), 0);
            assert_eq!(sound(&bench), (0, true));
            assert_eq!((bench.agree().answer, sound(&bench)), (0, (0, true)));
        } else {
            bench.host.program.head.count = 1;
            assert_eq!(bench.agree().answer, 0);
            assert_eq!((bench.host.disk_roots[1], sound(&bench), &bench.disk[4096..4099]), (wrong, (0, false), &b"Two"[..]));
            bench.host.disk_roots[1] = tree::root(&bench.disk[4096..8192]);
        }
    }
}

/// "changed bytes under an unchanged kept root close with 0 and no commit. That is what follows from kept roots."
fn unseen_change() {
    let mut bench = bench(8, 4, &[A]);
    bench.run_and_commit(A, &grow(&[1]).write(0, b"old"));
    let after = [&b"new"[..], &[0; 4093]].concat();
    bench.host.disk_roots[0] = tree::root(&after);
    let records = bench.run(A, &Layout::default().write(0, b"new"));
    assert_eq!((records[0].3, &bench.stage[..3]), (tree::root(&after), &b"new"[..]));
    let closed = bench.host.agree(&mut bench.disk, &bench.stage, 7, &[7; 32]);
    assert_eq!(closed, Closed { answer: 0, tally: bench_tally(&records), growth: 0 });
    assert_eq!((&bench.disk[..3], sound(&bench)), (&b"old"[..], (0, false)));
}

/// `s`, pokes 26 and 27, and the digests of kept roots.
fn roots_in_scripts() {
    let fresh = calls::item_bytes(&Item::Fresh { disk: 8192, stage: 4096, fill: 7 });
    let ask = |disk, stage| calls::item_bytes(&Item::Sound { disk, stage });
    let poke = |field, i, j, value| calls::item_bytes(&Item::Poke { field, i, j, value });
    let length = 3 * 8 + 3 * 8 + 8 * 8 + 8 + 6 * 32;
    let last = |script: &[u8]| {
        let out = calls::play(script);
        let report = out[out.len() - length..].to_vec();
        let first: Vec<u64> = report[..24].chunks(8).map(|n| u64::from_le_bytes(n.try_into().unwrap())).collect();
        (first, report[length - 64..length - 32].to_vec(), report[length - 32..].to_vec())
    };
    let digests = |disk: &[u8], stage: &[u8]| (hash32(disk).to_vec(), hash32(stage).to_vec());
    let (none, no_stage) = digests(&[0; 2_048], &[0; 512]);
    assert_eq!(last(&ask(0, 0)), (vec![1, 0, 0], none.clone(), no_stage.clone()));
    assert_eq!(last(&[&fresh[..], &ask(8192, 4096)].concat()), (vec![0, 1, 0], none.clone(), no_stage.clone()));
    assert_eq!(last(&[&fresh[..], &ask(8192, 4095)].concat()).0, [2, 0, 0]);
    assert_eq!(last(&[&fresh[..], &ask(4096, 4096)].concat()).0, [2, 0, 0]);
    // a byte of one root, the first and the last
    for (field, i, j, at) in
        [(26, 0, 0, 0), (26, 63, 31, 2_047), (26, 1, 2, 34), (27, 0, 0, 0), (27, 15, 31, 511), (27, 2, 1, 65)]
    {
        let mut roots = (vec![0; 2_048], vec![0; 512]);
        if field == 26 {
            roots.0[at] = 255;
        } else {
            roots.1[at] = 255;
        }
        let (disk, stage) = digests(&roots.0, &roots.1);
        assert_eq!(last(&[&fresh[..], &poke(field, i, j, 255)].concat()), (vec![0, 0, 0], disk, stage));
        // no position has the slot; `F` makes them zeros again
        assert_eq!(last(&[&fresh[..], &poke(field, i, j, 255), &ask(8192, 4096)].concat()).0, [0, 1, 0]);
        assert_eq!(
            last(&[&fresh[..], &poke(field, i, j, 255), &fresh].concat()),
            (vec![0, 0, 0], none.clone(), no_stage.clone())
        );
    }
    for malformed in [
        poke(26, 64, 0, 0),
        poke(26, 0, 32, 0),
        poke(26, 0, 0, 256),
        poke(27, 16, 0, 0),
        poke(27, 0, 32, 0),
        poke(27, 0, 0, 256),
        ask(262_145, 0),
        ask(0, 65_537),
    ] {
        assert_eq!(calls::play(&[&fresh[..], &malformed, &fresh].concat()).len(), length);
    }
}

/// "for a sound host with areas lent back as left they are 01's, and any calls leave it sound": random programs and scripts, each call made
/// by kept roots and by roots that are worked out, as long as the host is sound.
fn as_worked_out() {
    let (mut compared, mut unsound) = (0, 0);
    for number in 0..3_000 {
        let input = gen::input(105, number);
        if !input.for_calls {
            assert_eq!(depot::play(&input.bytes), roots::worked_out(|| depot::play(&input.bytes)), "input {number}");
            continue;
        }
        let (mut player, mut other) = (calls::new_player(), calls::new_player());
        let mut reader = head::Reader { rest: &input.bytes };
        while let Some(item) = calls::read_item(&mut reader) {
            if unsound::found(&player).is_some() {
                player.call(&item);
                other = player.clone();
                unsound += 1;
                continue;
            }
            assert_eq!(player.call(&item), roots::worked_out(|| other.call(&item)), "input {number}, {}", show::item_text(&item));
            assert!(calls::same(&player, &other), "input {number}, {}", show::item_text(&item));
            let poked = matches!(item, Item::Poke { .. });
            assert!(poked || unsound::found(&player).is_none(), "input {number}: made unsound by {}", show::item_text(&item));
            compared += 1;
        }
    }
    assert!(compared > 20_000 && unsound > 2_000, "{compared} calls compared, {unsound} on unsound hosts");
}

// M-110

/// What `locate` answers where it finds a sector.
fn at(place: usize, position: u64, staged: bool) -> (u64, Option<Spot>) {
    (0, Some(Spot { place, position, staged }))
}

const NOT_FOUND: (u64, Option<Spot>) = (0, None);

/// A sector that starts with these bytes, and zeros.
fn padded_sector(word: &[u8]) -> Vec<u8> {
    [word, &vec![0; 4096 - word.len()]].concat()
}

fn sector_root(word: &[u8]) -> tree::Hash {
    tree::root(&padded_sector(word))
}

fn numbers(records: &[Record]) -> Vec<u64> {
    records.iter().map(|record| record.0).collect()
}

/// "A program that writes a sector can't read it back by its root until commit": now it can, in the same program and piece. "ReadSector
/// reads what it found, from the stage or the disk; its proof is of that sector".
fn read_back() {
    let mut bench = bench(8, 4, &[A, B]);
    let (zeros, nuts) = (sector_root(b""), sector_root(b"nuts"));
    let both = sector_root(b"nutsand");
    // grown: zeros; written; written again; each by its root, with a proof and without
    let layout = grow(&[1]).read_sector(zeros, 0, 64).proved().write(0, b"nuts").read_sector(nuts, 0, 4);
    let layout =
        layout.read_sector(nuts, 0, 128).proved().write(4, b"and").read_sector(both, 2, 5).read_sector(both, 0, 4096).proved();
    let layout = layout.numbers("Truncate", &[8192]).read_sector(both, 64, 64).proved().read_sector(zeros, 4032, 64).proved();
    let records = bench.run(A, &layout);
    assert_eq!(numbers(&records), [0; 11]);
    assert_eq!((&records[3].5[..], &records[6].5[..]), (&b"nuts"[..], &b"tsand"[..]));
    assert_eq!((records[3].4.len(), records[7].4.len(), &records[7].5), (0, 0, &padded_sector(b"nutsand")));
    for (i, root, first, end) in [(1, zeros, 0, 1), (4, nuts, 0, 2), (7, both, 0, 64), (9, both, 1, 2), (10, zeros, 63, 64)] {
        assert!(tree::check(&root, 64, first, end, &records[i].5, &records[i].4), "record {i}");
        assert_eq!(records[i].4, tree::proof(if root == zeros { &[0; 4096] } else { &records[7].5 }, first, end).concat());
    }
    // a record shows the parent's pair, of the size at that turn; the cost is a Read's
    assert_eq!((records[3].2, records[3].3, records[9].2), (4096, nuts, 8192));
    assert_eq!(records[3].1, (1_048_576 + layout.data.len() as u64) * 10 + 3 + 2 * 4);
    assert_eq!(bench.host.locate(&both), at(0, 0, true));
    assert_eq!(bench.host.locate(&zeros), at(0, 1, true));
    assert_eq!(bench.agree().answer, 0);
    // committed: on the disk, found by any program
    for contract in [A, B, head::read_only_word()] {
        let records = bench.run(contract, &Layout::default().read_sector(both, 0, 7).read_sector(nuts, 0, 4));
        assert_eq!((numbers(&records), &records[0].5[..]), (vec![0, 25], &b"nutsand"[..]));
        bench.give_up();
    }
    // Copy and Swap: what they write is found too, and what they read from where it is not written over
    let layout = Layout::default().write(4096, b"dates").numbers("Swap", &[0, 4096, 8]);
    let layout = layout.read_sector(sector_root(b"dates"), 0, 5).read_sector(both, 0, 4).numbers("Copy", &[4, 4096, 4]);
    let records =
        bench.run(A, &layout.read_sector(sector_root(b"datenuts"), 0, 8).read_sector(both, 4, 3).read_sector(nuts, 0, 1));
    assert_eq!(numbers(&records), [0, 0, 0, 0, 0, 0, 0, 25]);
    assert_eq!((&records[5].5[..], &records[6].5[..]), (&b"datenuts"[..], &b"and"[..]));
    assert_eq!(bench.host.locate(&both), at(0, 1, true));
    // other sector sizes: the root is of a whole sector of that size
    for z in [8_192, 65_536] {
        let mut bench = bench_of(z, 3, 2, &[A]);
        let whole = [&vec![0; z as usize - 3][..], b"end"].concat();
        let root = tree::root(&whole);
        let records = bench.run(A, &grow_of(z, &[1]).write(z - 3, b"end").read_sector(root, z - 64, 64).proved());
        assert_eq!((numbers(&records), &records[2].5[61..]), (vec![0, 0, 0], &b"end"[..]));
        assert!(tree::check(&root, z / 64, z / 64 - 1, z / 64, &records[2].5, &records[2].4));
        assert_eq!(bench.host.locate(&root), at(0, 0, true));
    }
}

/// "A sector of the parent that is overwritten or cut off is not found any more."
fn gone() {
    let mut bench = bench(8, 4, &[B, A]);
    let (crisps, nuts, zeros) = (sector_root(b"crisps"), sector_root(b"nuts"), sector_root(b""));
    bench.run_and_commit(A, &grow(&[1, 2]).write(0, b"crisps").write(4096, b"nuts"));
    let look = |root, length| Layout::default().read_sector(root, 0, length);
    // overwritten: 25 while the stage has a copy; the other sector is found on the disk; found again after giving up
    let records = bench.run(A, &Layout::default().write(0, b"C").read_sector(nuts, 0, 4).read_sector(crisps, 0, 6));
    assert_eq!((numbers(&records), &records[1].5[..]), (vec![0, 0, 25], &b"nuts"[..]));
    assert_eq!((bench.host.locate(&crisps), bench.host.locate(&nuts)), (NOT_FOUND, at(1, 1, false)));
    assert_eq!(bench.host.locate(&sector_root(b"Crisps")), at(1, 0, true));
    assert_eq!(bench.give_up().answer, 0);
    assert_eq!((bench.host.locate(&crisps), bench.host.locate(&sector_root(b"Crisps"))), (at(1, 0, false), NOT_FOUND));
    assert_eq!(bench.run(A, &look(crisps, 6))[0].5, *b"crisps");
    bench.give_up();
    // equal bytes: found, now in the stage
    assert_eq!(bench.run(A, &Layout::default().write(0, b"cr").read_sector(crisps, 0, 6))[1].5, *b"crisps");
    assert_eq!(bench.host.locate(&crisps), at(1, 0, true));
    bench.give_up();
    // cut off: not found; grown again: zeros at that position, in the stage, and what it held is not found
    let cut = Layout::default().numbers("Truncate", &[4096]);
    assert_eq!(numbers(&bench.run(A, &cut.read_sector(nuts, 0, 4))), [0, 25]);
    assert_eq!(
        (bench.host.locate(&nuts), bench.host.locate(&crisps), bench.host.locate(&zeros)),
        (NOT_FOUND, at(1, 0, false), NOT_FOUND)
    );
    bench.give_up();
    assert_eq!(bench.host.locate(&nuts), at(1, 1, false));
    let again = Layout::default().numbers("Truncate", &[4096]).numbers("Truncate", &[8192]).read_sector(zeros, 0, 64).proved();
    let records = bench.run(A, &again.read_sector(nuts, 0, 4));
    assert_eq!((numbers(&records), &records[2].5), (vec![0, 0, 0, 25], &vec![0; 64]));
    assert_eq!((bench.host.locate(&zeros), bench.host.locate(&nuts)), (at(1, 1, true), NOT_FOUND));
    // to nothing: no sector of the parent is left; a staged copy that is cut off is not found either
    bench.give_up();
    let layout = Layout::default().write(4096, b"N").numbers("Truncate", &[4096]).numbers("Truncate", &[0]);
    bench.run(A, &layout);
    for root in [crisps, nuts, sector_root(b"Nuts"), zeros, [0; 32]] {
        assert_eq!(bench.host.locate(&root), NOT_FOUND);
    }
    // the freed slot keeps its root, and no position has it
    assert_eq!(bench.host.stage_roots[0], sector_root(b"Nuts"));
    assert_eq!((bench.agree().answer, bench.host.disk_roots[0], bench.host.locate(&crisps)), (0, crisps, NOT_FOUND));
    // another program's parent is no matter of a look-up of B's
    bench.run_and_commit(A, &grow(&[1]).write(0, b"crisps"));
    bench.run(B, &grow(&[1]).write(0, b"other"));
    assert_eq!((bench.host.locate(&crisps), bench.host.locate(&sector_root(b"other"))), (at(1, 0, false), at(0, 0, true)));
}

/// "the parent's current sectors by position ...; then the committed sectors of the other contracts by place, then position."
fn parent_first() {
    let mut bench = bench(8, 4, &[A, B, [3; 32]]);
    let (same, own) = (sector_root(b"same"), sector_root(b"own"));
    for contract in [A, B, [3; 32]] {
        bench.run_and_commit(contract, &grow(&[1, 2]).write(4096, b"same"));
    }
    let zeros = sector_root(b"");
    // no program, read-only mode: by place, then position
    assert_eq!((bench.host.locate(&same), bench.host.locate(&zeros)), (at(0, 1, false), at(0, 0, false)));
    bench.run(head::read_only_word(), &Layout::default().read_sector(same, 0, 4).read_sector(own, 0, 3));
    assert_eq!((bench.numbers(), bench.host.locate(&same), bench.host.locate(&own)), (vec![0, 25], at(0, 1, false), NOT_FOUND));
    bench.give_up();
    // each as the parent, on the disk and then in the stage: the parent wins over lower places and over higher ones
    for (place, contract) in [(0, A), (1, B), (2, [3; 32])] {
        assert_eq!(bench.open(contract, &Layout::default(), BUDGET), 0);
        assert_eq!((bench.host.locate(&same), bench.host.locate(&zeros)), (at(place, 1, false), at(place, 0, false)));
        bench.give_up();
        bench.run(contract, &Layout::default().write(4096, b"same").write(0, b"own"));
        assert_eq!((bench.host.locate(&same), bench.host.locate(&own)), (at(place, 1, true), at(place, 0, true)));
        // its own zeros are overwritten: the first of the others
        assert_eq!(bench.host.locate(&zeros), at(if place == 0 { 1 } else { 0 }, 0, false));
        bench.give_up();
        // two equal sectors of the parent: the lowest position, whichever of them the stage holds
        bench.run(contract, &Layout::default().write(0, b"same"));
        assert_eq!(bench.host.locate(&same), at(place, 0, true));
        bench.give_up();
        bench.run(contract, &Layout::default().numbers("Copy", &[4096, 0, 4]));
        assert_eq!(bench.host.locate(&zeros), at(place, 0, false));
        assert_eq!(bench.host.locate(&same), at(if place == 0 { 1 } else { 0 }, 1, false));
        bench.give_up();
        // past the starting size: still ahead of the others
        bench.run(contract, &Layout::default().write(0, b"own").numbers("Truncate", &[12_288]));
        assert_eq!(bench.host.locate(&zeros), at(place, 2, true));
        bench.give_up();
    }
    // which of them is read shows where the bytes differ under equal kept roots
    bench.host.disk_roots[bench.slots(0)[0] as usize] = same;
    bench.host.disk_roots[bench.slots(2)[0] as usize] = same;
    let read = |bench: &mut Bench, contract| {
        let found = bench.run(contract, &Layout::default().read_sector(same, 0, 4))[0].5.clone();
        bench.give_up();
        found
    };
    assert_eq!((read(&mut bench, A), read(&mut bench, B), read(&mut bench, [3; 32])), (vec![0; 4], b"same".to_vec(), vec![0; 4]));
    assert_eq!(read(&mut bench, head::read_only_word()), [0; 4]);
}

/// "1; else 0 with found, place, position, staged (0, 0, 0, no where nothing is found); a program need not be open"; "After a failure it
/// still sees the parent's current sectors, stage included. It changes nothing."
fn located() {
    assert_eq!(host::fresh(4096, 0, 0).1.locate(&[0; 32]), (1, None));
    let mut bench = bench(8, 4, &[B, A]);
    let (zeros, nuts, new) = (sector_root(b""), sector_root(b"nuts"), sector_root(b"new"));
    assert_eq!((bench.host.locate(&[0; 32]), bench.host.locate(&zeros)), (NOT_FOUND, NOT_FOUND));
    bench.run_and_commit(A, &grow(&[1, 2]).write(4096, b"nuts"));
    assert_eq!(
        (bench.host.locate(&nuts), bench.host.locate(&zeros), bench.host.locate(&new)),
        (at(1, 1, false), at(1, 0, false), NOT_FOUND)
    );
    // every byte of the root counts
    for j in 0..32 {
        let mut near = nuts;
        near[j] ^= 1;
        assert_eq!(bench.host.locate(&near), NOT_FOUND);
        assert_eq!(numbers(&bench.run(A, &Layout::default().read_sector(near, 0, 1))), [25]);
        bench.give_up();
    }
    // opened, waiting for data, half run, ended, failed, interrupted
    let layout = Layout::default().write(0, b"new").numbers("Truncate", &[12_288]);
    assert_eq!(bench.open(A, &layout, BUDGET), 0);
    let all = |bench: &Bench| [nuts, zeros, new].map(|root| bench.host.locate(&root));
    assert_eq!(all(&bench), [at(1, 1, false), at(1, 0, false), NOT_FOUND]);
    assert_eq!(bench.piece(&layout.data[..19]), 0);
    assert_eq!(all(&bench), [at(1, 1, false), NOT_FOUND, at(1, 0, true)]);
    assert_eq!(bench.piece(&layout.data[19..]), 0);
    assert_eq!(all(&bench), [at(1, 1, false), at(1, 2, true), at(1, 0, true)]);
    bench.give_up();
    assert_eq!(numbers(&bench.run(A, &Layout::default().write(0, b"new").numbers("Truncate", &[9]))), [0, 26]);
    assert!(bench.host.program.failed);
    assert_eq!(all(&bench), [at(1, 1, false), NOT_FOUND, at(1, 0, true)]);
    bench.give_up();
    assert_eq!(bench.open(A, &layout, BUDGET), 0);
    assert_eq!((bench.piece(&layout.data[..19]), bench.host.interrupt(&bench.disk, &mut bench.output)), (0, 0));
    assert_eq!(all(&bench), [at(1, 1, false), NOT_FOUND, at(1, 0, true)]);
    bench.give_up();
    // cut off before a failure: the running size counts, not the starting one
    assert_eq!(numbers(&bench.run(A, &Layout::default().numbers("Truncate", &[4096]).numbers("Truncate", &[9]))), [0, 26]);
    assert_eq!(all(&bench), [NOT_FOUND, at(1, 0, false), NOT_FOUND]);
    bench.give_up();
    // read-only mode, failed too: all committed sectors
    assert_eq!(
        numbers(&bench.run(head::read_only_word(), &Layout::default().read_sector(nuts, 0, 1).read_sector(new, 0, 1))),
        [0, 25]
    );
    assert_eq!(all(&bench), [at(1, 1, false), at(1, 0, false), NOT_FOUND]);
    bench.give_up();
    // 1 on each host that is not in order, with a program and without
    bench.run(A, &layout);
    let damages: [fn(&mut Host); 7] = [
        |h| h.sector = 6_144,
        |h| h.disk_sectors = 1,
        |h| h.stage_sectors = 17,
        |h| h.places[0].id = A,
        |h| h.places[1].size += 1,
        |h| h.program.running = 4096,
        |h| h.program.staged[0] = h.program.staged[2],
    ];
    for (i, damage) in damages.iter().enumerate() {
        let mut host = bench.host.clone();
        damage(&mut host);
        assert_eq!([nuts, zeros, [0; 32]].map(|root| host.locate(&root)), [(1, None); 3], "damage {i}");
    }
    bench.give_up();
    for damage in &damages[..5] {
        let mut host = bench.host.clone();
        damage(&mut host);
        assert_eq!(host.locate(&nuts), (1, None));
    }
    zero_id_held();
}

/// "no contract counts as the parent, a held zero id neither"
fn zero_id_held() {
    let mut bench = bench(8, 4, &[A, B]);
    hold(&mut bench, 2, [0; 32]);
    let (same, own) = (sector_root(b"same"), sector_root(b"own"));
    for contract in [B, [0; 32]] {
        bench.run_and_commit(contract, &grow(&[1]).write(0, b"same"));
    }
    bench.run_and_commit([0; 32], &grow(&[2]).write(4096, b"own"));
    // no program: by place, and all committed sectors of the zero id
    assert!(!bench.host.program.open && bench.host.program.head.contract == [0; 32]);
    assert_eq!((bench.host.locate(&same), bench.host.locate(&own)), (at(1, 0, false), at(2, 1, false)));
    // whatever the record of the closed program holds
    (bench.host.program.running, bench.host.program.staged, bench.host.program.failed) = (8192, [NONE; 64], true);
    assert_eq!((bench.host.locate(&same), bench.host.locate(&own)), (at(1, 0, false), at(2, 1, false)));
    (bench.host.program.head.contract, bench.host.stage_roots[3], bench.host.program.staged) = (B, own, [3; 64]);
    assert_eq!((bench.host.locate(&same), bench.host.locate(&own)), (at(1, 0, false), at(2, 1, false)));
    bench.host.program = host::closed_program();
    // opened, it is a parent like any other
    bench.run([0; 32], &Layout::default().write(4096, b"O"));
    assert_eq!((bench.host.locate(&same), bench.host.locate(&own)), (at(2, 0, false), NOT_FOUND));
    bench.give_up();
    // in read-only mode too it is one of the others
    bench.open(head::read_only_word(), &Layout::default(), BUDGET);
    assert_eq!((bench.host.locate(&same), bench.host.locate(&own)), (at(1, 0, false), at(2, 1, false)));
}

/// Kept roots alone: of disk and stage, all 32 bytes, also where they are not their sectors'.
fn located_by_wrong_roots() {
    let mut bench = bench(8, 4, &[A, B]);
    bench.run_and_commit(A, &grow(&[1, 2]).write(0, b"one").write(4096, b"two"));
    bench.run_and_commit(B, &grow(&[1]).write(0, b"three"));
    let (one, two, three) = (sector_root(b"one"), sector_root(b"two"), sector_root(b"three"));
    let mut near = one;
    near[31] ^= 1;
    let mut front = [7; 32];
    front[..4].copy_from_slice(&one[..4]);
    // roots that agree in all but the last byte, and in the first four bytes alone: each finds its own sector
    for other in [near, front] {
        for slots in [[0, 1, 2], [1, 0, 2], [2, 0, 1], [1, 2, 0]] {
            let kept = [(0, 0), (0, 1), (1, 0)];
            bench.host.disk_roots[slots[0]] = one;
            bench.host.disk_roots[slots[1]] = other;
            bench.host.disk_roots[slots[2]] = [9; 32];
            for contract in [None, Some(A), Some(B), Some(head::read_only_word())] {
                let words = [&b"one"[..], b"two", b"thr"];
                for (slot, root) in [(slots[0], one), (slots[1], other), (slots[2], [9; 32])] {
                    let found = at(kept[slot].0, kept[slot].1, false);
                    assert_eq!(bench.host.locate(&root), found);
                    if let Some(contract) = contract {
                        assert_eq!(bench.run(contract, &Layout::default().read_sector(root, 0, 3))[0].5, words[slot]);
                        assert_eq!((bench.host.locate(&root), bench.give_up().answer), (found, 0));
                    }
                }
                assert_eq!((bench.host.locate(&two), bench.host.locate(&three)), (NOT_FOUND, NOT_FOUND));
            }
        }
    }
    (bench.host.disk_roots[0], bench.host.disk_roots[1], bench.host.disk_roots[2]) = (one, two, three);
    // of the stage: the kept root of the copy's slot, not of its bytes, nor the disk's under it; the proof is from the bytes
    let layout = Layout::default().write(0, b"One").read_sector(near, 0, 64).proved().read_sector(one, 0, 3);
    bench.open(A, &layout, BUDGET);
    assert_eq!(bench.piece(&layout.data[..19]), 0);
    assert_eq!([sector_root(b"One"), one, near].map(|root| bench.host.locate(&root)), [at(0, 0, true), NOT_FOUND, NOT_FOUND]);
    bench.host.stage_roots[0] = near;
    assert_eq!([sector_root(b"One"), one, near].map(|root| bench.host.locate(&root)), [NOT_FOUND, NOT_FOUND, at(0, 0, true)]);
    assert_eq!(bench.piece(&layout.data[19..]), 0);
    let records = bench.records();
    assert_eq!((numbers(&records), &records[1].5[..3]), (vec![0, 0, 25], &b"One"[..]));
    assert!(tree::check(&sector_root(b"One"), 64, 0, 1, &records[1].5, &records[1].4));
    // roots of slots that no position has: free ones of disk and stage
    (bench.host.stage_roots[1], bench.host.disk_roots[5]) = ([5; 32], [6; 32]);
    assert_eq!([[5; 32], [6; 32], [0; 32]].map(|root| bench.host.locate(&root)), [NOT_FOUND; 3]);
    // another program's stage slots, once it is closed: nothing is staged
    bench.give_up();
    assert_eq!([near, one].map(|root| bench.host.locate(&root)), [NOT_FOUND, at(0, 0, false)]);
    // the root of zeros is a root like any other: a held sector whose kept root was never set
    bench.host.disk_roots[1] = [0; 32];
    assert_eq!((bench.host.locate(&[0; 32]), bench.host.locate(&two)), (at(0, 1, false), NOT_FOUND));
    assert_eq!(bench.run(B, &Layout::default().read_sector([0; 32], 0, 3))[0].5, *b"two");
}

/// `l`: "root (32 bytes)"; "answer, found (0 or 1), 0; then place, position, staged (0 or 1), 8 bytes each", then host and digests.
fn locate_in_scripts() {
    let locate = |root: tree::Hash| calls::item_bytes(&Item::Locate { root });
    assert_eq!(locate([7; 32]), [&b"l"[..], &[7; 32]].concat());
    let fresh = calls::item_bytes(&Item::Fresh { disk: 8 * 4096, stage: 4 * 4096, fill: 9 });
    let base = 3 * 8 + 3 * 8 + 8 * 8 + 8 + 6 * 32;
    // no host yet: 1, and zeros
    let out = calls::play(&locate([0; 32]));
    assert_eq!((out.len(), &out[..8], &out[8..48]), (base + 24, &1u64.to_le_bytes()[..], &[0; 40][..]));
    // the host's part and the digests stand behind the three numbers, as they would without them
    let asked = calls::play(&[&fresh[..], &locate([0; 32])].concat());
    let beside = calls::play(&[&fresh[..], &calls::item_bytes(&Item::Sound { disk: 0, stage: 0 })].concat());
    assert_eq!((&asked[base..base + 48], asked[base + 48..].to_vec()), (&[0; 48][..], beside[base + 24..].to_vec()));
    // cut short: malformed
    assert_eq!(calls::play(&[&fresh[..], &locate([0; 32])[..32]].concat()).len(), base);
    // a contract of two sectors, a program that writes to the second
    let layout = grow(&[1, 2]).write(4096, b"nuts");
    let program = |layout: &Layout| {
        let head = head::encoded(&head(A, &layout.instructions, layout.data.len() as u64));
        let open = Item::Open { output_length: 4096, budget: BUDGET, prices: PRICES, head };
        let input = layout.data.len() as u64;
        let piece = Item::Piece { disk: 8 * 4096, stage: 4 * 4096, input, output: 4096, piece: layout.data.clone() };
        [calls::item_bytes(&open), calls::item_bytes(&piece)].concat()
    };
    let size = 8192;
    let root = tree::joined(&[sector_root(b""), sector_root(b"nuts")]);
    let agree = calls::item_bytes(&Item::Agree { disk: 8 * 4096, stage: 4 * 4096, size, root });
    let form = [calls::item_bytes(&Item::Form { id: B }), calls::item_bytes(&Item::Form { id: A })].concat();
    let ready = [fresh, form, program(&layout), agree, program(&Layout::default().write(4096, b"Nuts"))].concat();
    let before = calls::play(&ready).len();
    for (word, numbers) in [
        (&b"Nuts"[..], [0, 1, 0, 1, 1, 1]),
        (b"", [0, 1, 0, 1, 0, 0]),
        (b"nuts", [0, 0, 0, 0, 0, 0]),
        (b"none", [0, 0, 0, 0, 0, 0]),
    ] {
        let out = calls::play(&[&ready[..], &locate(sector_root(word))].concat());
        assert_eq!(out[before..before + 48], numbers.map(u64::to_le_bytes).concat());
        let lines = show::report_lines(&out[before..], &Item::Locate { root: [0; 32] });
        assert_eq!(
            lines[1..6],
            ["found", "growth", "found at place", "found at position", "found in the stage"]
                .iter()
                .zip(&numbers[1..])
                .map(|(name, number)| format!("{name} {number}"))
                .collect::<Vec<String>>()
        );
        // twice: the same again, so that the first has changed nothing that shows
        let twice = calls::play(&[&ready[..], &locate(sector_root(word)), &locate(sector_root(word))].concat());
        assert_eq!(twice[out.len()..], out[before..]);
    }
}

/// Every sector that a look-up sees, with its root, in its order, from a list that is sorted: the parent's ahead of the others, by place,
/// by position.
fn sectors_in_order(host: &Host) -> Vec<(tree::Hash, Spot)> {
    let mut all = Vec::new();
    let program = &host.program;
    for (place, position) in (0..8).rev().flat_map(|place| (0..64u64).rev().map(move |position| (place, position))) {
        let contract = &host.places[place];
        let own = program.open && contract.held && contract.id == program.head.contract;
        let size = if own { program.running } else { contract.size };
        if !contract.held || position * host.sector >= size {
            continue;
        }
        let staged = own && program.staged[position as usize] != 255;
        let root = match staged {
            true => host.stage_roots[program.staged[position as usize] as usize],
            false => host.disk_roots[contract.slots[position as usize] as usize],
        };
        all.push((!own, place, position, root, staged));
    }
    all.sort();
    all.into_iter().map(|(_, place, position, root, staged)| (root, Spot { place, position, staged })).collect()
}

/// After each call of random scripts: each kept root, of slots that positions have and of others, and roots beside it.
fn looked_up_otherwise() {
    let (mut asked, mut found) = (0, 0);
    for number in (1..1_200).step_by(2) {
        let mut player = calls::new_player();
        let bytes = gen::input(110, number).bytes;
        let mut reader = head::Reader { rest: &bytes };
        while let Some(item) = calls::read_item(&mut reader) {
            player.call(&item);
            let host = &player.host;
            let mut roots: Vec<tree::Hash> = host.disk_roots.iter().chain(&host.stage_roots).copied().collect();
            roots.extend(
                host.disk_roots
                    .iter()
                    .map(|root| [&root[..31], &[root[31] ^ 1]].concat().try_into().unwrap())
                    .collect::<Vec<tree::Hash>>(),
            );
            roots.sort();
            roots.dedup();
            let order = if host.in_order() { sectors_in_order(host) } else { vec![] };
            for root in roots {
                let expected = order.iter().find(|sector| sector.0 == root).map(|sector| sector.1);
                assert_eq!(
                    host.locate(&root),
                    (if host.in_order() { 0 } else { 1 }, expected),
                    "input {number}, {}",
                    show::item_text(&item)
                );
                asked += 1;
                found += expected.is_some() as u64;
            }
        }
    }
    assert!(asked > 50_000 && found > 10_000, "{asked} asked, {found} found");
}
