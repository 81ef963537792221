//! Counts of what occurred while the model ran: answers by call, record numbers by instruction, and other events.

use std::cell::{Cell, RefCell};
use std::collections::BTreeMap;

type Counts<Key> = RefCell<BTreeMap<Key, u64>>;

thread_local! {
    static OFF: Cell<bool> = const { Cell::new(false) };
    static ANSWERS: Counts<(&'static str, u64)> = Counts::default();
    static RECORDS: Counts<(&'static str, u64)> = Counts::default();
    static EVENTS: Counts<&'static str> = Counts::default();
    static DISORDERS: Counts<&'static str> = Counts::default();
    /// Answers and record numbers by the host's sector size.
    static SIZED: Counts<(u64, &'static str, u64)> = Counts::default();
}

/// What a function gives, with nothing counted.
pub fn uncounted<Given>(function: impl FnOnce() -> Given) -> Given {
    OFF.set(true);
    let given = function();
    OFF.set(false);
    given
}

/// Whether nothing is counted just now.
pub fn is_off() -> bool {
    OFF.get()
}

fn count<Key: Ord>(counts: &'static std::thread::LocalKey<Counts<Key>>, key: Key) {
    if !OFF.get() {
        counts.with(|counts| *counts.borrow_mut().entry(key).or_insert(0) += 1);
    }
}

pub fn answer(call: &'static str, number: u64) {
    count(&ANSWERS, (call, number));
}

pub fn record(instruction: &'static str, number: u64) {
    count(&RECORDS, (instruction, number));
}

pub fn event(name: &'static str) {
    count(&EVENTS, name);
}

/// A call of this name, or an instruction, had this answer or record number on a host of this sector size.
pub fn sized(sector: u64, name: &'static str, number: u64) {
    count(&SIZED, (sector, name, number));
}

/// A call met a host of which this condition of order does not hold.
pub fn disorder(condition: &'static str) {
    count(&DISORDERS, condition);
}

/// The answers that each call can give.
const ANSWERS_POSSIBLE: [(&str, &[u64]); 16] = [
    ("fresh", &[0, 2]),
    ("fresh of a size", &[0, 2]),
    ("form", &[0, 1, 3, 5, 6, 8, 15]),
    ("drop", &[0, 1, 3, 5, 7]),
    ("open", &[0, 1, 2, 3, 7, 9, 10, 11]),
    ("piece", &[0, 1, 2, 4, 12]),
    ("interrupt", &[0, 1, 2, 4]),
    ("give up", &[0, 1, 2, 4]),
    ("agree", &[0, 1, 2, 4, 13, 14]),
    ("reached", &[0, 1, 2, 4]),
    ("sound", &[0, 1, 2]),
    ("locate", &[0, 1]),
    ("poke", &[0]),
    ("check", &[0, 1]),
    ("(malformed item)", &[0]),
    ("depot", &[0, 5, 6, 7, 8, 9, 10, 11, 12, 13, 15]),
];

/// The record numbers that each instruction can have. 25 needs a contract or a root, 41 a new size.
const RECORDS_POSSIBLE: [(&str, &[u64]); 7] = [
    ("Read", &[0, 20, 21, 22, 23, 25, 26, 27, 28, 42]),
    ("ReadSector", &[0, 20, 21, 22, 23, 25, 26, 27, 28, 42]),
    ("Write", &[0, 20, 21, 22, 23, 24, 26, 27, 28, 40, 42]),
    ("Copy", &[0, 20, 21, 22, 23, 24, 26, 27, 28, 40, 42]),
    ("Swap", &[0, 20, 21, 22, 23, 24, 26, 27, 28, 40, 42]),
    ("Truncate", &[0, 20, 21, 22, 23, 24, 26, 27, 28, 40, 41, 42]),
    ("(unknown)", &[20, 21]),
];

const EVENTS_POSSIBLE: [&str; 137] = [
    "Read of the parent",
    "Read of another contract",
    "proof of all of one sector, no hashes",
    "proof in one sector",
    "proof in 2, 4, 8, 16, 32 or 64 sectors",
    "proof in another number of sectors",
    "Copy overlapping, upward",
    "Copy overlapping, downward",
    "Copy between sectors",
    "Swap overlapping, upward",
    "Swap overlapping, downward",
    "Swap with itself",
    "Swap of two staged sectors",
    "Swap taking one slot",
    "Swap taking two slots",
    "growth",
    "growth over a committed position that was cut off",
    "Truncate to the same size",
    "shrinking, the dropped position staged",
    "shrinking, the dropped position not staged",
    "commit, larger",
    "commit, smaller",
    "commit, same size",
    "commit, disk slots not in line",
    "nothing changed: none staged, its pair named",
    "nothing changed: none staged, another pair named",
    "nothing changed: sectors staged, its pair named",
    "nothing changed: sectors staged, another pair named",
    "nothing changed: read-only, its pair named",
    "nothing changed: read-only, another pair named",
    "nothing changed, not ended or failed (13 first)",
    "the starting pair named, another reached",
    "give up with changes staged",
    "piece after the end",
    "piece after a failure",
    "interrupt of an ended program",
    "interrupt of a failed program",
    "program in order that no run makes",
    "contract at 64 sectors",
    "several pieces needed for one instruction",
    "id formed with byte 4 alone behind its first four",
    "id formed with byte 31 alone behind its first four",
    "padded id formed with no free place (15 before 8)",
    "padded id held: formed (15 before 6)",
    "padded id held: opened",
    "padded id held: committed",
    "padded id held: read by another program",
    "padded id held: dropped",
    "Read across a 4,096 edge",
    "ReadSector across a 4,096 edge",
    "Write across a 4,096 edge",
    "Copy to a span across a 4,096 edge",
    "Copy from a span across a 4,096 edge",
    "Swap of a span across a 4,096 edge",
    "26: Truncate by 4,096, sectors are larger",
    "26: Truncate by two sectors",
    "host in order whose areas are longer than those that stand behind the script",
    "k yes, one segment in all",
    "k yes, count up to 4,096",
    "k yes, count above 4,096",
    "k yes, count 4,194,304",
    "k yes, tail of 131,072 bytes",
    "k no: root's length or count",
    "k no: first < end <= count",
    "k no: number of bytes",
    "k no: hashes missing",
    "k no: hash bytes left over",
    "k no: another root",
    "k no: right but for a tail above 131,072 bytes",
    "s 2, no program open",
    "s 2, a program open",
    "s yes, no program open",
    "s yes, a program open, none staged",
    "s yes, a program open, sectors staged",
    "s yes, a root written over in a slot that no position has",
    "s no, a disk slot, no program open",
    "s no, a disk slot, a program open",
    "s no, a stage slot",
    "unsound: another root in a record",
    "unsound: another proof",
    "unsound: ReadSector finds what the bytes do not have",
    "unsound: ReadSector does not find what the bytes have",
    "unsound: ReadSector finds another sector",
    "unsound: interrupt, another root",
    "unsound: another root reached",
    "unsound: agreement, bytes changed and no kept root (0, nothing committed)",
    "unsound: agreement, kept roots changed and no byte",
    "unsound: agreement to the bytes' pair (14)",
    "made sound by a piece",
    "made sound by an agreement",
    "made sound by giving up",
    "made sound by dropping",
    "ReadSector found in the stage",
    "ReadSector found in the stage, past the starting size",
    "ReadSector found in the parent, on the disk",
    "ReadSector found in another contract",
    "ReadSector found in read-only mode",
    "ReadSector not found, not in read-only mode",
    "ReadSector not found in read-only mode",
    "ReadSector of two equal sectors of the parent",
    "ReadSector passes over an equal sector at a lower place",
    "ReadSector of the parent, an equal sector at a higher place",
    "ReadSector: overwritten, not found",
    "ReadSector: cut off, not found",
    "ReadSector: overwritten, found in another contract",
    "ReadSector: cut off, found in another contract",
    "ReadSector: overwritten or cut off, found in the stage",
    "ReadSector not found, 31 bytes alike",
    "ReadSector not found, four bytes alike",
    "ReadSector passes over four bytes alike",
    "l found in the stage",
    "l found in the stage, past the starting size",
    "l found in the parent, on the disk",
    "l found in another contract, a writer open",
    "l found in read-only mode",
    "l not found, a writer open",
    "l not found in read-only mode",
    "l of two equal sectors of the parent",
    "l passes over an equal sector at a lower place",
    "l of the parent, an equal sector at a higher place",
    "l: overwritten, not found",
    "l: cut off, not found",
    "l: overwritten, found in another contract",
    "l: cut off, found in another contract",
    "l: overwritten or cut off, found in the stage",
    "l not found, 31 bytes alike",
    "l not found, four bytes alike",
    "l passes over four bytes alike",
    "l found, no program open",
    "l not found, no program open",
    "l found under the zero id, no program open",
    "l found in the stage, after a failure",
    "l found on the disk, after a failure",
    "l not found, after a failure",
    "unsound: l finds what the bytes do not have",
    "unsound: l does not find what the bytes have",
    "unsound: l finds another sector",
];

const DISORDERS_POSSIBLE: [&str; 24] = [
    "sector size a power of two from 4,096 to 4,194,304",
    "disk length as above",
    "stage length as above",
    "ids differ",
    "none the ReadOnly word",
    "sizes whole sectors",
    "each committed position has a disk slot",
    "a disk slot of its own",
    "within the disk",
    "parent present",
    "read-only mode with running size 0",
    "head within limits",
    "output length within limits",
    "bytes come within the declared length",
    "instructions run within their count",
    "tally within budget",
    "written bytes within the output length",
    "with 72 left unless it failed",
    "running size whole sectors",
    "with the other sizes, within the disk",
    "each position past the starting size staged",
    "each staged position below the running size",
    "in a stage slot",
    "a stage slot of its own",
];

/// Forgets all counts.
pub fn clear() {
    ANSWERS.with(|counts| counts.borrow_mut().clear());
    RECORDS.with(|counts| counts.borrow_mut().clear());
    EVENTS.with(|counts| counts.borrow_mut().clear());
    DISORDERS.with(|counts| counts.borrow_mut().clear());
    SIZED.with(|counts| counts.borrow_mut().clear());
}

/// The names of all that occurred.
pub fn reached() -> Vec<String> {
    let mut all = Vec::new();
    ANSWERS.with(|counts| all.extend(counts.borrow().keys().map(|(call, number)| format!("{call} {number}"))));
    RECORDS.with(|counts| all.extend(counts.borrow().keys().map(|(name, number)| format!("record {name} {number}"))));
    EVENTS.with(|counts| all.extend(counts.borrow().keys().map(|name| name.to_string())));
    DISORDERS.with(|counts| all.extend(counts.borrow().keys().map(|name| format!("not in order: {name}"))));
    SIZED.with(|counts| {
        let counts = counts.borrow();
        let larger = counts.keys().filter(|(sector, _, _)| SIZES.contains(sector)).map(|(_, name, number)| (*name, *number));
        let larger: std::collections::BTreeSet<(&str, u64)> = larger.collect();
        all.extend(larger.iter().map(|(name, number)| format!("larger sectors: {name} {number}")));
    });
    all
}

/// The sizes of hosts whose areas can stand behind a script, but for the least.
const SIZES: [u64; 4] = [8_192, 16_384, 32_768, 65_536];

/// Prints all counts; what could occur and did not is marked.
pub fn print() {
    println!("answers by call (number:count):");
    ANSWERS.with(|counts| print_table(&ANSWERS_POSSIBLE, &counts.borrow()));
    println!("record numbers by instruction (number:count):");
    RECORDS.with(|counts| print_table(&RECORDS_POSSIBLE, &counts.borrow()));
    println!("events:");
    EVENTS.with(|counts| print_list(&EVENTS_POSSIBLE, &counts.borrow()));
    println!("calls on a host not in order, by the first condition that fails:");
    DISORDERS.with(|counts| print_list(&DISORDERS_POSSIBLE, &counts.borrow()));
    println!("answers and record numbers by the host's sector size:");
    SIZED.with(|counts| print_sized(&counts.borrow()));
}

/// A line for each size: how many calls were accepted and refused, how many instructions ran and failed; and what is missing.
fn print_sized(counts: &BTreeMap<(u64, &'static str, u64), u64>) {
    let is_call = |name: &str| ANSWERS_POSSIBLE.iter().any(|(call, _)| *call == name);
    let sizes: std::collections::BTreeSet<u64> = counts.keys().map(|key| key.0).collect();
    let mut others = [0; 4];
    for sector in sizes {
        let mut sums = [0; 4];
        for ((_, name, number), count) in counts.iter().filter(|((size, _, _), _)| *size == sector) {
            sums[if is_call(name) { 0 } else { 2 } + (*number != 0) as usize] += count;
        }
        if crate::host::size_taken(sector) {
            println!(
                "  {sector:>9}: calls done {}, refused {}; instructions run {}, failed {}",
                sums[0], sums[1], sums[2], sums[3]
            );
        } else {
            others = std::array::from_fn(|i| others[i] + sums[i]);
        }
    }
    println!(
        "     others: calls done {}, refused {}; instructions run {}, failed {}",
        others[0], others[1], others[2], others[3]
    );
    let on_hosts =
        ["fresh of a size", "form", "drop", "open", "piece", "interrupt", "give up", "agree", "reached", "sound", "locate"];
    for sector in SIZES {
        let calls = ANSWERS_POSSIBLE.iter().filter(|(call, _)| on_hosts.contains(call));
        let missing: Vec<String> = calls
            .chain(&RECORDS_POSSIBLE)
            .flat_map(|(name, numbers)| numbers.iter().map(move |number| (*name, *number)))
            .filter(|(name, number)| {
                (*name, *number) != ("fresh of a size", 2) && !counts.contains_key(&(sector, *name, *number))
            })
            .map(|(name, number)| format!("{name} {number}"))
            .collect();
        println!("  missing at {sector}: {}", if missing.is_empty() { "none".to_string() } else { missing.join(", ") });
    }
}

fn print_table(possible: &[(&'static str, &[u64])], counts: &BTreeMap<(&'static str, u64), u64>) {
    let mut missing = Vec::new();
    for (name, numbers) in possible {
        let shown: Vec<String> =
            counts.iter().filter(|((n, _), _)| n == name).map(|((_, number), count)| format!("{number}:{count}")).collect();
        println!("  {name:17} {}", shown.join(" "));
        missing.extend(numbers.iter().filter(|&&number| !counts.contains_key(&(*name, number))).map(|n| format!("{name} {n}")));
        for (_, number) in counts.keys().filter(|(n, number)| n == name && !numbers.contains(number)) {
            println!("    NOT THOUGHT POSSIBLE: {name} {number}");
        }
    }
    println!("  missing: {}", if missing.is_empty() { "none".to_string() } else { missing.join(", ") });
}

fn print_list(possible: &[&'static str], counts: &BTreeMap<&'static str, u64>) {
    for name in possible {
        println!("  {:>9} {name}", counts.get(name).copied().unwrap_or(0));
    }
    for name in counts.keys().filter(|name| !possible.contains(name)) {
        println!("    NOT LISTED: {name}");
    }
}
