//! The script player: reads items, makes each call on one host, and writes what it answered and what it left.

use crate::blake2b::hash32;
use crate::coverage;
use crate::depot;
use crate::head::Reader;
use crate::host::{self, Host, NONE};
use crate::lookup::Spot;
use crate::roots;
use crate::tree;
use crate::unsound;

/// "Four areas stand behind it: disk 262,144 bytes, stage 65,536, input 65,536, output 65,536."
pub const DISK: usize = 262_144;
pub const STAGE: usize = 65_536;
pub const INPUT: usize = 65_536;
pub const OUTPUT: usize = 65_536;
/// "A tail of `k` has at most 131,072 bytes; of a longer one the answer is no."
pub const MOST_TAIL: usize = 131_072;

/// Whether `fill` is an 8-byte number (of a byte's value) or one byte: "fills all four areas with the byte `fill`".
const FILL_IS_A_NUMBER: bool = false;

/// An item of a script. In a `Check` the tail's first `data` bytes are those that the proof is of, the others its hashes.
#[derive(Clone, Debug)]
pub enum Item {
    Fresh { disk: u64, stage: u64, fill: u8 },
    FreshOfSize { sector: u64, disk: u64, stage: u64, fill: u8 },
    Form { id: [u8; 32] },
    Drop { id: [u8; 32] },
    Open { output_length: u64, budget: u64, prices: [u16; 7], head: Vec<u8> },
    Piece { disk: u64, stage: u64, input: u64, output: u64, piece: Vec<u8> },
    Interrupt { disk: u64, output: u64 },
    GiveUp { disk: u64, stage: u64 },
    Agree { disk: u64, stage: u64, size: u64, root: [u8; 32] },
    Reached { disk: u64, stage: u64 },
    Sound { disk: u64, stage: u64 },
    Locate { root: [u8; 32] },
    Poke { field: u64, i: u64, j: u64, value: u64 },
    Check { root: [u8; 32], count: u64, first: u64, end: u64, data: u64, tail: Vec<u8> },
}

/// What a call answered.
#[derive(Clone, Copy, PartialEq, Debug, Default)]
pub struct Answered {
    pub answer: u64,
    pub tally: u64,
    pub growth: i64,
    /// Only for `r`.
    pub root: Option<[u8; 32]>,
    /// Only for `l`: place, position, and whether the stage held it; zeros where nothing is found.
    pub spot: Option<Spot>,
}

/// "answer, found (0 or 1), 0; then place, position, staged (0 or 1)"; "0, 0, 0, no where nothing is found", with a refusal too.
fn located((answer, found): (u64, Option<Spot>)) -> Answered {
    let spot = found.unwrap_or(Spot { place: 0, position: 0, staged: false });
    Answered { answer, tally: found.is_some() as u64, spot: Some(spot), ..Answered::default() }
}

fn only(answer: u64) -> Answered {
    Answered { answer, ..Answered::default() }
}

/// "The running tally is a number in the result": with 0 the tally of the open program, with a refusal 0.
fn running(answer: u64, host: &Host) -> Answered {
    Answered { answer, tally: if answer == 0 { host.program.tally } else { 0 }, ..Answered::default() }
}

/// A lent length: "a length above the area's is malformed".
fn lent(reader: &mut Reader, area: usize) -> Option<u64> {
    reader.number().ok().filter(|&length| length <= area as u64)
}

fn fill(reader: &mut Reader) -> Option<u8> {
    if FILL_IS_A_NUMBER {
        return u8::try_from(reader.number().ok()?).ok();
    }
    reader.array::<1>().ok().map(|[byte]| byte)
}

/// The next item, or none at the end of input and at a malformed item.
pub fn read_item(reader: &mut Reader) -> Option<Item> {
    let [kind] = reader.array::<1>().ok()?;
    Some(match kind {
        b'F' => Item::Fresh { disk: reader.number().ok()?, stage: reader.number().ok()?, fill: fill(reader)? },
        b'N' => Item::FreshOfSize {
            sector: reader.number().ok()?,
            disk: reader.number().ok()?,
            stage: reader.number().ok()?,
            fill: fill(reader)?,
        },
        b'f' => Item::Form { id: reader.array().ok()? },
        b'd' => Item::Drop { id: reader.array().ok()? },
        b'o' => read_open(reader)?,
        b'p' => read_piece(reader)?,
        b'i' => Item::Interrupt { disk: lent(reader, DISK)?, output: lent(reader, OUTPUT)? },
        b'g' => Item::GiveUp { disk: lent(reader, DISK)?, stage: lent(reader, STAGE)? },
        b'a' => Item::Agree {
            disk: lent(reader, DISK)?,
            stage: lent(reader, STAGE)?,
            size: reader.number().ok()?,
            root: reader.array().ok()?,
        },
        b'r' => Item::Reached { disk: lent(reader, DISK)?, stage: lent(reader, STAGE)? },
        b's' => Item::Sound { disk: lent(reader, DISK)?, stage: lent(reader, STAGE)? },
        b'l' => Item::Locate { root: reader.array().ok()? },
        b'x' => read_poke(reader)?,
        b'k' => read_check(reader)?,
        _ => return None,
    })
}

/// "output length, budget, seven prices (8 bytes each, at most 65,535), head length, head"
fn read_open(reader: &mut Reader) -> Option<Item> {
    let output_length = reader.number().ok()?;
    let budget = reader.number().ok()?;
    let mut prices = [0u16; 7];
    for price in &mut prices {
        *price = u16::try_from(reader.number().ok()?).ok()?;
    }
    let head_length = reader.number().ok()?;
    let head = reader.bytes(head_length).ok()?.to_vec();
    Some(Item::Open { output_length, budget, prices, head })
}

/// "lent lengths of disk, stage, input, output; piece length; piece"
fn read_piece(reader: &mut Reader) -> Option<Item> {
    let disk = lent(reader, DISK)?;
    let stage = lent(reader, STAGE)?;
    let input = lent(reader, INPUT)?;
    let output = lent(reader, OUTPUT)?;
    let piece_length = reader.number().ok()?;
    let piece = reader.bytes(piece_length).ok()?.to_vec();
    Some(Item::Piece { disk, stage, input, output, piece })
}

/// "root (32 bytes), count, first, end, data length, tail length, tail (the bytes, then the hashes; a data length above the tail's is
/// malformed)"
fn read_check(reader: &mut Reader) -> Option<Item> {
    let root = reader.array().ok()?;
    let (count, first, end) = (reader.number().ok()?, reader.number().ok()?, reader.number().ok()?);
    let data = reader.number().ok()?;
    let tail_length = reader.number().ok().filter(|&length| data <= length)?;
    let tail = reader.bytes(tail_length).ok()?.to_vec();
    Some(Item::Check { root, count, first, end, data, tail })
}

/// How many values i, j and the value itself can take; 0 where i or j is not looked at.
pub fn poke_ranges(field: u64) -> Option<(u64, u64, u128)> {
    const NUMBER: u128 = 1 << 64;
    Some(match field {
        0 | 1 => (0, 0, NUMBER),
        2 => (8, 0, 2),
        3 => (8, 32, 256),
        4 => (8, 0, NUMBER),
        5 => (8, 64, 256),
        6 => (0, 0, 2),
        7..=10 => (0, 0, NUMBER),
        11 => (0, 0, 2),
        12 => (0, 0, NUMBER),
        13 => (64, 0, 256),
        14 | 15 => (0, 0, NUMBER),
        16 => (32, 0, 256),
        17 | 18 => (0, 0, NUMBER),
        19 => (32, 16, 256),
        20 => (32, 0, NUMBER),
        21 | 22 => (32, 4, NUMBER),
        23 => (32, 0, 2),
        24 => (7, 0, 65_536),
        25 => (0, 0, NUMBER),
        26 => (64, 32, 256),
        27 => (16, 32, 256),
        _ => return None,
    })
}

/// "an i or j out of range is malformed", "A value that does not fit its field is malformed."
fn read_poke(reader: &mut Reader) -> Option<Item> {
    let field = reader.number().ok()?;
    let i = reader.number().ok()?;
    let j = reader.number().ok()?;
    let value = reader.number().ok()?;
    let (most_i, most_j, most_value) = poke_ranges(field)?;
    let fits = (most_i == 0 || i < most_i) && (most_j == 0 || j < most_j) && (value as u128) < most_value;
    fits.then_some(Item::Poke { field, i, j, value })
}

/// The bytes of an item.
pub fn item_bytes(item: &Item) -> Vec<u8> {
    let mut bytes = Vec::new();
    let numbers = |bytes: &mut Vec<u8>, kind: u8, numbers: &[u64]| {
        bytes.push(kind);
        bytes.extend(numbers.iter().flat_map(|number| number.to_le_bytes()));
    };
    match item {
        Item::Fresh { disk, stage, fill } => {
            numbers(&mut bytes, b'F', &[*disk, *stage]);
            bytes.extend(&(*fill as u64).to_le_bytes()[..if FILL_IS_A_NUMBER { 8 } else { 1 }]);
        }
        Item::FreshOfSize { sector, disk, stage, fill } => {
            numbers(&mut bytes, b'N', &[*sector, *disk, *stage]);
            bytes.extend(&(*fill as u64).to_le_bytes()[..if FILL_IS_A_NUMBER { 8 } else { 1 }]);
        }
        Item::Form { id } => {
            bytes.push(b'f');
            bytes.extend(id);
        }
        Item::Drop { id } => {
            bytes.push(b'd');
            bytes.extend(id);
        }
        Item::Open { output_length, budget, prices, head } => {
            numbers(&mut bytes, b'o', &[*output_length, *budget]);
            bytes.extend(prices.iter().flat_map(|price| (*price as u64).to_le_bytes()));
            bytes.extend((head.len() as u64).to_le_bytes());
            bytes.extend(head);
        }
        Item::Piece { disk, stage, input, output, piece } => {
            numbers(&mut bytes, b'p', &[*disk, *stage, *input, *output, piece.len() as u64]);
            bytes.extend(piece);
        }
        Item::Interrupt { disk, output } => numbers(&mut bytes, b'i', &[*disk, *output]),
        Item::GiveUp { disk, stage } => numbers(&mut bytes, b'g', &[*disk, *stage]),
        Item::Agree { disk, stage, size, root } => {
            numbers(&mut bytes, b'a', &[*disk, *stage, *size]);
            bytes.extend(root);
        }
        Item::Reached { disk, stage } => numbers(&mut bytes, b'r', &[*disk, *stage]),
        Item::Sound { disk, stage } => numbers(&mut bytes, b's', &[*disk, *stage]),
        Item::Locate { root } => {
            bytes.push(b'l');
            bytes.extend(root);
        }
        Item::Poke { field, i, j, value } => numbers(&mut bytes, b'x', &[*field, *i, *j, *value]),
        Item::Check { root, count, first, end, data, tail } => {
            bytes.push(b'k');
            bytes.extend(root);
            bytes.extend([*count, *first, *end, *data, tail.len() as u64].iter().flat_map(|number| number.to_le_bytes()));
            bytes.extend(tail);
        }
    }
    bytes
}

#[derive(Clone)]
pub struct Player {
    pub host: Host,
    pub disk: Vec<u8>,
    pub stage: Vec<u8>,
    pub input: Vec<u8>,
    pub output: Vec<u8>,
}

/// Before the first `F` or `N`: a host with sector size 0 and no slots, which every call refuses with 1.
pub fn new_player() -> Player {
    let (_, host) = host::fresh(0, 0, 0);
    Player { host, disk: vec![0; DISK], stage: vec![0; STAGE], input: vec![0; INPUT], output: vec![0; OUTPUT] }
}

impl Player {
    /// Makes the item's call.
    pub fn make(&mut self, item: &Item) -> Answered {
        self.note_events(item);
        let (sector, written) = (self.host.sector, self.host.program.written);
        let by_bytes = unsound::found(self).map(|_| unsound::worked_out(self, item));
        let answered = self.call(item);
        if let Some((other, other_after)) = by_bytes {
            unsound::note(written, item, (&answered, self), (&other, &other_after));
        }
        coverage::answer(item_name(item), answered.answer);
        match item {
            Item::Fresh { .. } | Item::FreshOfSize { .. } => coverage::sized(self.host.sector, item_name(item), answered.answer),
            Item::Poke { .. } | Item::Check { .. } => {}
            _ => coverage::sized(sector, item_name(item), answered.answer),
        }
        self.note_ids(item, answered.answer);
        answered
    }

    /// The call, with no counts of its own.
    pub fn call(&mut self, item: &Item) -> Answered {
        let front = |length: &u64| ..*length as usize;
        match item {
            // "`F` stays and means 4,096"
            Item::Fresh { disk, stage, fill } => self.fresh(depot::SECTOR, *disk, *stage, *fill),
            Item::FreshOfSize { sector, disk, stage, fill } => self.fresh(*sector, *disk, *stage, *fill),
            Item::Form { id } => only(self.host.form(id)),
            Item::Drop { id } => only(self.host.drop(id)),
            Item::Open { output_length, budget, prices, head } => {
                let answer = self.host.open(*output_length, *budget, *prices, head);
                running(answer, &self.host)
            }
            Item::Piece { disk, stage, input, output, piece } => {
                let answer = self.host.piece(
                    &self.disk[front(disk)],
                    &mut self.stage[front(stage)],
                    &mut self.input[front(input)],
                    &mut self.output[front(output)],
                    piece,
                );
                running(answer, &self.host)
            }
            Item::Interrupt { disk, output } => {
                let answer = self.host.interrupt(&self.disk[front(disk)], &mut self.output[front(output)]);
                running(answer, &self.host)
            }
            Item::GiveUp { disk, stage } => closed(self.host.give_up(&self.disk[front(disk)], &self.stage[front(stage)])),
            Item::Agree { disk, stage, size, root } => {
                closed(self.host.agree(&mut self.disk[front(disk)], &self.stage[front(stage)], *size, root))
            }
            Item::Reached { disk, stage } => {
                let (answer, size, root) = self.host.reached(&self.disk[front(disk)], &self.stage[front(stage)]);
                Answered { answer, tally: size, root: Some(root), ..Answered::default() }
            }
            // "answer, sound (0 or 1), 0"
            Item::Sound { disk, stage } => {
                let (answer, sound) = self.host.sound(&self.disk[front(disk)], &self.stage[front(stage)]);
                Answered { answer, tally: sound as u64, ..Answered::default() }
            }
            Item::Locate { root } if roots::are_worked_out() && self.fits() => {
                located(self.host.locate_by_bytes(&self.disk, &self.stage, root))
            }
            Item::Locate { root } => located(self.host.locate(root)),
            Item::Poke { field, i, j, value } => {
                poke(&mut self.host, *field, *i as usize, *j as usize, *value);
                only(0)
            }
            Item::Check { root, count, first, end, data, tail } => {
                let (bytes, hashes) = tail.split_at(*data as usize);
                only((tail.len() <= MOST_TAIL && tree::check(root, *count, *first, *end, bytes, hashes)) as u64)
            }
        }
    }

    /// Whether the host is in order and its areas are no longer than those that stand behind the script.
    pub fn fits(&self) -> bool {
        self.host.in_order() && self.host.disk_length() <= DISK as u64 && self.host.stage_length() <= STAGE as u64
    }

    /// "makes the host and fills all four areas with that byte"
    fn fresh(&mut self, sector: u64, disk: u64, stage: u64, fill: u8) -> Answered {
        let (answer, host) = host::fresh(sector, disk, stage);
        self.host = host;
        for area in [&mut self.disk, &mut self.stage, &mut self.input, &mut self.output] {
            area.fill(fill);
        }
        only(answer)
    }

    /// Counts, for the coverage that `run` prints.
    fn note_events(&self, item: &Item) {
        let program = &self.host.program;
        if let Item::Check { root, count, first, end, data, tail } = item {
            return note_check(root, *count, *first, *end, *data as usize, tail);
        }
        if let Some(condition) = self.host.disorder() {
            return coverage::disorder(condition);
        }
        if self.host.disk_length() > DISK as u64 || self.host.stage_length() > STAGE as u64 {
            coverage::event("host in order whose areas are longer than those that stand behind the script");
        }
        if let Item::Sound { disk, stage } = item {
            unsound::note_asked(self, *disk, *stage);
        }
        if !program.open {
            return;
        }
        let staged = program.staged.iter().any(|&slot| slot != NONE);
        match item {
            Item::Piece { .. } if program.failed => coverage::event("piece after a failure"),
            Item::Piece { .. } if self.host.ended() => coverage::event("piece after the end"),
            Item::Piece { .. } if program.tally < program.prices[0] as u64 || (program.ran == 0 && program.written > 0) => {
                coverage::event("program in order that no run makes")
            }
            Item::Piece { .. } if program.came > 0 => coverage::event("several pieces needed for one instruction"),
            Item::Interrupt { .. } if program.failed => coverage::event("interrupt of a failed program"),
            Item::Interrupt { .. } if self.host.ended() => coverage::event("interrupt of an ended program"),
            Item::GiveUp { .. } if staged => coverage::event("give up with changes staged"),
            Item::Agree { disk, stage, size, root } => self.note_agreement(*disk, *stage, *size, root),
            _ => {}
        }
    }

    /// Counts of padded ids (M-106) and of ids beside them, after the call.
    fn note_ids(&self, item: &Item, answer: u64) {
        let behind = |id: &[u8; 32]| (4..32).filter(|&at| id[at] != 0).collect::<Vec<usize>>();
        match (item, answer) {
            (Item::Form { id }, 0) if behind(id) == [4] => coverage::event("id formed with byte 4 alone behind its first four"),
            (Item::Form { id }, 0) if behind(id) == [31] => coverage::event("id formed with byte 31 alone behind its first four"),
            (Item::Form { id }, 15) if self.host.find(id).is_some() => coverage::event("padded id held: formed (15 before 6)"),
            (Item::Form { .. }, 15) if self.host.places.iter().all(|place| place.held) => {
                coverage::event("padded id formed with no free place (15 before 8)")
            }
            (Item::Open { .. }, 0) if host::padded(&self.host.program.head.contract) => coverage::event("padded id held: opened"),
            (Item::Drop { id }, 0) if host::padded(id) => coverage::event("padded id held: dropped"),
            _ => {}
        }
    }

    /// Counts of agreements, before the call.
    fn note_agreement(&self, disk: u64, stage: u64, size: u64, root: &[u8; 32]) {
        let (disk, stage) = (&self.disk[..disk as usize], &self.stage[..stage as usize]);
        let (answer, size_reached, root_reached) = self.host.reached(disk, stage);
        if answer != 0 {
            return;
        }
        if unsound::found(self).is_some() {
            unsound::note_agreement(self, size, root);
        }
        let starting = self.host.starting_pair(disk);
        let unchanged = self.host.running_pair(disk, stage) == starting;
        if !self.host.ended() || self.host.program.failed {
            if unchanged {
                coverage::event("nothing changed, not ended or failed (13 first)");
            }
            return;
        }
        let named = (size, *root) == (size_reached, root_reached);
        if unchanged {
            let staged = self.host.program.staged.iter().any(|&slot| slot != NONE);
            return coverage::event(match (self.host.parent().is_none(), staged, named) {
                (true, _, true) => "nothing changed: read-only, its pair named",
                (true, _, false) => "nothing changed: read-only, another pair named",
                (false, true, true) => "nothing changed: sectors staged, its pair named",
                (false, true, false) => "nothing changed: sectors staged, another pair named",
                (false, false, true) => "nothing changed: none staged, its pair named",
                (false, false, false) => "nothing changed: none staged, another pair named",
            });
        }
        if (size, *root) == starting {
            coverage::event("the starting pair named, another reached");
        }
        if named {
            self.note_commit(size);
        }
    }

    fn note_commit(&self, size: u64) {
        let Some(place) = self.host.parent() else {
            return;
        };
        let before = self.host.places[place].size;
        coverage::event(match size.cmp(&before) {
            std::cmp::Ordering::Less => "commit, smaller",
            std::cmp::Ordering::Equal => "commit, same size",
            std::cmp::Ordering::Greater => "commit, larger",
        });
        let slots = &self.host.places[place].slots[..(before / self.host.sector) as usize];
        if slots.windows(2).any(|pair| pair[1] != pair[0] + 1) {
            coverage::event("commit, disk slots not in line");
        }
        if size == 64 * self.host.sector {
            coverage::event("contract at 64 sectors");
        }
        if host::padded(&self.host.places[place].id) {
            coverage::event("padded id held: committed");
        }
    }
}

/// Counts of what the checker says, and of its grounds.
fn note_check(root: &[u8; 32], count: u64, first: u64, end: u64, data: usize, tail: &[u8]) {
    let (bytes, hashes) = tail.split_at(data);
    let fault = tree::fault(root, count, first, end, bytes, hashes);
    coverage::event(match (fault, count) {
        (None, _) if tail.len() > MOST_TAIL => "k no: right but for a tail above 131,072 bytes",
        (None, 1) => "k yes, one segment in all",
        (None, ..=4_096) => "k yes, count up to 4,096",
        (None, tree::MOST_SEGMENTS) => "k yes, count 4,194,304",
        (None, _) => "k yes, count above 4,096",
        (Some(fault), _) => fault,
    });
    if fault.is_none() && tail.len() == MOST_TAIL {
        coverage::event("k yes, tail of 131,072 bytes");
    }
}

fn closed(closed: crate::program::Closed) -> Answered {
    Answered { answer: closed.answer, tally: closed.tally, growth: closed.growth, ..Answered::default() }
}

pub fn item_name(item: &Item) -> &'static str {
    match item {
        Item::Fresh { .. } => "fresh",
        Item::FreshOfSize { .. } => "fresh of a size",
        Item::Form { .. } => "form",
        Item::Drop { .. } => "drop",
        Item::Open { .. } => "open",
        Item::Piece { .. } => "piece",
        Item::Interrupt { .. } => "interrupt",
        Item::GiveUp { .. } => "give up",
        Item::Agree { .. } => "agree",
        Item::Reached { .. } => "reached",
        Item::Sound { .. } => "sound",
        Item::Locate { .. } => "locate",
        Item::Poke { .. } => "poke",
        Item::Check { .. } => "check",
    }
}

/// "puts a number into the host's record, to damage it". The ranges were tested when the item was read.
fn poke(host: &mut Host, field: u64, i: usize, j: usize, value: u64) {
    let program = &mut host.program;
    match field {
        0 => host.disk_sectors = value,
        1 => host.stage_sectors = value,
        2 => host.places[i].held = value == 1,
        3 => host.places[i].id[j] = value as u8,
        4 => host.places[i].size = value,
        5 => host.places[i].slots[j] = value as u8,
        6 => program.open = value == 1,
        7 => program.came = value,
        8 => program.ran = value,
        9 => program.tally = value,
        10 => program.written = value,
        11 => program.failed = value == 1,
        12 => program.running = value,
        13 => program.staged[i] = value as u8,
        14 => program.output_length = value,
        15 => program.budget = value,
        16 => program.head.contract[i] = value as u8,
        17 => program.head.count = value,
        18 => program.head.declared = value,
        19 => program.head.instructions[i].name[j] = value as u8,
        20 => program.head.instructions[i].operand_count = value,
        21 => program.head.instructions[i].operands[j].offset = value,
        22 => program.head.instructions[i].operands[j].length = value,
        23 => program.head.instructions[i].proof = value == 1,
        24 => program.prices[i] = value as u16,
        25 => host.sector = value,
        26 => host.disk_roots[i][j] = value as u8,
        27 => host.stage_roots[i][j] = value as u8,
        _ => unreachable!(),
    }
}

/// What a field of the host's record holds; the generator puts it back after a poke.
pub fn peek(host: &Host, field: u64, i: usize, j: usize) -> u64 {
    let program = &host.program;
    match field {
        0 => host.disk_sectors,
        1 => host.stage_sectors,
        2 => host.places[i].held as u64,
        3 => host.places[i].id[j] as u64,
        4 => host.places[i].size,
        5 => host.places[i].slots[j] as u64,
        6 => program.open as u64,
        7 => program.came,
        8 => program.ran,
        9 => program.tally,
        10 => program.written,
        11 => program.failed as u64,
        12 => program.running,
        13 => program.staged[i] as u64,
        14 => program.output_length,
        15 => program.budget,
        16 => program.head.contract[i] as u64,
        17 => program.head.count,
        18 => program.head.declared,
        19 => program.head.instructions[i].name[j] as u64,
        20 => program.head.instructions[i].operand_count,
        21 => program.head.instructions[i].operands[j].offset,
        22 => program.head.instructions[i].operands[j].length,
        23 => program.head.instructions[i].proof as u64,
        24 => program.prices[i] as u64,
        25 => host.sector,
        26 => host.disk_roots[i][j] as u64,
        27 => host.stage_roots[i][j] as u64,
        _ => unreachable!(),
    }
}

/// An area's digest is worked out again only when the area's bytes differ from those it was last worked out for.
#[derive(Default)]
struct Digests {
    last: [(Vec<u8>, [u8; 32]); 6],
    filled: std::collections::HashMap<(usize, u8), [u8; 32]>,
}

impl Digests {
    fn digest(&mut self, which: usize, area: &[u8]) -> [u8; 32] {
        if self.last[which].0 != area {
            let digest = self.work_out(area);
            self.last[which] = (area.to_vec(), digest);
        }
        self.last[which].1
    }

    fn work_out(&mut self, area: &[u8]) -> [u8; 32] {
        if area.iter().all(|&byte| byte == area[0]) {
            return *self.filled.entry((area.len(), area[0])).or_insert_with(|| hash32(area));
        }
        hash32(area)
    }
}

thread_local! {
    static DIGESTS: std::cell::RefCell<Digests> = Default::default();
}

/// "After each item it writes: ...". M-105: "Behind the four digests of the areas stand two more: of the 64 kept roots of disk slots
/// (2,048 bytes) and of the 16 of stage slots (512 bytes)."
fn report(player: &Player, answered: &Answered, out: &mut Vec<u8>) {
    let mut number = |value: u64| out.extend(value.to_le_bytes());
    number(answered.answer);
    number(answered.tally);
    number(answered.growth as u64);
    if let Some(spot) = answered.spot {
        number(spot.place as u64);
        number(spot.position);
        number(spot.staged as u64);
    }
    if let Some(root) = answered.root {
        out.extend(root);
    }
    report_host(&player.host, out);
    let (disk_roots, stage_roots) = (player.host.disk_roots.concat(), player.host.stage_roots.concat());
    let areas = [&player.disk, &player.stage, &player.input, &player.output, &disk_roots, &stage_roots];
    for (i, area) in areas.into_iter().enumerate() {
        out.extend(DIGESTS.with(|digests| digests.borrow_mut().digest(i, area)));
    }
}

/// "The report's host starts with the sector size (M-103), and a place shows the slots of size / sector size positions, at most 64 (none
/// where the sector size is 0)." "the host: disk sectors, stage sectors; for each of the 8 places 0, or 1 with id (32 bytes), size and
/// the slots of its positions (8 bytes each); then 0 if no program is open, or 1 with came, ran, tally, written,
/// failed (0 or 1), running size and 64 staged slots (8 bytes each; none: 255)"
fn report_host(host: &Host, out: &mut Vec<u8>) {
    let number = |out: &mut Vec<u8>, value: u64| out.extend(value.to_le_bytes());
    number(out, host.sector);
    number(out, host.disk_sectors);
    number(out, host.stage_sectors);
    for place in &host.places {
        number(out, place.held as u64);
        if place.held {
            out.extend(place.id);
            number(out, place.size);
            let positions = place.size.checked_div(host.sector).unwrap_or(0).min(64) as usize;
            place.slots[..positions].iter().for_each(|&slot| number(out, slot as u64));
        }
    }
    let program = &host.program;
    number(out, program.open as u64);
    if program.open {
        for value in [program.came, program.ran, program.tally, program.written, program.failed as u64, program.running] {
            number(out, value);
        }
        program.staged.iter().for_each(|&slot| number(out, slot as u64));
    }
}

/// What the program writes: "It stops at the end of input, or at the first malformed item (then it writes nothing for that item)."
pub fn play(bytes: &[u8]) -> Vec<u8> {
    let mut player = new_player();
    let mut reader = Reader { rest: bytes };
    let mut out = Vec::new();
    while !reader.rest.is_empty() {
        let Some(item) = read_item(&mut reader) else {
            coverage::answer("(malformed item)", 0);
            break;
        };
        let answered = player.make(&item);
        report(&player, &answered, &mut out);
    }
    out
}

/// Makes the calls of a script and writes nothing, for the counts alone.
pub fn play_unreported(bytes: &[u8]) {
    let mut player = new_player();
    let mut reader = Reader { rest: bytes };
    while !reader.rest.is_empty() {
        let Some(item) = read_item(&mut reader) else {
            coverage::answer("(malformed item)", 0);
            break;
        };
        player.make(&item);
    }
}

/// Whether two players have the same host, as a report shows it, and the same areas and kept roots.
pub fn same(one: &Player, other: &Player) -> bool {
    let host = |player: &Player| {
        let mut shown = Vec::new();
        report_host(&player.host, &mut shown);
        (shown, player.host.disk_roots, player.host.stage_roots)
    };
    let areas = (&one.disk, &one.stage, &one.input, &one.output) == (&other.disk, &other.stage, &other.input, &other.output);
    areas && host(one) == host(other)
}

/// The items of a script with where each one's report starts, for showing where two outputs differ.
pub fn item_reports(bytes: &[u8]) -> Vec<(usize, Item)> {
    let mut player = new_player();
    let mut reader = Reader { rest: bytes };
    let mut out = Vec::new();
    let mut items = Vec::new();
    while let Some(item) = read_item(&mut reader) {
        let answered = player.make(&item);
        items.push((out.len(), item));
        report(&player, &answered, &mut out);
    }
    items
}
