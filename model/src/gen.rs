//! Random inputs for `depot` and `calls`, made by following the model: what is asked next depends on what stands.

use crate::calls::{self, Answered, Item, Player};
use crate::depot;
use crate::draft;
use crate::head;
use crate::host::{self, Host, LEAST_SECTOR, MOST_SECTOR, NONE};
use crate::random::{seeded, Random};
use crate::roots;
use crate::tree;

/// An input with the program that it is for.
pub struct Input {
    pub for_calls: bool,
    pub bytes: Vec<u8>,
}

/// The input of a number, for a seed.
pub fn input(seed: u64, number: u64) -> Input {
    let mut random = seeded(seed.wrapping_mul(1_000_003).wrapping_add(number));
    let for_calls = number % 2 == 1;
    let bytes = if for_calls { script(&mut random) } else { depot_input(&mut random) };
    Input { for_calls, bytes }
}

/// Ids that are alike but for a byte, and the ReadOnly word's neighbours.
fn ids() -> Vec<[u8; 32]> {
    let mut all = vec![[0x11; 32], [0x11; 32], [0x22; 32], head::filled(b"ReadOnly\x01"), head::filled(b"ReadOnl")];
    all[1][31] ^= 1;
    all.extend((0..6).map(|i| {
        let mut id = [0x40 + i; 32];
        id[0] = 0x77;
        id
    }));
    all
}

fn some_id(random: &mut Random) -> [u8; 32] {
    match random.weighted(&[25, 20, 15, 940]) {
        0 => head::read_only_word(),
        1 => padded_id(random),
        2 => one_byte_id(random),
        _ => random.pick(&ids()),
    }
}

/// An id whose bytes 4 to 31 are zero (M-106): four bytes, none, or the first four of the ReadOnly word.
fn padded_id(random: &mut Random) -> [u8; 32] {
    match random.weighted(&[50, 30, 20]) {
        0 => head::filled(&random.bytes(4)),
        1 => [0; 32],
        _ => head::filled(b"Read"),
    }
}

/// An id of zeros but for one byte: often the first or the last of those that make it no padded one.
fn one_byte_id(random: &mut Random) -> [u8; 32] {
    let at = random.below(32);
    let mut id = [0; 32];
    id[random.pick(&[4, 4, 31, 31, at]) as usize] = random.within(1, 255) as u8;
    id
}

fn prices(random: &mut Random) -> [u16; 7] {
    match random.weighted(&[35, 45, 5, 5, 10]) {
        0 => [7, 1, 3, 2, 5, 4, 6],
        1 => std::array::from_fn(|_| random.below(20) as u16),
        2 => [0; 7],
        3 => [65_535; 7],
        _ => std::array::from_fn(|_| random.next() as u16),
    }
}

/// Whether the areas behind a script are long enough for the host, which is in order.
fn fits(host: &Host) -> bool {
    host.disk_length() <= calls::DISK as u64 && host.stage_length() <= calls::STAGE as u64
}

/// Where a program would stand with all the budget and room there can be: the cost and length of each of its records.
fn dry_run(host: &Host, disk: &[u8], prices: [u16; 7], head: &[u8], data: &[u8]) -> Vec<(u64, u64)> {
    if !fits(host) {
        return vec![];
    }
    let mut host = host.clone();
    let mut stage = vec![0u8; host.stage_length() as usize];
    let mut output = vec![0u8; 65_536];
    if host.open(65_536, u64::MAX, prices, head) != 0 {
        return vec![];
    }
    let mut input = vec![0u8; host.program.head.declared as usize];
    if host.piece(&disk[..host.disk_length() as usize], &mut stage, &mut input, &mut output, data) != 0 {
        return vec![];
    }
    let mut records = Vec::new();
    let mut at = 0;
    let number = |at: usize| u64::from_le_bytes(output[at..at + 8].try_into().unwrap());
    while at < host.program.written as usize {
        let hashes = number(at + 56);
        let bytes = number(at + 64 + 32 * hashes as usize);
        let length = 72 + 32 * hashes + bytes;
        records.push((number(at + 8), length));
        at += length as usize;
    }
    records
}

/// How many records there is to be room for: often all but the last.
fn some_records(random: &mut Random, records: &[(u64, u64)]) -> usize {
    if random.chance(400) {
        return records.len().saturating_sub(1);
    }
    random.below(records.len() as u64 + 1) as usize
}

/// A budget: enough, or just about enough for some of the instructions.
fn budget(random: &mut Random, init: u64, records: &[(u64, u64)]) -> u64 {
    match random.weighted(&[70, 13, 10, 5, 2]) {
        0 => 1_000_000_000_000_000,
        1 => {
            let some = some_records(random, records);
            let sum = init + records[..some].iter().map(|record| record.0).sum::<u64>();
            (sum + random.below(3)).saturating_sub(1)
        }
        2 => init + records.iter().map(|record| record.0).sum::<u64>(),
        3 => u64::MAX,
        _ => random.pick(&[0, init, init.saturating_sub(1)]),
    }
}

/// An output length: enough, or just about enough for some of the records.
fn output_length(random: &mut Random, records: &[(u64, u64)]) -> u64 {
    match random.weighted(&[65, 18, 14, 2, 1]) {
        0 => 65_536,
        1 => random.pick(&[16_384, 20_000, 8_192, 4_500]),
        2 => {
            let some = some_records(random, records);
            let sum = 72 + records[..some].iter().map(|record| record.1).sum::<u64>();
            (sum + random.pick(&[0, 0, 1, 71, 72, 73])).saturating_sub(random.below(2)).clamp(72, 65_536)
        }
        3 => random.pick(&[72, 73, 143, 144]),
        _ => random.pick(&[0, 71, 65_537, 1 << 40, u64::MAX]),
    }
}

// Inputs of `depot`

fn depot_input(random: &mut Random) -> Vec<u8> {
    let (_, mut host) = host::fresh(depot::SECTOR, depot::DISK, depot::STAGE);
    let disk = vec![0u8; depot::DISK as usize];
    let mut formed = Vec::new();
    let count = random.weighted(&[6, 48, 20, 10, 6, 4, 3, 2, 2, 3]);
    while formed.len() < count {
        let id = some_id(random);
        let anyway = if host::padded(&id) { 300 } else { 100 };
        if host.form(&id) == 0 || random.chance(anyway) {
            formed.push(id);
        }
    }
    let contract = match random.weighted(&[93, 3, 4]) {
        0 if !formed.is_empty() => random.pick(&formed),
        1 => some_id(random),
        _ => head::read_only_word(),
    };
    let scene = draft::scene(&host, &disk, contract);
    let looks = !scene.read_only && random.chance(80);
    let (head, mut data) = if looks { draft::looking_program(random, &scene) } else { draft::program(random, &scene) };
    let head_bytes = draft::head_bytes(random, &head);
    let prices = prices(random);
    let records = dry_run(&host, &disk, prices, &head_bytes, &data);
    let budget = budget(random, prices[0] as u64, &records);
    match random.weighted(&[88, 6, 6]) {
        0 => {}
        1 => data.truncate(random.below(data.len() as u64 + 1) as usize),
        _ => data.push(0),
    }
    let mut bytes = Vec::new();
    let ahead = [&[7], &prices.map(|price| price as u64)[..], &[budget, formed.len() as u64]].concat();
    bytes.extend(ahead.iter().flat_map(|number| number.to_le_bytes()));
    bytes.extend(formed.concat());
    bytes.extend((head_bytes.len() as u64).to_le_bytes());
    bytes.extend(head_bytes);
    bytes.extend(data);
    if random.chance(if formed.is_empty() { 300 } else { 60 }) {
        damage_depot_input(random, &mut bytes);
    }
    bytes
}

fn damage_depot_input(random: &mut Random, bytes: &mut Vec<u8>) {
    let length = bytes.len() as u64;
    let front = length.min(400);
    let put = |bytes: &mut Vec<u8>, at: usize, number: u64| bytes[at..at + 8].copy_from_slice(&number.to_le_bytes());
    match random.below(7) {
        0 => bytes.truncate(random.below(length) as usize),
        1 => bytes.truncate(random.below(front) as usize),
        2 | 3 => bytes[random.below(front) as usize] ^= 1 << random.below(8),
        4 => put(bytes, 0, random.pick(&[0, 6, 8, 7 + (1 << 32), u64::MAX])),
        5 => put(bytes, 8 * random.within(1, 7) as usize, random.pick(&[65_536, 65_535, 1 << 16, u64::MAX])),
        _ => put(bytes, 72, random.pick(&[1 << 59, 1 << 59, 1 << 58, u64::MAX, 0, 1, 1 << 61])),
    }
}

// Scripts for `calls`

struct Script<'a> {
    random: &'a mut Random,
    bytes: Vec<u8>,
    player: Player,
    pokes: bool,
    /// Whether kept roots are written over (M-105).
    wrong_roots: bool,
}

fn script(random: &mut Random) -> Vec<u8> {
    let pokes = random.chance(350);
    let wrong_roots = random.chance(150);
    let mut script = Script { random, bytes: vec![], player: calls::new_player(), pokes, wrong_roots };
    if script.random.chance(10) {
        script.noise();
    }
    if script.random.chance(10) {
        script.check();
    }
    if script.random.chance(6) {
        script.fill_a_disk();
    } else {
        script.fresh();
        script.form_some();
        if pokes && script.random.chance(250) {
            script.poke_size();
        }
        script.hold_some();
        script.fill_some();
        for _ in 0..script.random.within(2, 6) {
            if wrong_roots && script.random.chance(400) {
                script.write_over_roots();
            }
            if wrong_roots && script.random.chance(60) {
                script.write_what_is_kept();
            }
            script.program();
            script.between_programs();
        }
    }
    let mut bytes = script.bytes;
    if random.chance(30) {
        damage_script(random, &mut bytes);
    }
    bytes
}

fn damage_script(random: &mut Random, bytes: &mut Vec<u8>) {
    let length = bytes.len() as u64;
    match random.below(4) {
        0 => bytes.truncate(random.below(length) as usize),
        1 => bytes[random.below(length) as usize] ^= 1 << random.below(8),
        2 => bytes.push(random.next() as u8),
        _ => {
            bytes.extend(malformed_item(random));
            bytes.extend(calls::item_bytes(&Item::Form { id: [0x11; 32] }));
        }
    }
}

/// An item with a length above the area's, an index out of range, or a value that does not fit.
fn malformed_item(random: &mut Random) -> Vec<u8> {
    let poke = |field, i, j, value| Item::Poke { field, i, j, value };
    let item = match random.below(21) {
        0 => Item::Piece { disk: 262_145, stage: 0, input: 0, output: 0, piece: vec![] },
        1 => Item::Piece { disk: 0, stage: 65_537, input: 0, output: 0, piece: vec![] },
        2 => Item::Piece { disk: 0, stage: 0, input: 65_537, output: 0, piece: vec![] },
        3 => Item::Piece { disk: 0, stage: 0, input: 0, output: u64::MAX, piece: vec![] },
        4 => Item::Interrupt { disk: 1 << 40, output: 0 },
        5 => Item::GiveUp { disk: 4096, stage: 65_537 },
        6 => Item::Agree { disk: 262_145, stage: 4096, size: 0, root: [0; 32] },
        7 => Item::Reached { disk: 4096, stage: 1 << 63 },
        8 => poke(28, 0, 0, 0),
        9 => poke(24, 7, 0, 0),
        10 => poke(24, 0, 0, 65_536),
        11 => poke(5, 8, 0, 0),
        12 => poke(5, 0, 64, 0),
        13 => poke(21, 0, 4, 0),
        14 => poke(random.pick(&[2, 6, 11, 23]), 0, 0, 2),
        15 => Item::Check { root: [0; 32], count: 1, first: 0, end: 1, data: 65, tail: vec![0; 64] },
        16 => Item::Check { root: [0; 32], count: 1, first: 0, end: 1, data: u64::MAX, tail: vec![0; 64] },
        17 => poke(random.pick(&[26, 26, 27]), random.pick(&[64, 64, 16]), 0, 0),
        18 => poke(random.pick(&[26, 27]), 0, 32, 0),
        19 => random.pick(&[Item::Sound { disk: 262_145, stage: 4096 }, Item::Sound { disk: 4096, stage: 65_537 }]),
        _ => poke(random.pick(&[3, 16, 19, 26, 27]), 0, 0, 256),
    };
    calls::item_bytes(&item)
}

impl Script<'_> {
    fn push(&mut self, item: Item) -> Answered {
        self.bytes.extend(calls::item_bytes(&item));
        self.player.make(&item)
    }

    /// A host that the script's areas fit: mostly of the least sectors, often of larger ones.
    fn fresh(&mut self) {
        if self.random.chance(30) {
            self.fresh_in_vain();
        }
        let z = [4_096, 8_192, 16_384, 32_768, 65_536][self.random.weighted(&[58, 15, 13, 8, 6])];
        let disk = match self.random.weighted(&[60, 25, 12, 3]) {
            0 => self.random.within(3, 9),
            1 => self.random.within(1, 4),
            2 => 8,
            _ => self.random.within(10, 64),
        };
        let most_stage = self.random.pick(&[2, 5, 5, 16]);
        let stage = self.random.within(1, most_stage);
        let fill = self.random.pick(&[0u8, 0xEE, 1]);
        let (disk, stage) = (disk.min(calls::DISK as u64 / z) * z, stage.min(calls::STAGE as u64 / z) * z);
        if self.random.chance(25) {
            let bad = [0, 1, z - 1, z + 1, z / 2, 65 * z, 17 * z, u64::MAX, 1 << 44];
            let (disk, stage) = if self.random.chance(500) { (self.random.pick(&bad), z) } else { (z, self.random.pick(&bad)) };
            self.make_host(z, disk, stage, fill);
            self.noise();
        }
        self.make_host(z, disk, stage, fill);
    }

    fn make_host(&mut self, sector: u64, disk: u64, stage: u64, fill: u8) {
        if sector == depot::SECTOR && self.random.chance(750) {
            self.push(Item::Fresh { disk, stage, fill });
        } else {
            self.push(Item::FreshOfSize { sector, disk, stage, fill });
        }
    }

    /// A sector size that no host has, or sectors so large that the script's areas do not fit; then calls, which are refused but for
    /// those that lend no area.
    fn fresh_in_vain(&mut self) {
        let fill = self.random.pick(&[0u8, 0xEE, 1]);
        let z = if self.random.chance(500) { some_bad_size(self.random) } else { 1 << self.random.within(17, 22) };
        let sectors = |n: u64| n.saturating_mul(z);
        let least = [LEAST_SECTOR, 2 * LEAST_SECTOR, 16 * LEAST_SECTOR];
        let (disk, stage) = match self.random.below(6) {
            0 => (self.random.pick(&least), self.random.pick(&least)),
            1 => (sectors(self.random.pick(&[0, 64, 65])), sectors(self.random.pick(&[1, 16, 17]))),
            2 => (sectors(2) ^ 1, sectors(1)),
            3 => (sectors(2), sectors(3) / 2),
            _ => (sectors(self.random.within(1, 64)), sectors(self.random.within(1, 16))),
        };
        self.push(Item::FreshOfSize { sector: z, disk, stage, fill });
        self.form_some();
        for _ in 0..self.random.below(4) {
            self.noise();
        }
        if self.player.host.in_order() && self.random.chance(600) {
            self.program();
        }
        if self.random.chance(300) {
            let value = self.random.pick(&[LEAST_SECTOR, 2 * LEAST_SECTOR, MOST_SECTOR]);
            self.push(Item::Poke { field: 25, i: 0, j: 0, value });
            self.noise();
        }
        if self.player.host.in_order() && self.random.chance(300) {
            self.program();
        }
    }

    fn form_some(&mut self) {
        let count = if self.random.chance(60) { 11 } else { self.random.within(1, 4) };
        for _ in 0..count {
            let id = some_id(self.random);
            self.push(Item::Form { id });
        }
        if self.player.host.places.iter().all(|place| place.held) && self.random.chance(300) {
            let id = padded_id(self.random);
            self.push(Item::Form { id });
        }
    }

    /// Now and then a contract held under a padded id, as a host made before M-106 may hold it: pokes put it into a free place, some
    /// with sectors of its own.
    fn hold_some(&mut self) {
        let host = &self.player.host;
        let free: Vec<usize> = (0..8).filter(|&p| !host.places[p].held && host.places[p].id == [0; 32]).collect();
        let slots: Vec<u64> = (slots_used(host)..host.disk_sectors.min(64)).take(2).collect();
        if free.is_empty() || !self.random.chance(50) {
            return;
        }
        let place = self.random.pick(&free) as u64;
        let id = padded_id(self.random);
        if self.player.host.find(&id).is_some() {
            return;
        }
        for j in (0..4).filter(|&j| id[j] != 0) {
            self.push(Item::Poke { field: 3, i: place, j: j as u64, value: id[j] as u64 });
        }
        if self.random.chance(250) {
            for (j, &slot) in slots.iter().enumerate() {
                self.push(Item::Poke { field: 5, i: place, j: j as u64, value: slot });
            }
            self.push(Item::Poke { field: 4, i: place, j: 0, value: slots.len() as u64 * self.player.host.sector });
        }
        self.push(Item::Poke { field: 2, i: place, j: 0, value: 1 });
    }

    /// Forms a padded id that is held, and drops it now and then, once more after it is gone.
    fn form_held(&mut self) {
        let padded = |place: &&host::Place| place.held && host::padded(&place.id);
        let held: Vec<[u8; 32]> = self.player.host.places.iter().filter(padded).map(|place| place.id).collect();
        if held.is_empty() || !self.random.chance(250) {
            return;
        }
        let id = self.random.pick(&held);
        self.push(Item::Form { id });
        if self.random.chance(300) {
            self.push(Item::Drop { id });
            self.push(Item::Form { id });
        }
    }

    /// Gives some of the contracts something to hold.
    fn fill_some(&mut self) {
        let mut held: Vec<[u8; 32]> = self.player.host.places.iter().filter(|p| p.held).map(|p| p.id).collect();
        if self.random.chance(400) {
            held = [held.clone(), held].concat();
        }
        for contract in held {
            if self.random.chance(200) || !self.player.host.in_order() || self.player.host.program.open {
                continue;
            }
            let scene = draft::scene(&self.player.host, &self.player.disk, contract);
            let room = scene.most_sectors.min(scene.stage_sectors);
            let sectors = self.random.within(0, 3).min(room);
            if sectors > 0 {
                let (head, data) = draft::filling_program(self.random, &scene, sectors);
                self.push(Item::Open { output_length: 4096, budget: u64::MAX, prices: [1; 7], head: head::encoded(&head) });
                let declared = data.len() as u64;
                let [disk, stage, ..] = self.right_lengths();
                self.push(Item::Piece { disk, stage, input: declared, output: 4096, piece: data });
                self.agree(0);
                let [disk, stage, ..] = self.right_lengths();
                self.player.host.program.open.then(|| self.push(Item::GiveUp { disk, stage }));
            }
        }
    }

    /// Lengths as they should be lent: disk, stage, input, output.
    fn right_lengths(&self) -> [u64; 4] {
        let host = &self.player.host;
        let program = &host.program;
        [
            host.disk_sectors.saturating_mul(host.sector).min(calls::DISK as u64),
            host.stage_sectors.saturating_mul(host.sector).min(calls::STAGE as u64),
            if program.open { program.head.declared.min(65_536) } else { 0 },
            if program.open { program.output_length.min(65_536) } else { 0 },
        ]
    }

    /// Mostly the right lengths.
    fn lengths(&mut self, wrong_of_1000: u64) -> [u64; 4] {
        let mut lengths = self.right_lengths();
        if self.random.chance(wrong_of_1000) {
            let host = &self.player.host;
            let z = if host::size_taken(host.sector) { host.sector } else { LEAST_SECTOR };
            let which = self.random.below(4) as usize;
            let right = lengths[which];
            let most = [262_144, 65_536, 65_536, 65_536][which];
            let by_4096 = [host.disk_sectors, host.stage_sectors, 1, 1][which].saturating_mul(LEAST_SECTOR);
            let wrong = [right + 1, right.saturating_sub(1), right + z, right.saturating_sub(z), 0, most, by_4096];
            lengths[which] = self.random.pick(&wrong).min(most);
        }
        lengths
    }

    fn piece(&mut self, piece: &[u8], wrong_of_1000: u64) -> Answered {
        let [disk, stage, input, output] = self.lengths(wrong_of_1000);
        self.push(Item::Piece { disk, stage, input, output, piece: piece.to_vec() })
    }

    /// One byte more than may still come.
    fn one_too_many(&self) -> usize {
        let program = &self.player.host.program;
        program.head.declared.saturating_sub(program.came).min(65_536) as usize + 1
    }

    fn interrupt(&mut self) {
        let [disk, _, _, output] = self.lengths(40);
        self.push(Item::Interrupt { disk, output });
    }

    fn reached(&mut self) -> (u64, [u8; 32]) {
        let [disk, stage, ..] = self.lengths(40);
        let answered = self.push(Item::Reached { disk, stage });
        (answered.tally, answered.root.unwrap())
    }

    /// Looks a root up (M-110): of a sector that the parent has, in the stage or on the disk, that it has no longer, or that another
    /// contract has; one that any slot keeps, free or not; one beside it, or none.
    fn locate(&mut self) {
        let root = self.some_root();
        self.push(Item::Locate { root });
    }

    fn some_root(&mut self) -> [u8; 32] {
        let groups = root_groups(&self.player.host);
        let random = &mut *self.random;
        let group = &groups[random.weighted(&[28, 14, 12, 8, 22, 6, 4, 6])];
        let all: Vec<[u8; 32]> = groups[..5].concat();
        let root = match (group.is_empty(), all.is_empty()) {
            (false, _) => random.pick(group),
            (true, false) => random.pick(&all),
            (true, true) => random.bytes(32).try_into().unwrap(),
        };
        match random.weighted(&[800, 120, 80]) {
            0 => root,
            1 => draft::near(random, root),
            _ => four_bytes_alike(random, root),
        }
    }

    /// Looks some roots up.
    fn look_around(&mut self) {
        for _ in 0..self.random.within(1, 3) {
            self.locate();
        }
    }

    fn sound(&mut self, wrong_of_1000: u64) {
        let [disk, stage, ..] = self.lengths(wrong_of_1000);
        self.push(Item::Sound { disk, stage });
    }

    fn give_up(&mut self) {
        let [disk, stage, ..] = self.lengths(40);
        self.push(Item::GiveUp { disk, stage });
    }

    /// Agreement to the pair reached, or to another.
    fn agree(&mut self, wrong_of_1000: u64) {
        let [disk, stage, ..] = self.lengths(30);
        let right = self.right_lengths();
        let (_, mut size, mut root) =
            self.player.host.reached(&self.player.disk[..right[0] as usize], &self.player.stage[..right[1] as usize]);
        if self.random.chance(wrong_of_1000) {
            let host = &self.player.host;
            match self.random.below(5) {
                0 => size = size.wrapping_add(host.sector),
                1 => size = self.random.pick(&[0, size ^ 1, u64::MAX]),
                2 => root[31] ^= 1,
                3 if host.in_order() && fits(host) => {
                    (size, root) = host.starting_pair(&self.player.disk[..right[0] as usize]);
                }
                _ => root = [0; 32],
            }
        }
        self.push(Item::Agree { disk, stage, size, root });
    }

    /// Agreement to the pair that the bytes make, whatever roots are kept.
    fn agree_by_bytes(&mut self) {
        let [disk, stage, ..] = self.right_lengths();
        let Player { host, disk: disk_area, stage: stage_area, .. } = &self.player;
        if host.program.open && fits(host) {
            let (size, root) = roots::worked_out(|| host.running_pair(disk_area, stage_area));
            self.push(Item::Agree { disk, stage, size, root });
        }
    }

    /// A call that does not belong where it stands.
    fn noise(&mut self) {
        match self.random.below(11) {
            0 | 1 => {
                let id = some_id(self.random);
                self.push(Item::Form { id });
            }
            10 => self.locate(),
            2 => {
                let id = if self.random.chance(150) { head::read_only_word() } else { some_id(self.random) };
                self.push(Item::Drop { id });
            }
            3 => {
                let head = self.random.pick(&[vec![], vec![0; 48], head::encoded(&head::Head::default())]);
                let output_length = self.random.pick(&[72, 100, 71, 65_537]);
                self.push(Item::Open { output_length, budget: 9, prices: [7; 7], head });
            }
            4 => {
                let length = self.random.pick(&[0, 0, 1, self.one_too_many()]);
                self.piece(&vec![3; length], 300);
            }
            5 => {
                let [disk, _, _, output] = self.lengths(300);
                self.push(Item::Interrupt { disk, output });
            }
            6 => {
                let [disk, stage, ..] = self.lengths(300);
                self.push(Item::Reached { disk, stage });
            }
            7 => {
                let [disk, stage, ..] = self.lengths(700);
                self.push(Item::GiveUp { disk, stage });
            }
            8 => self.sound(500),
            _ => {
                let [disk, stage, ..] = self.lengths(800);
                self.push(Item::Agree { disk, stage, size: 0, root: [0; 32] });
            }
        }
    }

    fn sometimes(&mut self) {
        if self.random.chance(60) {
            self.noise();
        }
        if self.pokes && self.random.chance(300) {
            self.poke();
        }
        if self.random.chance(25) {
            self.check();
        }
        if self.random.chance(25) {
            self.sound(100);
        }
        if self.random.chance(60) {
            self.locate();
        }
        if self.wrong_roots && self.player.host.program.open && self.random.chance(200) {
            self.write_over_roots();
        }
    }

    fn between_programs(&mut self) {
        self.sometimes();
        if self.random.chance(120) {
            let held: Vec<[u8; 32]> = self.player.host.places.iter().filter(|p| p.held).map(|p| p.id).collect();
            if !held.is_empty() {
                let id = self.random.pick(&held);
                self.push(Item::Drop { id });
            }
        }
        if self.random.chance(200) {
            let id = some_id(self.random);
            self.push(Item::Form { id });
        }
        self.form_held();
        if self.random.chance(if self.player.host.find(&[0; 32]).is_some() { 500 } else { 120 }) {
            self.look_around();
        }
        if self.random.chance(10) {
            self.fresh();
            self.form_some();
            self.hold_some();
            self.fill_some();
        }
    }

    fn contract(&mut self) -> [u8; 32] {
        let held: Vec<[u8; 32]> = self.player.host.places.iter().filter(|p| p.held).map(|p| p.id).collect();
        match self.random.weighted(&[85, 12, 3]) {
            0 if !held.is_empty() => self.random.pick(&held),
            2 => some_id(self.random),
            _ => head::read_only_word(),
        }
    }

    /// Opens a program, sends it in pieces, closes it.
    fn program(&mut self) {
        if !self.player.host.in_order() || self.player.host.program.open {
            self.noise();
            self.give_up();
            return;
        }
        let contract = self.contract();
        let scene = draft::scene(&self.player.host, &self.player.disk, contract);
        let still = !scene.read_only && self.random.chance(80);
        let known = self.wrong_roots && scene.size > 0 && self.random.chance(500);
        let (head, data) = if known {
            draft::unsound_program(self.random, &scene)
        } else if still {
            draft::still_program(self.random, &scene)
        } else if !scene.read_only && self.random.chance(150) {
            draft::looking_program(self.random, &scene)
        } else {
            draft::program(self.random, &scene)
        };
        let head_bytes = draft::head_bytes(self.random, &head);
        if self.open(head_bytes, &data).answer != 0 && self.random.chance(850) {
            return;
        }
        self.sometimes();
        if self.random.chance(15) {
            self.interrupt();
        }
        self.send(&data);
        if self.random.chance(60) {
            self.interrupt();
        }
        if self.random.chance(250) {
            self.check_what_was_read();
        }
        if self.random.chance(200) {
            self.reached();
        }
        let failed = self.player.host.program.failed;
        if self.random.chance(if failed { 400 } else { 250 }) {
            self.look_around();
        }
        self.sometimes();
        let root = self.some_root();
        self.close();
        if self.random.chance(100) {
            self.push(Item::Locate { root });
        }
        if self.random.chance(if self.wrong_roots { 300 } else { 20 }) {
            self.sound(20);
        }
    }

    fn open(&mut self, head_bytes: Vec<u8>, data: &[u8]) -> Answered {
        let prices = prices(self.random);
        let records = dry_run(&self.player.host, &self.player.disk, prices, &head_bytes, data);
        let budget = budget(self.random, prices[0] as u64, &records);
        let output_length = output_length(self.random, &records);
        self.push(Item::Open { output_length, budget, prices, head: head_bytes })
    }

    /// The data in pieces, cut anywhere, often at or beside an operand's end.
    fn send(&mut self, data: &[u8]) {
        let stop_early = self.random.chance(100);
        let cuts = match self.random.weighted(&[45, 40, 15]) {
            0 => 0,
            1 => self.random.within(1, 3),
            _ => self.random.within(4, 10),
        };
        let mut ends: Vec<usize> = (0..cuts).map(|_| self.cut(data.len())).collect();
        if !stop_early {
            ends.push(data.len());
        }
        ends.sort();
        let mut sent = 0;
        for end in ends {
            let answered = self.piece(&data[sent..end], 15);
            if answered.answer == 0 {
                sent = end;
            }
            if self.random.chance(20) {
                self.interrupt();
            }
            self.sometimes();
        }
        if self.random.chance(100) {
            let more = self.random.pick(&[0, 1, self.one_too_many()]);
            self.piece(&vec![0; more], 0);
        }
    }

    fn cut(&mut self, length: usize) -> usize {
        let head = &self.player.host.program.head;
        if head.count > 0 && head.count <= 32 && self.random.chance(600) {
            let instruction = self.player.host.program.head.instructions[self.random.below(head.count) as usize];
            let operand = instruction.operands[self.random.below(4) as usize];
            let end = operand.offset.saturating_add(operand.length).saturating_add(self.random.below(3)).saturating_sub(1);
            return end.min(length as u64) as usize;
        }
        self.random.below(length as u64 + 1) as usize
    }

    fn close(&mut self) {
        if !self.player.host.in_order() {
            self.noise();
            return;
        }
        match self.random.weighted(&[80, 8, 7, 5]) {
            0 if self.wrong_roots && self.random.chance(250) => self.agree_by_bytes(),
            0 => self.agree(0),
            1 => self.agree(1000),
            2 => self.give_up(),
            _ => self.noise(),
        }
        if self.player.host.program.open {
            let [disk, stage, ..] = self.right_lengths();
            self.push(Item::GiveUp { disk, stage });
        }
    }

    /// A disk of 64 sectors, filled by one contract in steps of 16, and one step more.
    fn fill_a_disk(&mut self) {
        const SECTOR: u64 = depot::SECTOR;
        self.push(Item::Fresh { disk: 64 * SECTOR, stage: 16 * SECTOR, fill: 5 });
        self.push(Item::Form { id: [0x11; 32] });
        for step in 0..5u64 {
            let sizes: Vec<u64> = (step * 16..(step + 1) * 16).map(|sector| (sector + 1) * SECTOR).collect();
            let data: Vec<u8> = sizes.iter().flat_map(|size| size.to_le_bytes()).collect();
            let mut head = head::Head { contract: [0x11; 32], count: 16, declared: 128, ..head::Head::default() };
            for i in 0..16 {
                let mut instruction =
                    head::Instruction { name: head::filled(b"Truncate"), operand_count: 1, ..Default::default() };
                instruction.operands[0] = head::Operand { offset: 8 * i as u64, length: 8 };
                head.instructions[i] = instruction;
            }
            self.push(Item::Open { output_length: 16_384, budget: u64::MAX, prices: [1; 7], head: head::encoded(&head) });
            self.piece(&data, 0);
            self.agree(0);
            let [disk, stage, ..] = self.right_lengths();
            self.push(Item::GiveUp { disk, stage });
        }
        self.program();
        self.program();
    }

    // Pokes

    /// Pokes the host's record, calls, and mostly puts back what stood there.
    fn poke(&mut self) {
        let mut put_back = Vec::new();
        for (field, i, j, value) in self.some_pokes() {
            let before = calls::peek(&self.player.host, field, i as usize, j as usize);
            self.push(Item::Poke { field, i, j, value });
            put_back.push(Item::Poke { field, i, j, value: before });
        }
        let usable = self.player.host.in_order() && fits(&self.player.host);
        for _ in 0..self.random.below(3) {
            self.harmless_call();
        }
        if self.random.chance(if usable { 300 } else { 930 }) {
            for item in put_back.into_iter().rev() {
                self.push(item);
            }
        }
    }

    /// Writes over a byte of a kept root, or all of it, of a slot that a position has or of another one; asks whether the host is sound;
    /// now and then puts back what stood there, and asks again.
    fn write_over_roots(&mut self) {
        let host = &self.player.host;
        if !host.in_order() || !fits(host) {
            return;
        }
        let positions = |size: u64| (size / host.sector) as usize;
        let held = host.places.iter().filter(|place| place.held);
        let used: Vec<u8> = held.flat_map(|place| place.slots[..positions(place.size)].to_vec()).collect();
        let staged: Vec<u8> = host.program.staged.iter().copied().filter(|&slot| host.program.open && slot != NONE).collect();
        let random = &mut *self.random;
        let of_stage = random.chance(if !staged.is_empty() { 600 } else { 100 });
        let slots = if of_stage { &staged } else { &used };
        let most = if of_stage { 16 } else { 64 };
        let slot = if slots.is_empty() || random.chance(150) { random.below(most) } else { random.pick(slots) as u64 };
        let (field, kept) = if of_stage { (27, host.stage_roots[slot as usize]) } else { (26, host.disk_roots[slot as usize]) };
        let root = self.another_root(kept, &used);
        self.keep(field, slot, root);
        if self.random.chance(350) {
            let root = self.random.pick(&[root, kept]);
            self.push(Item::Locate { root });
        }
        self.sound(60);
        if self.random.chance(150) {
            self.keep(field, slot, kept);
            self.sound(0);
        }
    }

    /// Pokes that make this the kept root of a slot, of disk (26) or stage (27).
    fn keep(&mut self, field: u64, slot: u64, root: [u8; 32]) {
        let kept = |host: &Host, j: usize| calls::peek(host, field, slot as usize, j);
        for j in (0..32).filter(|&j| kept(&self.player.host, j) != root[j] as u64).collect::<Vec<usize>>() {
            self.push(Item::Poke { field, i: slot, j: j as u64, value: root[j] as u64 });
        }
    }

    /// Keeps the root of what the next program writes beside a sector of its parent, so that its bytes change and no kept root does.
    fn write_what_is_kept(&mut self) {
        let host = &self.player.host;
        if !host.in_order() || !fits(host) || host.program.open {
            return;
        }
        let filled: Vec<usize> = (0..8).filter(|&p| host.places[p].held && host.places[p].size > 0).collect();
        if filled.is_empty() {
            return;
        }
        let place = self.random.pick(&filled);
        let scene = draft::scene(host, &self.player.disk, host.places[place].id);
        let position = self.random.below(host.places[place].size / host.sector);
        let slot = host.places[place].slots[position as usize];
        let mut sector = host::sector(&self.player.disk, host.sector, slot).to_vec();
        let (from, fill) = (self.random.below(host.sector - 64) as usize, self.random.next() as u8);
        sector[from..from + 64].fill(fill);
        self.keep(26, slot as u64, tree::root(&sector));
        let (head, data) = draft::writing_program(self.random, &scene, position * scene.sector + from as u64, &[fill; 64]);
        if self.open(head::encoded(&head), &data).answer == 0 {
            self.send(&data);
            self.close();
        }
        self.sound(0);
    }

    /// Another root than the kept one, or the same: a byte that differs, mostly; now and then the root of another sector, or one beside
    /// it, the root of zeros, or zeros.
    fn another_root(&mut self, kept: [u8; 32], used: &[u8]) -> [u8; 32] {
        let (host, random) = (&self.player.host, &mut *self.random);
        match random.weighted(&[60, 19, 3, 3, 8, 7]) {
            1 if !used.is_empty() => host.disk_roots[random.pick(used) as usize],
            2 => tree::zeros_root(host.sector),
            3 => [0; 32],
            4 if !used.is_empty() => {
                let other = host.disk_roots[random.pick(used) as usize];
                draft::near(random, other)
            }
            5 if !used.is_empty() => {
                let other = host.disk_roots[random.pick(used) as usize];
                four_bytes_alike(random, other)
            }
            _ => {
                let mut root = kept;
                let j = if random.chance(500) { 31 } else { random.below(32) as usize };
                root[j] = random.pick(&[root[j] ^ 1, root[j] ^ 0x80, 0, 255]);
                root
            }
        }
    }

    /// Another sector size while no contract holds a sector, mostly one that no host has, so that no other condition of order fails;
    /// then calls, and the size as it was.
    fn poke_size(&mut self) {
        let before = self.player.host.sector;
        let value = if self.random.chance(750) { some_bad_size(self.random) } else { 1 << self.random.within(12, 22) };
        self.push(Item::Poke { field: 25, i: 0, j: 0, value });
        for _ in 0..self.random.within(1, 3) {
            match self.random.below(4) {
                0 => {
                    let id = some_id(self.random);
                    self.push(Item::Form { id });
                }
                1 => {
                    let head = head::Head { contract: head::read_only_word(), ..head::Head::default() };
                    self.push(Item::Open { output_length: 72, budget: 9, prices: [7; 7], head: head::encoded(&head) });
                }
                _ => self.noise(),
            }
        }
        self.push(Item::Poke { field: 25, i: 0, j: 0, value: before });
        if self.player.host.program.open {
            self.give_up();
        }
    }

    // Proofs for the checker

    /// A proof of a tree made up for it, right or with something wrong.
    fn check(&mut self) {
        let long = self.random.chance(12);
        let mut proof = if long {
            long_proof(self.random)
        } else if self.random.chance(450) {
            sparse_proof(self.random)
        } else {
            small_proof(self.random)
        };
        if !long && self.random.chance(500) {
            damage_proof(self.random, &mut proof);
        }
        self.push(proof.item());
    }

    /// The proofs that stand in the open program's records, some of them damaged.
    fn check_what_was_read(&mut self) {
        for mut proof in proofs_read(&self.player).into_iter().take(2) {
            if self.random.chance(300) {
                damage_proof(self.random, &mut proof);
            }
            self.push(proof.item());
        }
    }

    /// A call that leaves an open program open if the host is in order.
    fn harmless_call(&mut self) {
        if !self.player.host.in_order() {
            return self.refused_call();
        }
        match self.random.below(6) {
            0 => drop(self.piece(&[], 0)),
            1 => self.noise(),
            2 => self.sound(40),
            3 => self.locate(),
            _ => drop(self.reached()),
        }
    }

    /// Any call: the host is not in order, so it is refused.
    fn refused_call(&mut self) {
        let [disk, stage, ..] = self.right_lengths();
        match self.random.below(10) {
            6 => self.locate(),
            0 => drop(self.push(Item::Agree { disk, stage, size: 0, root: [0; 32] })),
            1 => drop(self.push(Item::GiveUp { disk, stage })),
            2 => drop(self.piece(&[1, 2, 3], 0)),
            3 => self.interrupt(),
            4 => drop(self.reached()),
            5 => self.sound(40),
            _ => self.noise(),
        }
    }

    /// One to three pokes, or some that break just one condition of order.
    fn some_pokes(&mut self) -> Vec<(u64, u64, u64, u64)> {
        let host = &self.player.host;
        let staged: Vec<usize> = (0..64).filter(|&p| host.program.staged[p] != NONE).collect();
        match self.random.below(14) {
            0 if host.program.open && host.read_only_mode() => vec![(12, 0, 0, host.sector), (13, 0, 0, 0)],
            1 => vec![(0, 0, 0, slots_used(host))],
            2 if host.program.open && staged.len() > 1 => vec![(13, staged[0] as u64, 0, host.program.staged[staged[1]] as u64)],
            3 if host.program.open && host.ended() => vec![(11, 0, 0, 1)],
            4 => vec![(25, 0, 0, self.random.pick(&[host.sector / 2, host.sector.wrapping_mul(2)]))],
            5 => vec![(25, 0, 0, some_bad_size(self.random))],
            _ => (0..self.random.pick(&[1, 1, 1, 2, 3])).map(|_| self.some_poke()).collect(),
        }
    }

    /// A field of the host's record and a value for it near what stands.
    fn some_poke(&mut self) -> (u64, u64, u64, u64) {
        let host = self.player.host.clone();
        let program = &host.program;
        let random = &mut *self.random;
        let field = if program.open { random.below(28) } else { random.pick(&[0, 1, 2, 2, 3, 3, 4, 4, 5, 5, 6, 25, 26, 27]) };
        let anywhere = random.chance(150);
        let i = match field {
            2..=5 => random.below(if anywhere { 8 } else { 3 }),
            13 => random.below(if anywhere { 64 } else { 4 }),
            16 => random.pick(&[0, 8, 31]),
            19..=23 => random.below(if anywhere { 32 } else { program.head.count.clamp(1, 32) }),
            24 => random.below(7),
            26 => random.below(if anywhere { 64 } else { slots_used(&host).min(64) }),
            27 => random.below(if anywhere { 16 } else { 4 }),
            _ => 0,
        };
        let j = match field {
            3 => random.pick(&[31, 31, 31, 0, 8]),
            5 => random.below(4),
            19 => random.below(16),
            21 | 22 => random.below(4),
            26 | 27 => random.below(32),
            _ => 0,
        };
        if field == 3 && random.chance(500) {
            if let Some(poke) = poke_to_clash(&host) {
                return poke;
            }
        }
        let now = calls::peek(&host, field, i as usize, j as usize);
        let value = poke_value(random, &host, field, now);
        (field, i, j, value)
    }
}

/// Kept roots, by what a look-up should do with them: the parent's in the stage, its others, those of its sectors that are overwritten and
/// cut off, the other contracts'; those of all slots; that of zeros, and zeros.
fn root_groups(host: &Host) -> [Vec<[u8; 32]>; 8] {
    let mut groups: [Vec<[u8; 32]>; 8] = Default::default();
    if host.in_order() {
        let first = host.searched_first();
        let current = if first.is_some() { host.running_roots() } else { vec![] };
        for (position, root) in current.iter().enumerate() {
            groups[(host.program.staged[position] == NONE) as usize].push(*root);
        }
        for place in (0..8).filter(|&p| host.places[p].held) {
            for (position, root) in host.committed_roots(place).into_iter().enumerate() {
                match current.get(position) {
                    _ if Some(place) != first => groups[4].push(root),
                    Some(now) if *now != root => groups[2].push(root),
                    Some(_) => {}
                    None => groups[3].push(root),
                }
            }
        }
        groups[6].push(tree::zeros_root(host.sector));
    }
    groups[5] = host.disk_roots.iter().chain(&host.stage_roots).copied().filter(|root| *root != [0; 32]).collect();
    groups[7].push([0; 32]);
    groups
}

/// A root that agrees with this one in its first four bytes, or in some more.
fn four_bytes_alike(random: &mut Random, root: [u8; 32]) -> [u8; 32] {
    let alike = random.pick(&[4, 4, 5, 8, 30, 31]);
    let rest = random.bytes(32 - alike);
    [&root[..alike], &rest].concat().try_into().unwrap()
}

/// A poke that makes an id the ReadOnly word or another's.
fn poke_to_clash(host: &Host) -> Option<(u64, u64, u64, u64)> {
    if let Some(place) = host.find(&head::filled(b"ReadOnly\x01")) {
        return Some((3, place as u64, 8, 0));
    }
    let mut neighbour = [0x11; 32];
    neighbour[31] ^= 1;
    let place = host.find(&neighbour)?;
    host.find(&[0x11; 32]).map(|_| (3, place as u64, 31, 0x11))
}

/// A value near what stands, or at a limit.
fn poke_value(random: &mut Random, host: &Host, field: u64, now: u64) -> u64 {
    let program = &host.program;
    let declared = program.head.declared;
    let length = program.output_length;
    let z = if host::size_taken(host.sector) { host.sector } else { LEAST_SECTOR };
    let choices: Vec<u64> = match field {
        0 => vec![0, 1, slots_used(host), slots_used(host), 8, now.wrapping_add(1), now.saturating_sub(1), 64, 65],
        1 => vec![0, 1, 2, now.wrapping_add(1), now.saturating_sub(1), 16, 17],
        2 | 6 | 11 | 23 => vec![0, 1],
        3 | 16 => vec![now ^ 1, 0x10, 0x11, 0, 0x22],
        4 | 12 => vec![
            0,
            z,
            now.wrapping_add(z),
            now.wrapping_sub(z),
            now.wrapping_add(1),
            now.wrapping_sub(1),
            64 * z,
            65 * z,
            1 << 63,
            now.wrapping_add(LEAST_SECTOR),
        ],
        5 => vec![0, 1, 2, 3, 4, 5, host.disk_sectors & 255, 255],
        7 => vec![0, declared, declared.wrapping_add(1), random.below(declared.saturating_add(1))],
        8 => vec![0, now.saturating_sub(1), now.wrapping_add(1), program.head.count, program.head.count.wrapping_add(1)],
        9 => vec![0, 1, program.budget, program.budget.wrapping_add(1), u64::MAX, random.below(program.budget.max(1))],
        10 => vec![
            0,
            1,
            length,
            length.wrapping_add(1),
            length.saturating_sub(71),
            length.saturating_sub(72),
            length.saturating_sub(144),
        ],
        13 => vec![NONE as u64, 0, 0, 1, 1, 2, 3, host.stage_sectors & 255, 254],
        14 => vec![
            71,
            72,
            65_536,
            65_537,
            now.wrapping_add(1),
            now.saturating_sub(1),
            program.written.wrapping_add(72),
            program.written.wrapping_add(71),
        ],
        15 => vec![0, program.tally, program.tally.wrapping_sub(1), u64::MAX],
        17 => vec![0, program.ran, now.wrapping_add(1), now.saturating_sub(1), 32, 33],
        18 => vec![0, program.came, program.came.saturating_sub(1), now.wrapping_add(1), 65_536, 65_537],
        19 => vec![0, now ^ 1, now ^ 0x20],
        20 => vec![0, 1, 2, 3, 4, 5, u64::MAX],
        21 => vec![0, 8, now.wrapping_add(1), declared, declared.wrapping_add(1), u64::MAX],
        22 => vec![0, 8, 32, now.wrapping_add(1), declared, u64::MAX],
        24 => vec![0, 1, 65_535],
        26 | 27 => vec![0, 255, now ^ 1, now ^ 0x80],
        25 => vec![0, 1, z / 2, z * 2, z * 4, z + 1, LEAST_SECTOR, MOST_SECTOR, some_bad_size(random)],
        _ => vec![0],
    };
    random.pick(&choices)
}

/// The least number of disk slots that holds all that are used.
fn slots_used(host: &Host) -> u64 {
    let held = host.places.iter().filter(|place| place.held);
    let positions = |size: u64| size.checked_div(host.sector).unwrap_or(0).min(64) as usize;
    let slots = held.flat_map(|place| place.slots[..positions(place.size)].to_vec());
    slots.map(|slot| slot as u64 + 1).max().unwrap_or(1)
}

/// A sector size that no host has: 0, too small, too large, or no power of two.
fn some_bad_size(random: &mut Random) -> u64 {
    random.pick(&[0, 1, 64, 2_048, 4_095, 4_097, 6_144, 12_288, 4_194_305, 6_291_456, 1 << 23, 1 << 32, 1 << 63, u64::MAX])
}

/// What the checker is given.
struct Proof {
    root: [u8; 32],
    count: u64,
    first: u64,
    end: u64,
    bytes: Vec<u8>,
    hashes: Vec<u8>,
}

impl Proof {
    fn item(&self) -> Item {
        let Proof { root, count, first, end, ref bytes, ref hashes } = *self;
        Item::Check { root, count, first, end, data: bytes.len() as u64, tail: [&bytes[..], hashes].concat() }
    }
}

/// A range of at most so many segments among so many.
fn some_range(random: &mut Random, count: u64, most: u64) -> (u64, u64) {
    let length = random.within(1, most.min(count));
    let last = count - length;
    let inside = random.within(0, last);
    let first = random.pick(&[0, last, inside, inside]);
    (first, first + length)
}

/// The proof of a range of a few segments.
fn small_proof(random: &mut Random) -> Proof {
    let count = match random.weighted(&[10, 60, 25, 5]) {
        0 => 1,
        1 => random.within(2, 20),
        2 => random.within(20, 70),
        _ => random.within(70, 200),
    };
    let tree = random.bytes(count as usize * 64);
    let most = random.pick(&[1, 3, 8, count]);
    let (first, end) = some_range(random, count, most);
    let hashes = tree::proof(&tree, first, end).concat();
    let bytes = tree[first as usize * 64..end as usize * 64].to_vec();
    Proof { root: tree::root(&tree), count, first, end, bytes, hashes }
}

/// The proof of a range among up to 4,194,304 segments: the roots of the parts outside it are made up, and the root follows from them.
fn sparse_proof(random: &mut Random) -> Proof {
    let count = match random.weighted(&[30, 25, 25, 15, 5]) {
        0 => tree::MOST_SEGMENTS,
        1 => 1 << random.within(7, 21),
        2 => random.within(1, 64) * 65_536,
        3 => random.within(200, tree::MOST_SEGMENTS),
        _ => tree::MOST_SEGMENTS + random.pick(&[1, 1, 65_536]),
    };
    let most = random.pick(&[1, 1, 4, 20]);
    let (first, end) = some_range(random, count, most);
    let bytes = random.bytes((end - first) as usize * 64);
    let enough = random.bytes(64 * 32);
    let mut rest = &enough[..];
    let root = tree::rebuilt(count, first, end, &bytes, &mut rest).unwrap();
    let hashes = enough[..enough.len() - rest.len()].to_vec();
    Proof { root, count, first, end, bytes, hashes }
}

/// A tail of 131,072 bytes, and longer ones: of a byte more, and of a hash more, which would be right.
fn long_proof(random: &mut Random) -> Proof {
    let mut bytes = vec![random.next() as u8; calls::MOST_TAIL];
    let end = bytes.len() as u64 / 64;
    let (count, hashes) = random.pick(&[(end, vec![]), (end + 1, vec![7; 32])]);
    let root = tree::rebuilt(count, 0, end, &bytes, &mut &hashes[..]).unwrap();
    if random.chance(300) {
        bytes.push(0);
    }
    Proof { root, count, first: 0, end, bytes, hashes }
}

fn flip(random: &mut Random, bytes: &mut [u8]) {
    let at = random.below(bytes.len() as u64) as usize;
    bytes[at] ^= 1 << random.below(8);
}

/// Something wrong; now and then it makes no difference.
fn damage_proof(random: &mut Random, proof: &mut Proof) {
    let Proof { root, count, first, end, bytes, hashes } = proof;
    match random.below(17) {
        0 => root[random.pick(&[0, 15, 31, 31])] ^= 1 << random.below(8),
        1 => *first = random.pick(&[*first + 1, first.wrapping_sub(1), *end, *end + 1, u64::MAX]),
        2 => *end = random.pick(&[*end + 1, *end - 1, *first, 0, *count + 1, u64::MAX]),
        3 => (*first, *end) = random.pick(&[(*first + 1, *end + 1), (*end, *first), (*first ^ 1, (*first ^ 1) + *end - *first)]),
        4 => *count = random.pick(&[*count + 1, *count - 1, *count * 2, *end]),
        5 => *count = random.pick(&[0, 4_194_304, 4_194_305, 8_388_608, 1 << 63, u64::MAX]),
        6 => drop(bytes.pop()),
        7 => bytes.push(0),
        8 => bytes.truncate(bytes.len() - 64),
        9 => bytes.extend([0; 64]),
        10 => hashes.extend(random.bytes(32)),
        11 => hashes.truncate(hashes.len().saturating_sub(32)),
        12 => hashes.push(0),
        13 => drop(hashes.pop()),
        14 if !hashes.is_empty() => flip(random, hashes),
        // the hashes in another order
        15 if hashes.len() > 32 => hashes.rotate_left(32),
        _ => flip(random, bytes),
    }
}

/// The proofs of what the open program has read: a Read of its parent, whose root and size stand in the record, or a ReadSector.
fn proofs_read(player: &Player) -> Vec<Proof> {
    let (host, program) = (&player.host, &player.host.program);
    if !host.in_order() || !program.open {
        return vec![];
    }
    let mut reader = head::Reader { rest: &player.output[..program.written as usize] };
    let instructions = &program.head.instructions[..program.head.count as usize];
    instructions.iter().map_while(|instruction| proof_read(host, &player.input, instruction, &mut reader)).flatten().collect()
}

/// The proof in the next record, if it has one of those; none where there is no record.
fn proof_read(host: &Host, input: &[u8], instruction: &head::Instruction, reader: &mut head::Reader) -> Option<Option<Proof>> {
    let (number, _, size) = (reader.number().ok()?, reader.number().ok()?, reader.number().ok()?);
    let mut root: [u8; 32] = reader.array().ok()?;
    let hash_bytes = reader.number().ok()?.checked_mul(32)?;
    let hashes = reader.bytes(hash_bytes).ok()?.to_vec();
    let length = reader.number().ok()?;
    let bytes = reader.bytes(length).ok()?.to_vec();
    let part = |i: usize| {
        let operand = instruction.operands[i];
        let end = operand.offset.checked_add(operand.length)?;
        input.get(operand.offset as usize..end as usize)
    };
    if number != 0 || !instruction.proof || bytes.is_empty() {
        return Some(None);
    }
    let (Some(of), Some(offset)) = (part(0), part(1).and_then(|part| part.try_into().ok())) else {
        return Some(None);
    };
    let mut count = size / 64;
    if instruction.name == head::filled(b"ReadSector") {
        root = of.try_into().unwrap_or([0; 32]);
        count = host.sector / 64;
    } else if *of != host.program.head.contract {
        return Some(None);
    }
    let first = u64::from_le_bytes(offset) / 64;
    Some(Some(Proof { root, count, first, end: first + length / 64, bytes, hashes }))
}
