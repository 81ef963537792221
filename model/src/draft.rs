//! Random programs: mostly well-formed, with effects that later instructions see, and a share of damage.

use crate::head::{self, filled, Head, Instruction, Operand};
use crate::host::{Host, LEAST_SECTOR};
use crate::random::Random;
use crate::tree;

/// What a program to be made can meet.
pub struct Scene {
    /// The host's sector size.
    pub sector: u64,
    pub contract: [u8; 32],
    pub read_only: bool,
    /// The parent's bytes, its size, and how many sectors it can have.
    pub bytes: Vec<u8>,
    pub size: u64,
    pub most_sectors: u64,
    pub stage_sectors: u64,
    pub others: Vec<([u8; 32], u64)>,
    /// The kept roots of all committed sectors, and the roots of their bytes where those are others.
    pub roots: Vec<[u8; 32]>,
    /// The kept roots of the parent's sectors, by position, and of the other contracts'; some of the others' sectors.
    pub parent_roots: Vec<[u8; 32]>,
    pub other_roots: Vec<[u8; 32]>,
    pub other_sectors: Vec<Vec<u8>>,
    /// The position in the parent whose kept root is not its sector's, the first one.
    pub unsound: Option<u64>,
}

/// One instruction: name, inputs, whether a proof is asked.
struct Step {
    name: [u8; 16],
    inputs: Vec<Vec<u8>>,
    proof: bool,
}

#[derive(Clone, Copy, PartialEq)]
enum Kind {
    Read,
    ReadSector,
    Write,
    Copy,
    Swap,
    Truncate,
}

/// Weights of the six instructions in a program.
const MOODS: [[u64; 6]; 6] = [
    [14, 10, 26, 14, 14, 22],
    [55, 20, 10, 3, 3, 9],
    [6, 2, 12, 5, 5, 70],
    [5, 2, 13, 35, 35, 10],
    [10, 10, 60, 5, 5, 10],
    [4, 40, 30, 6, 6, 14],
];

/// What stands on a host in order. Where the disk is shorter than the host's, none of its bytes are looked at.
pub fn scene(host: &Host, disk: &[u8], contract: [u8; 32]) -> Scene {
    let sector = host.sector;
    let read_only = contract == head::read_only_word();
    let parent = host.find(&contract);
    let held: Vec<usize> = (0..8).filter(|&p| host.places[p].held).collect();
    let others_hold: u64 = held.iter().filter(|&&p| Some(p) != parent).map(|&p| host.places[p].size / sector).sum();
    let seen = host.disk_length() <= disk.len() as u64;
    let mut roots = Vec::new();
    let (mut parent_roots, mut other_roots, mut other_sectors) = (Vec::new(), Vec::new(), Vec::new());
    let mut unsound = None;
    for &place in held.iter().filter(|_| seen) {
        for (position, kept) in host.committed_roots(place).into_iter().enumerate() {
            let root = tree::root(host.committed_sector(disk, place, position as u64));
            roots.push(kept);
            if Some(place) == parent {
                parent_roots.push(kept);
            } else {
                other_roots.push(kept);
                if sector <= 16_384 && other_sectors.len() < 4 {
                    other_sectors.push(host.committed_sector(disk, place, position as u64).to_vec());
                }
            }
            if kept != root {
                roots.push(root);
                unsound = unsound.or(Some(position as u64).filter(|_| Some(place) == parent));
            }
        }
    }
    let parent_seen = parent.filter(|_| seen);
    Scene {
        sector,
        contract,
        read_only,
        bytes: parent_seen.map_or(vec![], |p| host.committed_sectors(disk, p).concat()),
        size: parent_seen.map_or(0, |p| host.places[p].size),
        most_sectors: host.disk_sectors.saturating_sub(others_hold),
        stage_sectors: host.stage_sectors,
        others: held.iter().filter(|&&p| Some(p) != parent).map(|&p| (host.places[p].id, host.places[p].size)).collect(),
        roots,
        parent_roots,
        other_roots,
        other_sectors,
        unsound,
    }
}

/// A program being made: the size it would have reached and the sectors it would have staged; the bytes of all its sectors then, and the
/// roots of those that it no longer has.
struct Draft<'a> {
    random: &'a mut Random,
    scene: &'a Scene,
    mood: [u64; 6],
    /// How often of 1,000 a change of size is a growth.
    upward: u64,
    size: u64,
    staged: [bool; 65],
    sectors: Vec<Vec<u8>>,
    gone: Vec<[u8; 32]>,
    bytes: usize,
}

fn new_draft<'a>(random: &'a mut Random, scene: &'a Scene, mood: [u64; 6], upward: u64) -> Draft<'a> {
    let sectors = scene.bytes.chunks(scene.sector as usize).map(<[u8]>::to_vec).collect();
    Draft { random, scene, mood, upward, size: scene.size, staged: [false; 65], sectors, gone: vec![], bytes: 0 }
}

/// A random program: its head and its data.
pub fn program(random: &mut Random, scene: &Scene) -> (Head, Vec<u8>) {
    let mood = MOODS[random.weighted(&[52, 11, 9, 11, 5, 12])];
    let steps = match random.weighted(&[4, 60, 25, 8, 3]) {
        0 => 0,
        1 => random.within(1, 6),
        2 => random.within(5, 12),
        3 => random.within(10, 31),
        _ => 32,
    };
    let upward = random.pick(&[850, 600, 250]);
    let mut draft = new_draft(random, scene, mood, upward);
    let mut made = Vec::new();
    for _ in 0..steps {
        let step = draft.step();
        draft.bytes += step.inputs.iter().map(Vec::len).sum::<usize>();
        if draft.bytes > 64_000 {
            break;
        }
        made.push(step);
    }
    for step in &mut made {
        let refused_kind = scene.read_only && !step.name.starts_with(b"Read");
        if random.chance(if refused_kind { 300 } else { 22 }) {
            damage_step(random, step);
        }
    }
    let (mut head, data) = lay_out(random, scene.contract, &made);
    damage_operands(random, &mut head);
    (head, data)
}

/// A program without a fault that grows the parent and fills the new sectors, to have something to read and change.
pub fn filling_program(random: &mut Random, scene: &Scene, sectors: u64) -> (Head, Vec<u8>) {
    let sector_size = scene.sector;
    let before = scene.size / sector_size;
    let mut steps = Vec::new();
    let mut step = |name: &str, inputs: Vec<Vec<u8>>| {
        steps.push(Step { name: filled(name.as_bytes()), inputs, proof: false });
    };
    for sector in before..before + sectors {
        step("Truncate", vec![((sector + 1) * sector_size).to_le_bytes().to_vec()]);
    }
    for sector in before..before + sectors {
        let whole = if sector_size <= 16_384 { sector_size } else { LEAST_SECTOR };
        if !scene.other_sectors.is_empty() && random.chance(200) {
            let data = random.pick(&scene.other_sectors);
            step("Write", vec![(sector * sector_size).to_le_bytes().to_vec(), [&sector_size.to_le_bytes()[..], &data].concat()]);
            continue;
        }
        let length = random.pick(&[whole, 100, 64]);
        let data = contents(random, length as usize);
        let edge = random.below(sector_size / LEAST_SECTOR) * LEAST_SECTOR;
        let inner = match random.below(3) {
            _ if length == sector_size => 0,
            0 if edge > 0 => edge - random.within(1, length - 1).min(edge),
            1 => sector_size - length,
            _ => random.below(3000.min(sector_size - length + 1)),
        };
        let offset = sector * sector_size + inner.min(sector_size - length);
        step("Write", vec![offset.to_le_bytes().to_vec(), [&length.to_le_bytes()[..], &data].concat()]);
    }
    lay_out(random, scene.contract, &steps)
}

/// A program without a fault that leaves the parent as it was, now and then but for one byte: Writes of equal bytes, Swaps that undo each
/// other, Copies of a span onto itself, growth and the way back.
pub fn still_program(random: &mut Random, scene: &Scene) -> (Head, Vec<u8>) {
    let mut steps = Vec::new();
    let mut step = |name: &str, numbers: &[u64], data: Option<&[u8]>| {
        let mut inputs: Vec<Vec<u8>> = numbers.iter().map(|number| number.to_le_bytes().to_vec()).collect();
        inputs.extend(data.map(|data| [&(data.len() as u64).to_le_bytes()[..], data].concat()));
        steps.push(Step { name: filled(name.as_bytes()), inputs, proof: false });
    };
    for _ in 0..random.within(0, 4) {
        let kind = random.below(6);
        if kind == 0 || scene.size == 0 {
            let grows = scene.size / scene.sector < scene.most_sectors && random.chance(800);
            if grows {
                step("Truncate", &[scene.size + scene.sector], None);
            }
            step("Truncate", &[scene.size], None);
            continue;
        }
        let first = random.below(scene.size / scene.sector) * scene.sector;
        let second = random.below(scene.size / scene.sector) * scene.sector;
        let length = random.within(1, 100);
        let half = scene.sector / 2;
        let (one, two) = (first + random.below(half - 100), second + half + random.below(half - 100));
        let bytes = &scene.bytes[one as usize..(one + length) as usize];
        match kind {
            1 => {
                step("Swap", &[one, two, length], None);
                let back = if random.chance(500) { [one, two, length] } else { [two, one, length] };
                step("Swap", &back, None);
            }
            2 => step("Copy", &[one, one, length], None),
            3 => {
                step("Copy", &[one, two, length], None);
                step("Write", &[one], Some(bytes));
            }
            4 => {
                let other = contents(random, length as usize);
                step("Write", &[one], Some(&other));
                step("Write", &[one], Some(bytes));
            }
            _ => step("Write", &[one], Some(bytes)),
        }
    }
    if scene.size > 0 && random.chance(150) {
        let at = random.below(scene.size);
        step("Write", &[at], Some(&[scene.bytes[at as usize] ^ 1]));
    }
    lay_out(random, scene.contract, &steps)
}

/// A program without a fault, but for its last instruction now and then, that changes sectors and looks them up by their roots (M-110):
/// those that it has written, cut off and grown again, and those of other contracts that are equal to one that it had.
pub fn looking_program(random: &mut Random, scene: &Scene) -> (Head, Vec<u8>) {
    let upward = random.pick(&[700, 400]);
    let mut draft = new_draft(random, scene, MOODS[0], upward);
    let mut steps = Vec::new();
    let count = draft.random.within(2, 9);
    for _ in 0..count {
        steps.push(draft.looking_step());
        draft.bytes += steps[steps.len() - 1].inputs.iter().map(Vec::len).sum::<usize>();
        if draft.bytes > 40_000 {
            break;
        }
    }
    if !draft.gone.is_empty() && draft.random.chance(400) {
        let root = draft.random.pick(&draft.gone);
        steps.push(draft.look(root));
    }
    lay_out(random, scene.contract, &steps)
}

/// A program that writes these bytes at an offset, and nothing else.
pub fn writing_program(random: &mut Random, scene: &Scene, offset: u64, bytes: &[u8]) -> (Head, Vec<u8>) {
    let inputs = vec![offset.to_le_bytes().to_vec(), [&(bytes.len() as u64).to_le_bytes()[..], bytes].concat()];
    lay_out(random, scene.contract, &[Step { name: filled(b"Write"), inputs, proof: false }])
}

/// A program without a fault for a parent one of whose kept roots is not its sector's: sectors are looked up by kept roots and by those of
/// the bytes, read with and without proofs, written to, and read again; often the sector in question.
pub fn unsound_program(random: &mut Random, scene: &Scene) -> (Head, Vec<u8>) {
    let at = scene.unsound.unwrap_or(0);
    let positions = scene.size / scene.sector;
    let number = |n: u64| n.to_le_bytes().to_vec();
    let times = |root: &[u8; 32]| scene.roots.iter().filter(|other| *other == root).count();
    let twice: Vec<[u8; 32]> = scene.roots.iter().copied().filter(|root| times(root) > 1).collect();
    let mut steps = Vec::new();
    for _ in 0..random.within(1, 6) {
        let position = if random.chance(600) { at } else { random.below(positions.max(1)) };
        let inner = random.below(scene.sector / 64 - 2) * 64;
        let (offset, proof) = (position * scene.sector + inner, random.chance(600));
        let kind = random.weighted(&[30, 30, 20, 8, 8, 4]);
        let (name, inputs) = match kind {
            0 => ("Read", vec![scene.contract.to_vec(), number(offset), number(64)]),
            1 if !scene.roots.is_empty() => {
                let among = if twice.is_empty() || random.chance(500) { &scene.roots } else { &twice };
                ("ReadSector", vec![random.pick(among).to_vec(), number(inner), number(128)])
            }
            3 => ("Copy", vec![number(offset), number(random.below(positions.max(1)) * scene.sector), number(64)]),
            4 => ("Swap", vec![number(offset), number(random.below(positions.max(1)) * scene.sector), number(64)]),
            5 => ("Truncate", vec![number(scene.size)]),
            _ => {
                let equal = scene.bytes[offset as usize..offset as usize + 64].to_vec();
                let other = contents(random, 64);
                ("Write", vec![number(offset), [number(64), random.pick(&[equal, other])].concat()])
            }
        };
        steps.push(Step { name: filled(name.as_bytes()), inputs, proof: proof && name.starts_with("Read") });
    }
    lay_out(random, scene.contract, &steps)
}

impl Draft<'_> {
    /// A change of a sector or of the size, or a look-up that finds something.
    fn looking_step(&mut self) -> Step {
        let z = self.scene.sector;
        let elsewhere: Vec<[u8; 32]> = self.gone.iter().copied().filter(|root| self.scene.other_roots.contains(root)).collect();
        let kind = self.random.weighted(&[35, 17, 25, 12, 8, 15]);
        let positions: Vec<usize> = (0..self.sectors.len()).filter(|&at| kind != 2 || self.staged[at]).collect();
        match kind {
            0 if self.size > 0 => {
                let position = self.position();
                let whole: Vec<Vec<u8>> = self.scene.other_sectors.iter().chain(&self.sectors).cloned().collect();
                let whole = self.random.pick(&whole);
                let data = if z <= 8_192 && self.random.chance(450) { whole } else { contents(self.random, 100) };
                let offset = position * z + if data.len() == 100 { self.random.below(2) * (z - 100) } else { 0 };
                self.staged[position as usize] |= self.has_room(position);
                let inputs = vec![self.number(offset), [&(data.len() as u64).to_le_bytes()[..], &data].concat()];
                self.follow(Kind::Write, &inputs);
                Step { name: filled(b"Write"), inputs, proof: false }
            }
            2 | 3 if !positions.is_empty() => {
                let position = self.random.pick(&positions);
                let root = self.root_at(position);
                self.look(root)
            }
            4 if !self.scene.other_roots.is_empty() => {
                let root = self.random.pick(&self.scene.other_roots);
                self.look(root)
            }
            5 if !elsewhere.is_empty() => {
                let root = self.random.pick(&elsewhere);
                self.look(root)
            }
            _ => {
                let inputs = self.truncate();
                self.follow(Kind::Truncate, &inputs);
                Step { name: filled(b"Truncate"), inputs, proof: false }
            }
        }
    }

    /// A ReadSector of this root, of a few segments.
    fn look(&mut self, root: [u8; 32]) -> Step {
        let first = self.random.below(self.scene.sector / 64 - 1) * 64;
        let length = self.random.pick(&[64, 128]);
        let offset = if self.random.chance(500) { first } else { 0 };
        let inputs = vec![root.to_vec(), self.number(offset), self.number(length)];
        Step { name: filled(b"ReadSector"), inputs, proof: self.random.chance(500) }
    }

    fn step(&mut self) -> Step {
        let kind = self.kind();
        let proof = match kind {
            Kind::Read | Kind::ReadSector => self.random.chance(400),
            _ => self.random.chance(8),
        };
        let inputs = match kind {
            Kind::Read => self.read(proof),
            Kind::ReadSector => self.read_sector(proof),
            Kind::Write => self.write(),
            Kind::Copy => self.two_spans(false),
            Kind::Swap => self.two_spans(true),
            Kind::Truncate => self.truncate(),
        };
        self.follow(kind, &inputs);
        Step { name: filled(word(kind).as_bytes()), inputs, proof }
    }

    fn kind(&mut self) -> Kind {
        const KINDS: [Kind; 6] = [Kind::Read, Kind::ReadSector, Kind::Write, Kind::Copy, Kind::Swap, Kind::Truncate];
        if self.scene.read_only {
            return KINDS[self.random.weighted(&[450, 450, 15, 15, 15, 15])];
        }
        let kind = KINDS[self.random.weighted(&self.mood)];
        let vain = match kind {
            Kind::ReadSector => self.scene.roots.is_empty() && self.size == 0,
            Kind::Truncate => false,
            _ => self.size == 0,
        };
        if vain && self.random.chance(950) {
            return if self.size == 0 { Kind::Truncate } else { Kind::Write };
        }
        kind
    }

    fn number(&self, number: u64) -> Vec<u8> {
        number.to_le_bytes().to_vec()
    }

    /// An offset in a sector and a length; whole segments if a proof is to be had.
    fn inner_span(&mut self, segments: bool) -> (u64, u64) {
        let z = self.scene.sector;
        let larger = z > LEAST_SECTOR;
        let random = &mut *self.random;
        if larger && random.chance(350) {
            return across_an_edge(random, z, segments);
        }
        if segments {
            let first = random.below(z / 64);
            let most = (z / 64).min(first + 64);
            let end = if random.chance(300) { first + 1 } else { random.within(first + 1, most) };
            return if random.chance(if larger { 50 } else { 150 }) { (0, z) } else { (first * 64, (end - first) * 64) };
        }
        match random.weighted(&[if larger { 3 } else { 14 }, 14, 12, 34, 26]) {
            0 => (0, z),
            1 => self.inner_span(true),
            2 => {
                let from = if larger { z - random.within(1, 3_000) } else { random.below(z) };
                (from, z - from)
            }
            3 => {
                let from = random.below(z);
                (from, random.within(1, 8.min(z - from)))
            }
            _ => {
                let from = random.below(z);
                (from, random.within(1, 300.min(z - from)))
            }
        }
    }

    /// An offset and a length within `size` bytes; now and then a bad one.
    fn span(&mut self, size: u64, segments: bool) -> (u64, u64) {
        let (inner, length) = self.inner_span(segments);
        let random = &mut *self.random;
        if random.chance(12) {
            return bad_span(random, self.scene.sector, size);
        }
        if size == 0 {
            return (inner, length);
        }
        (random.below(size / self.scene.sector) * self.scene.sector + inner, length)
    }

    /// Whole segments if a proof is asked; now and then only one of offset and length is a multiple of 64.
    fn span_to_read(&mut self, size: u64, proof: bool) -> (u64, u64) {
        let (offset, length) = self.span(size, proof);
        if !proof || offset % 64 != 0 || length < 128 || !self.random.chance(40) {
            return (offset, length);
        }
        let odd = self.random.within(1, 63);
        self.random.pick(&[(offset + odd, length - 64), (offset, length - odd), (offset + odd, length - odd)])
    }

    fn read(&mut self, proof: bool) -> Vec<Vec<u8>> {
        let (contract, size) = self.contract_to_read();
        let (offset, length) = self.span_to_read(size, proof);
        vec![contract.to_vec(), self.number(offset), self.number(length)]
    }

    fn contract_to_read(&mut self) -> ([u8; 32], u64) {
        let filled_ones: Vec<([u8; 32], u64)> = self.scene.others.iter().filter(|other| other.1 > 0).cloned().collect();
        match self.random.weighted(&[500, 460, 20, 8, 12]) {
            1 if !filled_ones.is_empty() => self.random.pick(&filled_ones),
            2 if !self.scene.others.is_empty() => self.random.pick(&self.scene.others),
            3 => (head::read_only_word(), self.scene.sector),
            4 => (near(self.random, self.scene.contract), self.scene.sector),
            _ if self.scene.read_only && !filled_ones.is_empty() => self.random.pick(&filled_ones),
            _ => (self.scene.contract, self.size),
        }
    }

    fn read_sector(&mut self, proof: bool) -> Vec<Vec<u8>> {
        let (offset, length) = self.span_to_read(self.scene.sector, proof);
        let root = self.root_to_find();
        vec![root.to_vec(), self.number(offset), self.number(length)]
    }

    /// The root of a sector that the program has written, that its parent has, or that another contract has (M-110); now and then of one
    /// that it has no longer, of one that differs in a byte, or of none.
    fn root_to_find(&mut self) -> [u8; 32] {
        let kind = self.random.weighted(&[350, 230, 330, 30, 40, 12, 8]);
        let positions: Vec<usize> = (0..self.sectors.len()).filter(|&at| kind > 0 || self.staged[at]).collect();
        match kind {
            0 | 1 if !positions.is_empty() && !self.scene.read_only => {
                let position = self.random.pick(&positions);
                self.root_at(position)
            }
            2 if !self.scene.other_roots.is_empty() => self.random.pick(&self.scene.other_roots),
            3 if !self.gone.is_empty() => {
                let elsewhere: Vec<[u8; 32]> =
                    self.gone.iter().copied().filter(|root| self.scene.other_roots.contains(root)).collect();
                let among = if elsewhere.is_empty() || self.random.chance(500) { &self.gone } else { &elsewhere };
                self.random.pick(among)
            }
            4 if !positions.is_empty() => {
                let position = self.random.pick(&positions);
                let root = self.root_at(position);
                near(self.random, root)
            }
            4 if !self.scene.roots.is_empty() => {
                let root = self.random.pick(&self.scene.roots);
                near(self.random, root)
            }
            5 => self.random.bytes(32).try_into().unwrap(),
            6 => tree::zeros_root(self.scene.sector),
            _ if !positions.is_empty() => {
                let position = self.random.pick(&positions);
                self.root_at(position)
            }
            _ if !self.scene.other_roots.is_empty() => self.random.pick(&self.scene.other_roots),
            _ if !self.scene.roots.is_empty() => self.random.pick(&self.scene.roots),
            _ => tree::zeros_root(self.scene.sector),
        }
    }

    /// The root by which the program would find its parent's sector: of the bytes where it has staged them, else the kept one.
    fn root_at(&self, position: usize) -> [u8; 32] {
        if self.staged[position] {
            return tree::root(&self.sectors[position]);
        }
        self.scene.parent_roots[position]
    }

    /// Does to the sectors what the instruction will do, if it is a good one.
    fn follow(&mut self, kind: Kind, inputs: &[Vec<u8>]) {
        let z = self.scene.sector;
        let number = |i: usize| u64::from_le_bytes(inputs[i][..8].try_into().unwrap());
        if kind == Kind::Truncate {
            let positions = (self.size / z) as usize;
            while self.sectors.len() > positions {
                let last = self.sectors.pop().unwrap();
                self.gone.push(tree::root(&last));
            }
            self.sectors.resize(positions, vec![0; z as usize]);
            return;
        }
        let writes = match kind {
            Kind::Write => vec![(number(0), inputs[1][8..].to_vec())],
            Kind::Copy => self.span_bytes(number(1), number(2)).map_or(vec![], |bytes| vec![(number(0), bytes)]),
            Kind::Swap => match (self.span_bytes(number(0), number(2)), self.span_bytes(number(1), number(2))) {
                (Some(first), Some(second)) => vec![(number(1), first), (number(0), second)],
                _ => vec![],
            },
            _ => vec![],
        };
        for (offset, bytes) in writes {
            let position = (offset / z) as usize;
            if self.span_bytes(offset, bytes.len() as u64).is_none() || !self.staged[position] {
                continue;
            }
            if self.gone.len() < 8 {
                self.gone.push(tree::root(&self.sectors[position]));
            }
            let from = (offset % z) as usize;
            self.sectors[position][from..from + bytes.len()].copy_from_slice(&bytes);
        }
    }

    /// The bytes of a span of the parent, if it is one within a sector.
    fn span_bytes(&self, offset: u64, length: u64) -> Option<Vec<u8>> {
        let z = self.scene.sector;
        let sector = self.sectors.get((offset / z) as usize)?;
        let end = (offset % z).checked_add(length)?;
        sector.get((offset % z) as usize..end as usize).map(<[u8]>::to_vec)
    }

    /// A position to write to: mostly one that has a copy or can get one.
    fn position(&mut self) -> u64 {
        let positions = (self.size / self.scene.sector).max(1);
        let position = self.random.below(positions);
        if self.has_room(position) || self.random.chance(250) {
            return position;
        }
        (0..positions).find(|&p| self.staged[p as usize]).unwrap_or(position)
    }

    fn has_room(&self, position: u64) -> bool {
        let used = self.staged.iter().filter(|&&staged| staged).count() as u64;
        self.staged[position as usize] || used < self.scene.stage_sectors
    }

    fn write(&mut self) -> Vec<Vec<u8>> {
        let (mut offset, mut length) = self.inner_span(false);
        let position = self.position();
        offset += position * self.scene.sector;
        if self.random.chance(15) {
            (offset, length) = bad_span(self.random, self.scene.sector, self.size);
            length = length.min(5000);
        }
        if length > 9_000 && (length > head::MOST_DECLARED || self.random.chance(800)) {
            length = self.random.within(1, 300);
        }
        self.staged[position as usize] |= self.has_room(position);
        let mut data = contents(self.random, length as usize);
        if !self.scene.other_sectors.is_empty() && self.random.chance(50) {
            // equal to another contract's sector
            offset = position * self.scene.sector;
            data = self.random.pick(&self.scene.other_sectors);
        }
        vec![self.number(offset), [&(data.len() as u64).to_le_bytes()[..], &data].concat()]
    }

    /// Copy's destination and source, or Swap's two offsets: in two sectors, or in one, and then often overlapping.
    fn two_spans(&mut self, both_written: bool) -> Vec<Vec<u8>> {
        let (inner, length) = self.inner_span(false);
        let first = self.position();
        self.staged[first as usize] |= self.has_room(first);
        let second = if self.random.chance(500) { first } else { self.position() };
        if both_written {
            self.staged[second as usize] |= self.has_room(second);
        }
        let other_inner = if self.random.chance(600) {
            let reach = length.min(20);
            (inner + self.random.below(2 * reach + 1)).saturating_sub(reach).min(self.scene.sector - length)
        } else {
            self.random.below(self.scene.sector - length + 1)
        };
        let mut offsets = [first * self.scene.sector + inner, second * self.scene.sector + other_inner];
        let mut length = length;
        if self.random.chance(15) {
            let which = self.random.below(2) as usize;
            (offsets[which], length) = bad_span(self.random, self.scene.sector, self.size);
        }
        if self.random.chance(300) && both_written {
            offsets.swap(0, 1);
        }
        vec![self.number(offsets[0]), self.number(offsets[1]), self.number(length)]
    }

    fn truncate(&mut self) -> Vec<Vec<u8>> {
        if self.random.chance(35) {
            let (now, z) = (self.size, self.scene.sector);
            let bad = [
                now + 1,
                now + 2 * z,
                z - 1,
                now.wrapping_sub(2 * z),
                u64::MAX - 4095,
                1 << 63,
                now + LEAST_SECTOR,
                now.wrapping_sub(LEAST_SECTOR),
                now + z / 2,
                LEAST_SECTOR,
            ];
            let size = self.random.pick(&bad);
            return vec![self.number(size)];
        }
        let sectors = self.size / self.scene.sector;
        let can_grow = sectors < self.scene.most_sectors && self.has_room(sectors.min(64));
        let up = if can_grow && sectors == 0 {
            self.random.chance(900)
        } else {
            self.random.chance(if can_grow { self.upward } else { 100 })
        };
        let sectors_after = match (up, self.random.chance(60)) {
            (_, true) => sectors,
            (true, _) => sectors + 1,
            (false, _) => sectors.saturating_sub(1),
        };
        if sectors_after < sectors {
            self.staged[sectors_after as usize] = false;
        }
        if sectors_after > sectors && can_grow {
            self.staged[sectors as usize] = true;
        }
        if sectors_after <= sectors || can_grow {
            self.size = sectors_after * self.scene.sector;
        }
        vec![self.number(sectors_after * self.scene.sector)]
    }
}

/// A span in a sector of a larger size that goes across an edge of 4,096 bytes, or ends or starts at one.
fn across_an_edge(random: &mut Random, z: u64, segments: bool) -> (u64, u64) {
    let edge = random.within(1, z / LEAST_SECTOR - 1) * LEAST_SECTOR;
    let unit = if segments { 64 } else { 1 };
    let most = if segments { 20 } else { random.pick(&[8, 8, 300, 4_096]) };
    let (before, after) = (random.below(most + 1).min(edge / unit), random.below(most + 1));
    let length = (before + after).max(1);
    (edge - before * unit, length * unit)
}

fn word(kind: Kind) -> &'static str {
    match kind {
        Kind::Read => "Read",
        Kind::ReadSector => "ReadSector",
        Kind::Write => "Write",
        Kind::Copy => "Copy",
        Kind::Swap => "Swap",
        Kind::Truncate => "Truncate",
    }
}

/// Length 0, past the end, across an edge, or offset plus length that wraps.
fn bad_span(random: &mut Random, z: u64, size: u64) -> (u64, u64) {
    let some_offset = random.below(size.max(1));
    let from_edge = random.within(1, 100);
    let near_end = size.saturating_sub(random.below(3));
    random.pick(&[
        (some_offset, 0),
        (size, 1),
        (near_end, 4),
        (z - from_edge, from_edge + 1),
        (z - from_edge, from_edge),
        (0, z + 1),
        (64, z),
        (u64::MAX, 1),
        (u64::MAX - 63, 64),
        (u64::MAX - 10, 20),
        (0, u64::MAX),
        (1, u64::MAX),
        (64, u64::MAX - 63),
    ])
}

/// An id or root that differs in one byte, often a late one.
pub fn near(random: &mut Random, mut bytes: [u8; 32]) -> [u8; 32] {
    let at = if random.chance(600) { 31 } else { random.below(32) as usize };
    bytes[at] ^= 1 << random.below(8);
    bytes
}

/// Bytes to write: often all alike, so that sectors with one root stand in several places.
fn contents(random: &mut Random, length: usize) -> Vec<u8> {
    match random.weighted(&[40, 20, 40]) {
        0 => vec![random.pick(&[0u8, 1, 2, 255]); length],
        1 => (0..length).map(|i| i as u8).collect(),
        _ => random.bytes(length),
    }
}

/// A wrong name, a wrong number of operands, an input of a wrong length, a wrong count ahead of the data.
fn damage_step(random: &mut Random, step: &mut Step) {
    let which = random.below(step.inputs.len() as u64) as usize;
    match random.below(9) {
        0 => step.name = filled(random.pick(&[&b"Alloc"[..], b"read", b"Read\0x", b"ReadSecto", b"Reads", b""])),
        1 => step.name[random.below(16) as usize] ^= 1 << random.below(8),
        2 => drop(step.inputs.pop()),
        3 if step.inputs.len() < 4 => step.inputs.push(vec![0; 8]),
        4 => drop(step.inputs[which].pop()),
        5 => step.inputs[which].push(0),
        6 => step.inputs[which] = vec![],
        7 => {
            let last = step.inputs.len() - 1;
            step.inputs[last][0] ^= 1;
        }
        _ => {
            let last = step.inputs.len() - 1;
            step.inputs[last] = step.inputs[last].split_off(8);
        }
    }
}

/// Puts the inputs into the data, in order or not, with gaps, or sharing bytes that are there already.
fn lay_out(random: &mut Random, contract: [u8; 32], steps: &[Step]) -> (Head, Vec<u8>) {
    let mut places: Vec<(usize, usize)> = Vec::new();
    for (i, step) in steps.iter().enumerate() {
        places.extend((0..step.inputs.len()).map(|j| (i, j)));
    }
    match random.weighted(&[65, 12, 23]) {
        0 => {}
        1 => places.reverse(),
        _ => random.shuffle(&mut places),
    }
    let share = random.chance(200);
    let gaps = random.chance(120);
    let mut data = Vec::new();
    let mut head = Head { contract, count: steps.len() as u64, ..Head::default() };
    for (i, step) in steps.iter().enumerate() {
        head.instructions[i] =
            Instruction { name: step.name, operand_count: step.inputs.len() as u64, proof: step.proof, ..Instruction::default() };
    }
    for (i, j) in places {
        if gaps && random.chance(300) {
            let gap = random.within(1, 9) as usize;
            data.extend(random.bytes(gap));
        }
        let input = &steps[i].inputs[j];
        let offset = place_input(&mut data, input, share);
        head.instructions[i].operands[j] = Operand { offset, length: input.len() as u64 };
    }
    if random.chance(150) {
        let slack = random.within(1, 100) as usize;
        data.extend(random.bytes(slack));
    }
    if random.chance(4) {
        data.resize(head::MOST_DECLARED as usize, 7);
    }
    head.declared = data.len() as u64;
    (head, data)
}

fn place_input(data: &mut Vec<u8>, input: &[u8], share: bool) -> u64 {
    if share && input.len() <= 32 && !input.is_empty() {
        if let Some(at) = data.windows(input.len()).position(|window| window == input) {
            return at as u64;
        }
    }
    data.extend(input);
    (data.len() - input.len()) as u64
}

/// Operands past the declared length, wrapping ones, empty ones, and declared lengths that differ from the data's.
fn damage_operands(random: &mut Random, head: &mut Head) {
    if head.count > 0 && random.chance(45) {
        let declared = head.declared;
        let instruction = &mut head.instructions[random.below(head.count) as usize];
        let operand = &mut instruction.operands[random.below(instruction.operand_count.max(1)) as usize];
        let length = operand.length;
        let offset = operand.offset;
        *operand = random.pick(&[
            Operand { offset: u64::MAX, length },
            Operand { offset: u64::MAX - 7, length: 8 },
            Operand { offset: u64::MAX, length: 1 },
            Operand { offset, length: u64::MAX },
            Operand { offset: declared, length: 0 },
            Operand { offset: declared, length: 0 },
            Operand { offset: declared, length: 0 },
            Operand { offset: declared + 1, length: 0 },
            Operand { offset: declared.saturating_sub(length), length },
            Operand { offset: (declared + 1).saturating_sub(length), length },
            Operand { offset: 0, length },
            Operand { offset, length: 0 },
        ]);
    }
    if random.chance(25) {
        head.declared = random.pick(&[head.declared + 1, head.declared.saturating_sub(1), 65_536, 65_535, 0]).min(65_536);
    }
}

/// A head's bytes, some of them damaged.
pub fn head_bytes(random: &mut Random, head: &Head) -> Vec<u8> {
    let mut bytes = if head::within_limits(head) { head::encoded(head) } else { vec![] };
    if bytes.is_empty() || !random.chance(50) {
        return bytes;
    }
    let length = bytes.len();
    let put = |bytes: &mut Vec<u8>, at: usize, number: u64| {
        if at + 8 <= bytes.len() {
            bytes[at..at + 8].copy_from_slice(&number.to_le_bytes());
        }
    };
    match random.below(10) {
        0 | 1 => bytes[random.below(length as u64) as usize] ^= 1 << random.below(8),
        2 => bytes.truncate(random.below(length as u64) as usize),
        3 => bytes.push(random.next() as u8),
        4 => put(&mut bytes, 32, random.pick(&[33, 32, 1 << 32, u64::MAX])),
        5 => put(&mut bytes, 56, random.pick(&[5, 4, 256, u64::MAX])),
        6 => put(&mut bytes, length - 8, random.pick(&[65_537, 65_536, 1 << 40, u64::MAX])),
        7 => bytes[length - 9] = 2,
        8 => {
            put(&mut bytes, 32, 33);
            bytes.truncate(random.within(36, 48) as usize);
        }
        _ => {
            put(&mut bytes, length - 8, 65_537);
            bytes.push(0);
        }
    }
    bytes
}
