//! "Taking an instruction" and "Instructions": need, checks, cost, effect, record.

use crate::coverage;
use crate::head::{filled, Instruction};
use crate::host::*;
use crate::lookup;
use crate::roots;
use crate::tree;

/// "Read (contract, offset, length); ReadSector (root, offset, length); Write (offset, data); Copy (destination, source, size);
/// Swap (offset 1, offset 2, size); Truncate (new size)."
#[derive(Clone, Copy, PartialEq, Debug)]
pub enum Name {
    Read,
    ReadSector,
    Write,
    Copy,
    Swap,
    Truncate,
}

/// "Names are Read, ReadSector, Write, Copy, Swap, Truncate, filled with zero bytes."
pub const NAMES: [(&str, Name, u64); 6] = [
    ("Read", Name::Read, 3),
    ("ReadSector", Name::ReadSector, 3),
    ("Write", Name::Write, 2),
    ("Copy", Name::Copy, 3),
    ("Swap", Name::Swap, 3),
    ("Truncate", Name::Truncate, 1),
];

/// The word, name and number of operands, or none for an unknown name.
pub fn known(name: &[u8; 16]) -> Option<(&'static str, Name, u64)> {
    NAMES.into_iter().find(|(word, _, _)| *name == filled::<16>(word.as_bytes()))
}

/// An instruction with its inputs.
enum Inputs {
    Read { contract: [u8; 32], offset: u64, length: u64 },
    ReadSector { root: [u8; 32], offset: u64, length: u64 },
    Write { offset: u64, data: Vec<u8> },
    Copy { destination: u64, source: u64, size: u64 },
    Swap { first: u64, second: u64, size: u64 },
    Truncate { size: u64 },
}

/// What an instruction that passed its checks shows in its record besides number and pair.
struct Shown {
    cost: u64,
    proof: Vec<tree::Hash>,
    output: Vec<u8>,
}

/// Sectors to be read, and their kept roots, which a proof of one of them walks: those of a contract, or the one that was looked up.
struct Source<'a> {
    sectors: Vec<&'a [u8]>,
    roots: Vec<tree::Hash>,
}

fn next(host: &Host) -> Instruction {
    host.program.head.instructions[host.program.ran as usize]
}

/// 21: "unknown name, or operand count wrong"
fn number_21(instruction: &Instruction) -> bool {
    match known(&instruction.name) {
        Some((_, _, operands)) => operands != instruction.operand_count,
        None => true,
    }
}

/// 22: "offset plus length of an operand above the declared length", without wrapping.
fn number_22(instruction: &Instruction, declared: u64) -> bool {
    let operands = &instruction.operands[..instruction.operand_count as usize];
    operands.iter().any(|o| o.offset as u128 + o.length as u128 > declared as u128)
}

/// "Need is 0 if 21 or 22 below applies; otherwise the largest offset plus length among operands of nonzero length, 0 if none."
pub fn need(host: &Host) -> u64 {
    let instruction = next(host);
    if number_21(&instruction) || number_22(&instruction, host.program.head.declared) {
        return 0;
    }
    let operands = &instruction.operands[..instruction.operand_count as usize];
    operands.iter().filter(|o| o.length != 0).map(|o| o.offset + o.length).max().unwrap_or(0)
}

/// "Each input is the middle part of the input area that its operand names."
fn input_part<'a>(instruction: &Instruction, input: &'a [u8], i: usize) -> &'a [u8] {
    let operand = instruction.operands[i];
    &input[operand.offset as usize..(operand.offset + operand.length) as usize]
}

/// 23: "a number not 8 bytes"
fn number(part: &[u8]) -> Result<u64, u64> {
    part.try_into().map(u64::from_le_bytes).map_err(|_| 23)
}

/// 23: "an id or root not 32"
fn hash(part: &[u8]) -> Result<[u8; 32], u64> {
    part.try_into().map_err(|_| 23)
}

/// 23: "Write data shorter than 8 or whose leading count is not the rest's length"
fn counted_data(part: &[u8]) -> Result<Vec<u8>, u64> {
    if part.len() < 8 {
        return Err(23);
    }
    let (count, rest) = part.split_at(8);
    if number(count)? != rest.len() as u64 {
        return Err(23);
    }
    Ok(rest.to_vec())
}

fn inputs(name: Name, instruction: &Instruction, input: &[u8]) -> Result<Inputs, u64> {
    let part = |i| input_part(instruction, input, i);
    Ok(match name {
        Name::Read => Inputs::Read { contract: hash(part(0))?, offset: number(part(1))?, length: number(part(2))? },
        Name::ReadSector => Inputs::ReadSector { root: hash(part(0))?, offset: number(part(1))?, length: number(part(2))? },
        Name::Write => Inputs::Write { offset: number(part(0))?, data: counted_data(part(1))? },
        Name::Copy => Inputs::Copy { destination: number(part(0))?, source: number(part(1))?, size: number(part(2))? },
        Name::Swap => Inputs::Swap { first: number(part(0))?, second: number(part(1))?, size: number(part(2))? },
        Name::Truncate => Inputs::Truncate { size: number(part(0))? },
    })
}

/// 25: "contract or sector root not found". What a Read or ReadSector reads: the parent as it runs, and "Read of another contract" sees
/// "committed sectors only". M-110: "ReadSector reads what it found, from the stage or the disk; its proof is of that sector; 25 where
/// nothing is found." M-105: the look-up of ReadSector "follows from kept roots".
fn source<'a>(host: &Host, disk: &'a [u8], stage: &'a [u8], inputs: &Inputs) -> Result<Option<Source<'a>>, u64> {
    match inputs {
        Inputs::Read { contract, .. } => {
            let place = host.find(contract).ok_or(25u64)?;
            let of_parent = host.parent() == Some(place);
            coverage::event(if of_parent { "Read of the parent" } else { "Read of another contract" });
            if !of_parent && padded(contract) {
                coverage::event("padded id held: read by another program");
            }
            Ok(Some(if of_parent {
                Source { sectors: host.running_sectors(disk, stage), roots: host.running_roots() }
            } else {
                Source { sectors: host.committed_sectors(disk, place), roots: host.committed_roots(place) }
            }))
        }
        Inputs::ReadSector { root, .. } => {
            let found = host.look_up(root, |spot| host.root_looked_up(disk, stage, spot));
            lookup::note(host, root, found, lookup::By::ReadSector);
            let sector = host.sector_at(disk, stage, found.ok_or(25u64)?);
            Ok(Some(Source { sectors: vec![sector], roots: vec![*root] }))
        }
        _ => Ok(None),
    }
}

/// 26: "span: length 0, past the end, or across a sector edge", of sectors of the host's size
fn bad_span(sector: u64, offset: u64, length: u64, end: u64) -> bool {
    if length == 0 || offset as u128 + length as u128 > end as u128 {
        return true;
    }
    offset / sector != (offset + length - 1) / sector
}

/// 26, also "Truncate to no multiple of 4,096 or by more than one sector"; M-103: "read "4,096" ... as the host's size"
fn number_26(host: &Host, inputs: &Inputs, source: &Option<Source>) -> bool {
    let (z, running) = (host.sector, host.program.running);
    match inputs {
        Inputs::Read { offset, length, .. } | Inputs::ReadSector { offset, length, .. } => {
            bad_span(z, *offset, *length, source.as_ref().unwrap().sectors.len() as u64 * z)
        }
        Inputs::Write { offset, data } => bad_span(z, *offset, data.len() as u64, running),
        Inputs::Copy { destination, source, size } => {
            bad_span(z, *destination, *size, running) || bad_span(z, *source, *size, running)
        }
        Inputs::Swap { first, second, size } => bad_span(z, *first, *size, running) || bad_span(z, *second, *size, running),
        Inputs::Truncate { size } => size % z != 0 || size.abs_diff(running) > z,
    }
}

/// 27: "proof asked of other than Read or ReadSector, or with offset or length no multiple of 64"
fn number_27(inputs: &Inputs) -> bool {
    match inputs {
        Inputs::Read { offset, length, .. } | Inputs::ReadSector { offset, length, .. } => offset % 64 != 0 || length % 64 != 0,
        _ => true,
    }
}

/// "Cost, fixed before running: (1,048,576 + declared length) × time × Memory, plus the instruction's own. Times: Read,
/// ReadSector 10; Write, Copy 20; Swap 30; Truncate 5. Own: read R = ReadBase + ReadLength × length; write W = WriteBase +
/// WriteLength × data length (count excluded); Copy R + W; Swap 2 × (R + W); Truncate TruncateBase."
/// Prices stand in the order of the bench: Init, Memory, ReadBase, ReadLength, WriteBase, WriteLength, TruncateBase.
fn cost(program: &Program, inputs: &Inputs) -> u64 {
    let price = |i: usize| program.prices[i] as u64;
    let memory = |time: u64| (1_048_576 + program.head.declared) * time * price(1);
    let read = |length: u64| price(2) + price(3) * length;
    let write = |length: u64| price(4) + price(5) * length;
    match inputs {
        Inputs::Read { length, .. } | Inputs::ReadSector { length, .. } => memory(10) + read(*length),
        Inputs::Write { data, .. } => memory(20) + write(data.len() as u64),
        Inputs::Copy { size, .. } => memory(20) + read(*size) + write(*size),
        Inputs::Swap { size, .. } => memory(30) + 2 * (read(*size) + write(*size)),
        Inputs::Truncate { .. } => memory(5) + price(6),
    }
}

/// The positions that an instruction writes to, in the order in which they take slots: "Swap takes offset 2's slot first".
fn written_positions(host: &Host, inputs: &Inputs) -> Vec<u64> {
    let position = |offset: &u64| offset / host.sector;
    let running = host.program.running;
    match inputs {
        Inputs::Write { offset, .. } => vec![position(offset)],
        Inputs::Copy { destination, .. } => vec![position(destination)],
        Inputs::Swap { first, second, .. } if position(first) == position(second) => vec![position(first)],
        Inputs::Swap { first, second, .. } => vec![position(second), position(first)],
        Inputs::Truncate { size } if *size > running => vec![position(&running)],
        _ => vec![],
    }
}

/// 40: "too few free stage slots". "A sector written to, even with equal bytes, gets a stage copy unless it has one".
fn number_40(host: &Host, inputs: &Inputs) -> bool {
    let staged = &host.program.staged;
    let used = staged.iter().filter(|&&slot| slot != NONE).count();
    let written = written_positions(host, inputs);
    let has_copy = |position: u64| staged.get(position as usize).is_some_and(|&slot| slot != NONE);
    let wanted = written.iter().filter(|&&position| !has_copy(position)).count();
    (used + wanted) as u64 > host.stage_sectors
}

/// 41: "new size plus all other contracts' sizes above the disk"
fn number_41(host: &Host, inputs: &Inputs) -> bool {
    match inputs {
        Inputs::Truncate { size } => *size as u128 + host.other_sizes() > host.disk_length() as u128,
        _ => false,
    }
}

/// Output bytes, and the proof if it is asked.
fn shown(z: u64, cost: u64, proof_asked: bool, inputs: &Inputs, source: Option<Source>) -> Shown {
    match (inputs, source) {
        (Inputs::Read { offset, length, .. } | Inputs::ReadSector { offset, length, .. }, Some(source)) => {
            let (position, from, end) = (offset / z, offset % z, offset % z + length);
            let proof = if proof_asked { proof(&source, position, from / 64, end / 64) } else { vec![] };
            note_proof(proof_asked, &source, proof.len());
            Shown { cost, proof, output: source.sectors[position as usize][from as usize..end as usize].to_vec() }
        }
        _ => Shown { cost, proof: vec![], output: vec![] },
    }
}

/// "in the proof of a Read the roots of all sectors outside the range. Hashes inside the sector that is read are worked out from its bytes,
/// and so is the whole proof of a ReadSector": that of the only sector.
fn proof(source: &Source, position: u64, first: u64, end: u64) -> Vec<tree::Hash> {
    let sector = source.sectors[position as usize];
    if roots::are_worked_out() {
        let before = position * sector.len() as u64 / 64;
        return tree::proof(&source.sectors.concat(), before + first, before + end);
    }
    tree::proof_in(&source.roots, position, sector, first, end)
}

/// "Checks, first match wins"
fn checks(host: &Host, disk: &[u8], stage: &[u8], input: &[u8]) -> Result<(Inputs, Shown), u64> {
    let program = &host.program;
    let instruction = next(host);
    if number_21(&instruction) {
        return Err(21);
    }
    if number_22(&instruction, program.head.declared) {
        return Err(22);
    }
    let (_, name, _) = known(&instruction.name).unwrap();
    let inputs = inputs(name, &instruction, input)?;
    // 24: "Write, Copy, Swap or Truncate in read-only mode"
    if host.read_only_mode() && name != Name::Read && name != Name::ReadSector {
        return Err(24);
    }
    let source = source(host, disk, stage, &inputs)?;
    if number_26(host, &inputs, &source) {
        note_26(host, &inputs);
        return Err(26);
    }
    if instruction.proof && number_27(&inputs) {
        return Err(27);
    }
    // 28: "tally plus cost above budget"
    let cost = cost(program, &inputs);
    if program.tally as u128 + cost as u128 > program.budget as u128 {
        return Err(28);
    }
    if number_40(host, &inputs) {
        return Err(40);
    }
    if number_41(host, &inputs) {
        return Err(41);
    }
    // 42: "record does not fit with 72 bytes left after it"
    let shown = shown(host.sector, cost, instruction.proof, &inputs, source);
    if program.written + record_length(&shown) + 72 > program.output_length {
        return Err(42);
    }
    Ok((inputs, shown))
}

fn record_length(shown: &Shown) -> u64 {
    8 + 8 + 8 + 32 + 8 + 32 * shown.proof.len() as u64 + 8 + shown.output.len() as u64
}

/// Runs the next instruction, or fails it.
pub fn take(host: &mut Host, disk: &[u8], stage: &mut [u8], input: &[u8], output: &mut [u8]) {
    match checks(host, disk, stage, input) {
        Err(number) => fail(host, disk, output, number),
        Ok((inputs, shown)) => {
            note_success(host, &inputs);
            effect(host, disk, stage, &inputs);
            host.program.tally += shown.cost;
            let (size, root) = host.running_pair(disk, stage);
            write_record(host, output, 0, size, &root, &shown);
            host.program.ran += 1;
        }
    }
}

/// "A failure ends the program and otherwise only writes its record." "Failure: cost 0, starting size and root, both counts 0."
pub fn fail(host: &mut Host, disk: &[u8], output: &mut [u8], number: u64) {
    coverage::record(word(&next(host)), number);
    coverage::sized(host.sector, word(&next(host)), number);
    let (size, root) = host.starting_pair(disk);
    write_record(host, output, number, size, &root, &Shown { cost: 0, proof: vec![], output: vec![] });
    host.program.failed = true;
}

fn word(instruction: &Instruction) -> &'static str {
    known(&instruction.name).map_or("(unknown)", |(word, _, _)| word)
}

/// "Record: number (0 if it succeeded), cost, new size (8 each), new root (32), proof count and hashes, output count and bytes."
/// "Records are written from the first free byte of the output area onward."
fn write_record(host: &mut Host, output: &mut [u8], number: u64, size: u64, root: &tree::Hash, shown: &Shown) {
    let mut record = Vec::new();
    record.extend(number.to_le_bytes());
    record.extend(shown.cost.to_le_bytes());
    record.extend(size.to_le_bytes());
    record.extend(root);
    record.extend((shown.proof.len() as u64).to_le_bytes());
    record.extend(shown.proof.iter().flatten());
    record.extend((shown.output.len() as u64).to_le_bytes());
    record.extend(&shown.output);
    let from = host.program.written as usize;
    output[from..from + record.len()].copy_from_slice(&record);
    host.program.written += record.len() as u64;
}

/// "Every choice of slot, disk or stage, is the lowest free one."
fn lowest_free_stage_slot(host: &Host) -> u8 {
    (0..host.stage_sectors as u8).find(|slot| !host.program.staged.contains(slot)).unwrap()
}

/// "gets a stage copy unless it has one"
fn give_copy(host: &mut Host, disk: &[u8], stage: &mut [u8], position: u64) {
    if host.program.staged[position as usize] != NONE {
        return;
    }
    let slot = lowest_free_stage_slot(host);
    let place = host.parent().unwrap();
    sector_mut(stage, host.sector, slot).copy_from_slice(host.committed_sector(disk, place, position));
    host.program.staged[position as usize] = slot;
}

fn read_span(host: &Host, disk: &[u8], stage: &[u8], offset: u64, length: u64) -> Vec<u8> {
    let from = (offset % host.sector) as usize;
    host.running_sector(disk, stage, offset / host.sector)[from..from + length as usize].to_vec()
}

fn write_span(host: &mut Host, disk: &[u8], stage: &mut [u8], offset: u64, bytes: &[u8]) {
    give_copy(host, disk, stage, offset / host.sector);
    let slot = host.program.staged[(offset / host.sector) as usize];
    let from = (offset % host.sector) as usize;
    sector_mut(stage, host.sector, slot)[from..from + bytes.len()].copy_from_slice(bytes);
}

/// "The disk is untouched until commit." M-105: "an instruction that writes a sector (Write, Copy, Swap, also with equal bytes) sets the
/// kept root of its stage slot to the root of the sector's bytes after the instruction".
fn effect(host: &mut Host, disk: &[u8], stage: &mut [u8], inputs: &Inputs) {
    let written = written_positions(host, inputs);
    match inputs {
        Inputs::Read { .. } | Inputs::ReadSector { .. } => {}
        Inputs::Write { offset, data } => write_span(host, disk, stage, *offset, data),
        // "Copy reads the whole source first."
        Inputs::Copy { destination, source, size } => {
            let bytes = read_span(host, disk, stage, *source, *size);
            write_span(host, disk, stage, *destination, &bytes);
        }
        // "Swap reads both spans, writes the first at offset 2, then the second at offset 1."
        Inputs::Swap { first, second, size } => {
            let first_bytes = read_span(host, disk, stage, *first, *size);
            let second_bytes = read_span(host, disk, stage, *second, *size);
            write_span(host, disk, stage, *second, &first_bytes);
            write_span(host, disk, stage, *first, &second_bytes);
        }
        Inputs::Truncate { size } => return resize(host, stage, *size),
    }
    for position in written {
        roots::rehash(host, stage, position);
    }
}

/// "Growth stages zeros. Shrinking frees the dropped position's stage copy at once." M-105: "growth sets that of the new stage slot to the
/// root of a sector of zeros".
fn resize(host: &mut Host, stage: &mut [u8], size: u64) {
    let running = host.program.running;
    if size > running {
        let slot = lowest_free_stage_slot(host);
        sector_mut(stage, host.sector, slot).fill(0);
        host.stage_roots[slot as usize] = tree::zeros_root(host.sector);
        host.program.staged[(running / host.sector) as usize] = slot;
    }
    if size < running {
        host.program.staged[(size / host.sector) as usize] = NONE;
    }
    host.program.running = size;
}

fn note_proof(asked: bool, source: &Source, hashes: usize) {
    if asked {
        coverage::event(match (source.sectors.len(), hashes) {
            (1, 0) => "proof of all of one sector, no hashes",
            (1, _) => "proof in one sector",
            (2 | 4 | 8 | 16 | 32 | 64, _) => "proof in 2, 4, 8, 16, 32 or 64 sectors",
            _ => "proof in another number of sectors",
        });
    }
}

/// Counts of new sizes that another sector size would take (M-103).
fn note_26(host: &Host, inputs: &Inputs) {
    if let Inputs::Truncate { size } = inputs {
        let (z, apart) = (host.sector, size.abs_diff(host.program.running));
        if size % z != 0 && size % LEAST_SECTOR == 0 && apart <= LEAST_SECTOR {
            coverage::event("26: Truncate by 4,096, sectors are larger");
        }
        if size % z == 0 && apart == 2 * z {
            coverage::event("26: Truncate by two sectors");
        }
    }
}

/// Counts of spans that sectors of 4,096 would not take (M-103).
fn note_span(name: &'static str, offset: u64, length: u64) {
    if offset / LEAST_SECTOR != (offset + length - 1) / LEAST_SECTOR {
        coverage::event(name);
    }
}

/// Counts, for the coverage that `run` prints.
fn note_success(host: &Host, inputs: &Inputs) {
    coverage::record(word(&next(host)), 0);
    coverage::sized(host.sector, word(&next(host)), 0);
    let program = &host.program;
    let overlap = |a: u64, b: u64, size: u64| a != b && a.abs_diff(b) < size;
    match inputs {
        Inputs::Read { offset, length, .. } => note_span("Read across a 4,096 edge", *offset, *length),
        Inputs::ReadSector { offset, length, .. } => note_span("ReadSector across a 4,096 edge", *offset, *length),
        Inputs::Write { offset, data } => note_span("Write across a 4,096 edge", *offset, data.len() as u64),
        Inputs::Copy { destination, source, size } => {
            note_span("Copy to a span across a 4,096 edge", *destination, *size);
            note_span("Copy from a span across a 4,096 edge", *source, *size);
        }
        Inputs::Swap { first, second, size } => {
            note_span("Swap of a span across a 4,096 edge", *first, *size);
            note_span("Swap of a span across a 4,096 edge", *second, *size);
        }
        Inputs::Truncate { .. } => {}
    }
    match inputs {
        Inputs::Copy { destination, source, size } if overlap(*destination, *source, *size) => {
            coverage::event(if destination > source { "Copy overlapping, upward" } else { "Copy overlapping, downward" })
        }
        Inputs::Copy { destination, source, .. } if destination / host.sector != source / host.sector => {
            coverage::event("Copy between sectors")
        }
        Inputs::Swap { first, second, size } if overlap(*first, *second, *size) => {
            coverage::event(if second > first { "Swap overlapping, upward" } else { "Swap overlapping, downward" })
        }
        Inputs::Swap { first, second, .. } if first == second => coverage::event("Swap with itself"),
        Inputs::Swap { first, second, .. } if first / host.sector != second / host.sector => {
            let unstaged = |at: u64| (program.staged[(at / host.sector) as usize] == NONE) as u8;
            coverage::event(
                ["Swap of two staged sectors", "Swap taking one slot", "Swap taking two slots"]
                    [(unstaged(*first) + unstaged(*second)) as usize],
            )
        }
        Inputs::Truncate { size } if *size > program.running && program.running < host.starting_size() => {
            coverage::event("growth over a committed position that was cut off")
        }
        Inputs::Truncate { size } if *size > program.running => coverage::event("growth"),
        Inputs::Truncate { size } if *size == program.running => coverage::event("Truncate to the same size"),
        Inputs::Truncate { size } if program.staged[(*size / host.sector) as usize] != NONE => {
            coverage::event("shrinking, the dropped position staged")
        }
        Inputs::Truncate { .. } => coverage::event("shrinking, the dropped position not staged"),
        _ => {}
    }
}
