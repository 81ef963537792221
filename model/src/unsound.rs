//! Counts of calls on hosts that are in order but not sound (M-105), beside what the same calls do where each root is worked out from the
//! bytes, as document 01 has it.

use crate::calls::{Answered, Item, Player};
use crate::coverage::{self, event};
use crate::head::Reader;
use crate::host::NONE;
use crate::roots;

/// Where a player's host holds a root that is not its sector's; none where it is sound, not in order, or too large for the areas.
pub fn found(player: &Player) -> Option<&'static str> {
    if !player.fits() {
        return None;
    }
    player.host.unsound_at(&player.disk, &player.stage)
}

/// What the call would do, and leave, if each root were worked out from the bytes.
pub fn worked_out(player: &Player, item: &Item) -> (Answered, Player) {
    let mut other = player.clone();
    let answered = coverage::uncounted(|| roots::worked_out(|| other.call(item)));
    (answered, other)
}

/// Counts of a call of `sound`, which is made next.
pub fn note_asked(player: &Player, disk: u64, stage: u64) {
    let host = &player.host;
    if (disk, stage) != (host.disk_length(), host.stage_length()) {
        return event(if host.program.open { "s 2, a program open" } else { "s 2, no program open" });
    }
    let staged = host.program.staged.iter().any(|&slot| slot != NONE);
    event(match (found(player), host.program.open, staged) {
        (None, false, _) => "s yes, no program open",
        (None, true, false) => "s yes, a program open, none staged",
        (None, true, true) => "s yes, a program open, sectors staged",
        (Some("disk"), false, _) => "s no, a disk slot, no program open",
        (Some("disk"), true, _) => "s no, a disk slot, a program open",
        (Some(_), _, _) => "s no, a stage slot",
    });
    if found(player).is_none() && wrong_beside(player) {
        event("s yes, a root written over in a slot that no position has");
    }
}

/// Whether a slot that no position has holds a root that is neither zeros nor its sector's.
fn wrong_beside(player: &Player) -> bool {
    let host = &player.host;
    let positions = |size: u64| (size / host.sector) as usize;
    let has = |slot: u8| host.places.iter().any(|place| place.held && place.slots[..positions(place.size)].contains(&slot));
    let wrong = |root: &[u8; 32], area: &[u8], slot: u8| {
        *root != [0; 32] && *root != crate::tree::root(crate::host::sector(area, host.sector, slot))
    };
    let staged = |slot: u8| host.program.open && host.program.staged.contains(&slot);
    (0..host.disk_sectors as u8).any(|slot| !has(slot) && wrong(&host.disk_roots[slot as usize], &player.disk, slot))
        || (0..host.stage_sectors as u8).any(|slot| !staged(slot) && wrong(&host.stage_roots[slot as usize], &player.stage, slot))
}

/// Counts of an agreement to a program that has ended without a failure, on a host that is not sound; it is made next.
pub fn note_agreement(player: &Player, size: u64, root: &[u8; 32]) {
    let Player { host, disk, stage, .. } = player;
    if !host.program.open || !host.ended() || host.program.failed {
        return;
    }
    let pairs = || (host.starting_pair(disk), host.running_pair(disk, stage));
    let (kept, by_bytes) = (pairs(), roots::worked_out(pairs));
    match (kept.0 == kept.1, by_bytes.0 == by_bytes.1) {
        (true, false) => event("unsound: agreement, bytes changed and no kept root (0, nothing committed)"),
        (false, true) => event("unsound: agreement, kept roots changed and no byte"),
        (false, false) if kept.1 != by_bytes.1 && by_bytes.1 == (size, *root) => {
            event("unsound: agreement to the bytes' pair (14)")
        }
        _ => {}
    }
}

/// Counts of a call that was made on a host that was not sound: what it did, and what it would have done by roots worked out.
pub fn note(written: u64, item: &Item, done: (&Answered, &Player), by_bytes: (&Answered, &Player)) {
    let ((answered, after), (other, other_after)) = (done, by_bytes);
    match item {
        Item::Piece { .. } if answered.answer == 0 => note_records(written as usize, after, other_after),
        Item::Interrupt { .. } if after.output != other_after.output => event("unsound: interrupt, another root"),
        Item::Reached { .. } if answered.root != other.root => event("unsound: another root reached"),
        Item::Locate { .. } => match (answered.tally, other.tally) {
            (1, 0) => event("unsound: l finds what the bytes do not have"),
            (0, 1) => event("unsound: l does not find what the bytes have"),
            _ if answered.spot != other.spot => event("unsound: l finds another sector"),
            _ => {}
        },
        _ => {}
    }
    if found(after).is_none() && after.host.in_order() {
        match item {
            Item::Piece { .. } => event("made sound by a piece"),
            Item::Agree { .. } => event("made sound by an agreement"),
            Item::GiveUp { .. } => event("made sound by giving up"),
            Item::Drop { .. } => event("made sound by dropping"),
            _ => {}
        }
    }
}

/// Counts by the first record that differs.
fn note_records(written: usize, after: &Player, other: &Player) {
    let records = |player: &Player| records_of(&player.output[written..player.host.program.written as usize]);
    for (left, right) in records(after).iter().zip(records(other).iter()).filter(|(left, right)| left != right) {
        if left.number != 25 && right.number == 25 {
            return event("unsound: ReadSector finds what the bytes do not have");
        }
        if left.number == 25 && right.number != 25 {
            return event("unsound: ReadSector does not find what the bytes have");
        }
        if left.root != right.root {
            event("unsound: another root in a record");
        }
        if left.hashes != right.hashes {
            event("unsound: another proof");
        }
        if left.output != right.output {
            event("unsound: ReadSector finds another sector");
        }
        return;
    }
}

#[derive(PartialEq)]
struct Record {
    number: u64,
    root: Vec<u8>,
    hashes: Vec<u8>,
    output: Vec<u8>,
}

fn records_of(bytes: &[u8]) -> Vec<Record> {
    let mut reader = Reader { rest: bytes };
    let mut records = Vec::new();
    while let Ok(record) = record_of(&mut reader) {
        records.push(record);
    }
    records
}

fn record_of(reader: &mut Reader) -> Result<Record, u64> {
    let (number, _, _) = (reader.number()?, reader.number()?, reader.number()?);
    let root = reader.bytes(32)?.to_vec();
    let hashes = reader.number()?;
    let hashes = reader.bytes(hashes.saturating_mul(32))?.to_vec();
    let length = reader.number()?;
    Ok(Record { number, root, hashes, output: reader.bytes(length)?.to_vec() })
}
