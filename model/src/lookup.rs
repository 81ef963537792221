//! M-110, "Look in the stage first": the look-up by root, which ReadSector makes and `locate` answers.
//!
//! "The lookup by root shall search the parent's current sectors first, stage copies included, by position, then committed sectors of the
//! other contracts as today. It also answers the contract place and position, and whether the stage held it."

use crate::coverage::{self, event};
use crate::host::*;
use crate::tree::Hash;

/// A sector that the look-up sees: "the contract place and position, and whether the stage held it".
#[derive(Clone, Copy, PartialEq, Debug)]
pub struct Spot {
    pub place: usize,
    pub position: u64,
    pub staged: bool,
}

impl Host {
    /// The place whose current sectors the look-up sees first: the open program's parent. None "in read-only mode", and with no program
    /// open: "no contract counts as the parent, a held zero id neither", although the record of a closed program names that id.
    pub fn searched_first(&self) -> Option<usize> {
        if !self.program.open {
            return None;
        }
        self.parent()
    }

    /// "the parent's current sectors by position, from 0 to below the running size, the stage copy's root where there is one, else the
    /// disk's; then the committed sectors of the other contracts by place, then position." "In read-only mode: all committed sectors, by
    /// place, then position, as before." With no program open "all committed sectors, as in read-only mode". The first sector whose root
    /// is the one looked for, all 32 bytes of it.
    pub fn look_up(&self, root: &Hash, root_of: impl Fn(Spot) -> Hash) -> Option<Spot> {
        let first = self.searched_first();
        if let Some(place) = first {
            for position in 0..self.program.running / self.sector {
                let own = Spot { place, position, staged: self.program.staged[position as usize] != NONE };
                if root_of(own) == *root {
                    return Some(own);
                }
            }
        }
        for place in (0..8).filter(|&p| self.places[p].held && Some(p) != first) {
            for position in 0..self.places[place].size / self.sector {
                let other = Spot { place, position, staged: false };
                if root_of(other) == *root {
                    return Some(other);
                }
            }
        }
        None
    }

    /// "New public call `locate(host, root)`: 1; else 0 with found, place, position, staged"; "a program need not be open". It lends no
    /// area, so kept roots are all that it goes by. "After a failure it still sees the parent's current sectors, stage included. It
    /// changes nothing."
    pub fn locate(&self, root: &Hash) -> (u64, Option<Spot>) {
        if !self.in_order() {
            return (1, None);
        }
        let found = self.look_up(root, |spot| self.kept_root(spot));
        note(self, root, found, By::Locate);
        (0, found)
    }

    /// The same by roots worked out from the bytes, for tests alone.
    pub fn locate_by_bytes(&self, disk: &[u8], stage: &[u8], root: &Hash) -> (u64, Option<Spot>) {
        if !self.in_order() {
            return (1, None);
        }
        (0, self.look_up(root, |spot| crate::tree::root(self.sector_at(disk, stage, spot))))
    }

    /// "ReadSector reads what it found, from the stage or the disk".
    pub fn sector_at<'a>(&self, disk: &'a [u8], stage: &'a [u8], spot: Spot) -> &'a [u8] {
        if spot.staged {
            return sector(stage, self.sector, self.program.staged[spot.position as usize]);
        }
        self.committed_sector(disk, spot.place, spot.position)
    }
}

// Counts, for the coverage that `run` prints

/// Who looks up.
#[derive(Clone, Copy, PartialEq)]
pub enum By {
    ReadSector,
    Locate,
}

/// Counts of a look-up by kept roots, and of what it found.
pub fn note(host: &Host, root: &Hash, found: Option<Spot>, by: By) {
    if coverage::is_off() {
        return;
    }
    let say = |read_sector: &'static str, locate: &'static str| event(if by == By::ReadSector { read_sector } else { locate });
    let first = host.searched_first();
    match (found, first, host.program.open) {
        (Some(spot), Some(place), _) if spot.place == place => note_in_parent(host, root, spot, say),
        (Some(_), Some(_), _) => say("ReadSector found in another contract", "l found in another contract, a writer open"),
        (Some(_), None, true) => say("ReadSector found in read-only mode", "l found in read-only mode"),
        (Some(_), None, false) => event("l found, no program open"),
        (None, Some(_), _) => say("ReadSector not found, not in read-only mode", "l not found, a writer open"),
        (None, None, true) => say("ReadSector not found in read-only mode", "l not found in read-only mode"),
        (None, None, false) => event("l not found, no program open"),
    }
    if by == By::Locate {
        note_located(host, found);
    }
    if let Some(place) = first {
        note_gone(host, root, found, place, say);
    }
    note_near(host, root, found, say);
}

/// Counts of sectors found in the parent.
fn note_in_parent(host: &Host, root: &Hash, spot: Spot, say: impl Fn(&'static str, &'static str)) {
    let past_start = spot.position * host.sector >= host.starting_size();
    match (spot.staged, past_start) {
        (true, true) => {
            say("ReadSector found in the stage, past the starting size", "l found in the stage, past the starting size")
        }
        (true, false) => say("ReadSector found in the stage", "l found in the stage"),
        (false, _) => say("ReadSector found in the parent, on the disk", "l found in the parent, on the disk"),
    }
    let kept = |position: u64| host.kept_root(Spot { position, staged: host.program.staged[position as usize] != NONE, ..spot });
    if (spot.position + 1..host.program.running / host.sector).any(|position| kept(position) == *root) {
        say("ReadSector of two equal sectors of the parent", "l of two equal sectors of the parent");
    }
    let holds = |place: usize| host.places[place].held && place != spot.place && host.committed_roots(place).contains(root);
    if (0..spot.place).any(holds) {
        say("ReadSector passes over an equal sector at a lower place", "l passes over an equal sector at a lower place");
    }
    if (spot.place + 1..8).any(holds) {
        say("ReadSector of the parent, an equal sector at a higher place", "l of the parent, an equal sector at a higher place");
    }
}

/// Counts of `locate` alone.
fn note_located(host: &Host, found: Option<Spot>) {
    match found {
        Some(spot) if spot.staged && host.program.failed => event("l found in the stage, after a failure"),
        Some(_) if host.program.open && host.program.failed => event("l found on the disk, after a failure"),
        None if host.program.open && host.program.failed => event("l not found, after a failure"),
        Some(spot) if !host.program.open && host.places[spot.place].id == [0; 32] => {
            event("l found under the zero id, no program open")
        }
        _ => {}
    }
}

/// Counts of sectors that the parent has on the disk and the program no longer sees, "overwritten or cut off".
fn note_gone(host: &Host, root: &Hash, found: Option<Spot>, place: usize, say: impl Fn(&'static str, &'static str)) {
    let (on_disk, current) = (host.committed_roots(place), host.running_roots());
    let held: Vec<usize> = (0..on_disk.len()).filter(|&at| on_disk[at] == *root).collect();
    if held.iter().any(|&at| current.get(at) == Some(root)) {
        return;
    }
    let overwritten = held.iter().any(|&at| at < current.len());
    let cut_off = held.iter().any(|&at| at >= current.len());
    match (found, overwritten, cut_off) {
        (None, true, _) => say("ReadSector: overwritten, not found", "l: overwritten, not found"),
        (None, _, true) => say("ReadSector: cut off, not found", "l: cut off, not found"),
        (Some(spot), true, _) if spot.place != place => {
            say("ReadSector: overwritten, found in another contract", "l: overwritten, found in another contract")
        }
        (Some(spot), _, true) if spot.place != place => {
            say("ReadSector: cut off, found in another contract", "l: cut off, found in another contract")
        }
        (Some(_), true, _) | (Some(_), _, true) => {
            say("ReadSector: overwritten or cut off, found in the stage", "l: overwritten or cut off, found in the stage")
        }
        _ => {}
    }
}

/// Counts of roots that agree with another one in a part: "A lookup on the first four bytes of a root" would take it.
fn note_near(host: &Host, root: &Hash, found: Option<Spot>, say: impl Fn(&'static str, &'static str)) {
    let like = |bytes: usize| {
        host.look_up(&[0; 32], |spot| if host.kept_root(spot)[..bytes] == root[..bytes] { [0; 32] } else { [1; 32] })
    };
    if found.is_none() && like(31).is_some() {
        say("ReadSector not found, 31 bytes alike", "l not found, 31 bytes alike");
    } else if found.is_none() && like(4).is_some() {
        say("ReadSector not found, four bytes alike", "l not found, four bytes alike");
    } else if found != like(4) {
        say("ReadSector passes over four bytes alike", "l passes over four bytes alike");
    }
}
