//! M-105, "Keep the sector roots": where the roots that calls answer come from, and whether a host is sound.
//!
//! "For any areas, results are those that follow from the kept roots; for a sound host with areas lent back as left they are 01's". So all
//! that needs a root asks here. The model's own tests ask for document 01's roots, worked out from all the bytes, and compare.

use crate::host::*;
use crate::lookup::Spot;
use crate::tree::{self, Hash};
use std::cell::Cell;

thread_local! {
    static WORKED_OUT: Cell<bool> = const { Cell::new(false) };
}

/// What a call answers where no root is kept and each is worked out from the bytes; for tests alone.
pub fn worked_out<Answer>(call: impl FnOnce() -> Answer) -> Answer {
    WORKED_OUT.set(true);
    let answer = call();
    WORKED_OUT.set(false);
    answer
}

/// Whether roots are worked out just now.
pub fn are_worked_out() -> bool {
    WORKED_OUT.get()
}

impl Host {
    /// The kept root of the sector that a committed position holds.
    fn committed_root(&self, place: usize, position: u64) -> Hash {
        self.disk_roots[self.places[place].slots[position as usize] as usize]
    }

    /// The kept root of the parent's sector as the program sees it: of the stage where it has a copy, else of the disk.
    fn running_root(&self, position: u64) -> Hash {
        match self.program.staged[position as usize] {
            NONE => self.committed_root(self.parent().unwrap(), position),
            slot => self.stage_roots[slot as usize],
        }
    }

    /// The kept roots of a contract's sectors as committed.
    pub fn committed_roots(&self, place: usize) -> Vec<Hash> {
        (0..self.places[place].size / self.sector).map(|position| self.committed_root(place, position)).collect()
    }

    /// The kept roots of the parent's sectors as the program sees them; none in read-only mode.
    pub fn running_roots(&self) -> Vec<Hash> {
        (0..self.program.running / self.sector).map(|position| self.running_root(position)).collect()
    }

    /// The root of a contract as committed.
    pub fn committed_contract_root(&self, disk: &[u8], place: usize) -> Hash {
        if are_worked_out() {
            return tree::root(&self.committed_sectors(disk, place).concat());
        }
        tree::joined(&self.committed_roots(place))
    }

    /// The root of the parent as the program sees it; zeros in read-only mode.
    pub fn running_contract_root(&self, disk: &[u8], stage: &[u8]) -> Hash {
        if are_worked_out() {
            return tree::root(&self.running_sectors(disk, stage).concat());
        }
        tree::joined(&self.running_roots())
    }

    /// The kept root of a sector that the look-up sees: "the stage copy's root where there is one, else the disk's".
    pub fn kept_root(&self, spot: Spot) -> Hash {
        if spot.staged {
            return self.running_root(spot.position);
        }
        self.committed_root(spot.place, spot.position)
    }

    /// The root by which ReadSector finds a sector.
    pub fn root_looked_up(&self, disk: &[u8], stage: &[u8], spot: Spot) -> Hash {
        if are_worked_out() {
            return tree::root(self.sector_at(disk, stage, spot));
        }
        self.kept_root(spot)
    }

    /// "for each committed position of each contract the kept root of its disk slot is the root of that sector's bytes, and for each staged
    /// position of the open program the same of its stage slot. Other slots are not looked at." Of a host in order: the first slot
    /// whose root is another's.
    pub fn unsound_at(&self, disk: &[u8], stage: &[u8]) -> Option<&'static str> {
        for place in (0..8).filter(|&p| self.places[p].held) {
            for slot in &self.places[place].slots[..(self.places[place].size / self.sector) as usize] {
                if self.disk_roots[*slot as usize] != tree::root(sector(disk, self.sector, *slot)) {
                    return Some("disk");
                }
            }
        }
        for slot in self.program.staged.iter().filter(|&&slot| self.program.open && slot != NONE) {
            if self.stage_roots[*slot as usize] != tree::root(sector(stage, self.sector, *slot)) {
                return Some("stage");
            }
        }
        None
    }

    /// "a separate call that recomputes everything says whether a host is sound": "1, 2 (disk and stage), never 4; else 0 and whether the
    /// host is sound".
    pub fn sound(&self, disk: &[u8], stage: &[u8]) -> (u64, bool) {
        if !self.in_order() {
            return (1, false);
        }
        if !self.lent_as_made(disk, stage) {
            return (2, false);
        }
        (0, self.unsound_at(disk, stage).is_none())
    }
}

/// "sets the kept root of its stage slot to the root of the sector's bytes after the instruction"
pub fn rehash(host: &mut Host, stage: &[u8], position: u64) {
    let slot = host.program.staged[position as usize];
    host.stage_roots[slot as usize] = tree::root(sector(stage, host.sector, slot));
}
