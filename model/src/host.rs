//! "Host, areas, numbers": the host's record, fresh, form, drop, and whether it is in order.

use crate::head::{self, Head};
use crate::tree;

/// M-103: "any power of two from 4,096 to 4,194,304"
pub const LEAST_SECTOR: u64 = 4_096;
pub const MOST_SECTOR: u64 = 4_194_304;
/// "Disk area: 1 to 64 whole sectors. Stage area: 1 to 16."
pub const MOST_DISK: u64 = 64;
pub const MOST_STAGE: u64 = 16;
/// "an output length, 72 to 65,536"
pub const LEAST_OUTPUT: u64 = 72;
pub const MOST_OUTPUT: u64 = 65_536;
/// A position with no stage copy.
pub const NONE: u8 = 255;

#[derive(Clone, Copy, PartialEq, Debug)]
pub struct Place {
    pub held: bool,
    pub id: [u8; 32],
    pub size: u64,
    /// The disk slot of each position; those at and past the size are not looked at.
    pub slots: [u8; 64],
}

#[derive(Clone)]
pub struct Program {
    pub open: bool,
    pub head: Head,
    pub output_length: u64,
    pub budget: u64,
    pub prices: [u16; 7],
    pub came: u64,
    pub ran: u64,
    pub tally: u64,
    pub written: u64,
    pub failed: bool,
    pub running: u64,
    /// The stage slot of each position, or `NONE`.
    pub staged: [u8; 64],
}

#[derive(Clone)]
pub struct Host {
    /// M-103: "The sector size becomes a number fixed when the host is made".
    pub sector: u64,
    pub disk_sectors: u64,
    pub stage_sectors: u64,
    /// "At most 8 contracts"
    pub places: [Place; 8],
    pub program: Program,
    /// M-105: "Keep a root beside each sector, disk and stage": "a root for each of the 64 disk slots and each of the 16 stage slots",
    /// those of slots that no position has among them.
    pub disk_roots: [tree::Hash; MOST_DISK as usize],
    pub stage_roots: [tree::Hash; MOST_STAGE as usize],
}

/// "A fresh place, a dropped place and a closed program are all zeros again" (decision 18).
pub const EMPTY_PLACE: Place = Place { held: false, id: [0; 32], size: 0, slots: [0; 64] };

pub fn closed_program() -> Program {
    Program {
        open: false,
        head: Head::default(),
        output_length: 0,
        budget: 0,
        prices: [0; 7],
        came: 0,
        ran: 0,
        tally: 0,
        written: 0,
        failed: false,
        running: 0,
        staged: [0; 64],
    }
}

/// "A fresh host holds no contract and no open program." "Making a host with bad lengths answers 2 and a host with no slots"; M-103: "any
/// power of two from 4,096 to 4,194,304, else 2". A host that was refused has sector size 0, as it has no slots. M-105: kept roots are
/// "zeros when made".
pub fn fresh(sector: u64, disk_length: u64, stage_length: u64) -> (u64, Host) {
    let good =
        size_taken(sector) && whole_sectors(sector, disk_length, MOST_DISK) && whole_sectors(sector, stage_length, MOST_STAGE);
    let (sector, disk_sectors, stage_sectors) =
        if good { (sector, disk_length / sector, stage_length / sector) } else { (0, 0, 0) };
    let host = Host {
        sector,
        disk_sectors,
        stage_sectors,
        places: [EMPTY_PLACE; 8],
        program: closed_program(),
        disk_roots: [[0; 32]; 64],
        stage_roots: [[0; 32]; 16],
    };
    (if good { 0 } else { 2 }, host)
}

/// M-103: "any power of two from 4,096 to 4,194,304"
pub fn size_taken(sector: u64) -> bool {
    sector.is_power_of_two() && sector >= LEAST_SECTOR && sector <= MOST_SECTOR
}

/// "1 to 64 whole sectors", "1 to 16"
fn whole_sectors(sector: u64, length: u64, most: u64) -> bool {
    length % sector == 0 && length / sector >= 1 && length / sector <= most
}

impl Host {
    /// The length of disk to lend, of a host in order.
    pub fn disk_length(&self) -> u64 {
        self.disk_sectors * self.sector
    }

    /// The length of stage to lend, of a host in order.
    pub fn stage_length(&self) -> u64 {
        self.stage_sectors * self.sector
    }

    /// The place that holds the id.
    pub fn find(&self, id: &[u8; 32]) -> Option<usize> {
        (0..8).find(|&p| self.places[p].held && self.places[p].id == *id)
    }

    pub fn read_only_mode(&self) -> bool {
        self.program.head.contract == head::read_only_word()
    }

    /// The place of the open program's parent; none in read-only mode. Decision 15.
    pub fn parent(&self) -> Option<usize> {
        self.find(&self.program.head.contract)
    }

    /// The parent's committed size; 0 in read-only mode.
    pub fn starting_size(&self) -> u64 {
        self.parent().map_or(0, |p| self.places[p].size)
    }

    /// "all other contracts' sizes": all held contracts but the parent (decision 16).
    pub fn other_sizes(&self) -> u128 {
        let parent = self.parent();
        (0..8).filter(|&p| self.places[p].held && Some(p) != parent).map(|p| self.places[p].size as u128).sum()
    }

    /// "Host in order"
    pub fn in_order(&self) -> bool {
        self.disorder().is_none()
    }

    /// The first of document 01's conditions of order that fails, in its own words.
    pub fn disorder(&self) -> Option<&'static str> {
        let found = self.contracts_disorder();
        if found.is_some() || !self.program.open {
            return found;
        }
        self.program_disorder().or_else(|| self.stage_disorder())
    }

    /// M-103: "a host holding another is not in order". Then "lengths as above; ids differ, none the ReadOnly word; sizes whole
    /// sectors; each committed position has a disk slot of its own, within the disk."
    fn contracts_disorder(&self) -> Option<&'static str> {
        if !size_taken(self.sector) {
            return Some("sector size a power of two from 4,096 to 4,194,304");
        }
        if self.disk_sectors < 1 || self.disk_sectors > MOST_DISK {
            return Some("disk length as above");
        }
        if self.stage_sectors < 1 || self.stage_sectors > MOST_STAGE {
            return Some("stage length as above");
        }
        let mut ids = Vec::new();
        let mut slots = Vec::new();
        for place in self.places.iter().filter(|place| place.held) {
            if ids.contains(&place.id) {
                return Some("ids differ");
            }
            ids.push(place.id);
            if place.id == head::read_only_word() {
                return Some("none the ReadOnly word");
            }
            if place.size % self.sector != 0 {
                return Some("sizes whole sectors");
            }
            if place.size / self.sector > MOST_DISK {
                return Some("each committed position has a disk slot");
            }
            for slot in &place.slots[..(place.size / self.sector) as usize] {
                if slots.contains(slot) {
                    return Some("a disk slot of its own");
                }
                slots.push(*slot);
                if *slot as u64 >= self.disk_sectors {
                    return Some("within the disk");
                }
            }
        }
        None
    }

    /// "For an open program: ..."
    fn program_disorder(&self) -> Option<&'static str> {
        let program = &self.program;
        if self.parent().is_none() && !self.read_only_mode() {
            return Some("parent present");
        }
        if self.read_only_mode() && program.running != 0 {
            return Some("read-only mode with running size 0");
        }
        if !head::within_limits(&program.head) {
            return Some("head within limits");
        }
        if program.output_length < LEAST_OUTPUT || program.output_length > MOST_OUTPUT {
            return Some("output length within limits");
        }
        if program.came > program.head.declared {
            return Some("bytes come within the declared length");
        }
        if program.ran > program.head.count {
            return Some("instructions run within their count");
        }
        if program.tally > program.budget {
            return Some("tally within budget");
        }
        if program.written > program.output_length {
            return Some("written bytes within the output length");
        }
        if !program.failed && program.output_length - program.written < 72 {
            return Some("with 72 left unless it failed");
        }
        if program.running % self.sector != 0 {
            return Some("running size whole sectors");
        }
        if program.running as u128 + self.other_sizes() > self.disk_length() as u128 {
            return Some("with the other sizes, within the disk");
        }
        None
    }

    /// "each staged position below the running size, in a stage slot of its own; each position past the starting size staged"
    fn stage_disorder(&self) -> Option<&'static str> {
        let program = &self.program;
        let mut slots = Vec::new();
        for position in 0..64u64 {
            let slot = program.staged[position as usize];
            let at = position * self.sector;
            if slot == NONE {
                if at >= self.starting_size() && at < program.running {
                    return Some("each position past the starting size staged");
                }
                continue;
            }
            if at >= program.running {
                return Some("each staged position below the running size");
            }
            if slot as u64 >= self.stage_sectors {
                return Some("in a stage slot");
            }
            if slots.contains(&slot) {
                return Some("a stage slot of its own");
            }
            slots.push(slot);
        }
        None
    }

    /// "forming takes the lowest free place, with size 0". Checks 1, 3, 5, 6, 8 "in number order", 15 "right after 5" (M-106).
    pub fn form(&mut self, id: &[u8; 32]) -> u64 {
        if !self.in_order() {
            return 1;
        }
        if self.program.open {
            return 3;
        }
        if *id == head::read_only_word() {
            return 5;
        }
        if padded(id) {
            return 15;
        }
        if self.find(id).is_some() {
            return 6;
        }
        let Some(free) = (0..8).find(|&p| !self.places[p].held) else {
            return 8;
        };
        self.places[free] = Place { held: true, id: *id, ..EMPTY_PLACE };
        0
    }

    /// "dropping, at any size, frees place and slots". Checks 1, 3, 5, 7.
    pub fn drop(&mut self, id: &[u8; 32]) -> u64 {
        if !self.in_order() {
            return 1;
        }
        if self.program.open {
            return 3;
        }
        if *id == head::read_only_word() {
            return 5;
        }
        let Some(place) = self.find(id) else {
            return 7;
        };
        self.places[place] = EMPTY_PLACE;
        0
    }

    /// The bytes of the sector that a committed position holds.
    pub fn committed_sector<'a>(&self, disk: &'a [u8], place: usize, position: u64) -> &'a [u8] {
        sector(disk, self.sector, self.places[place].slots[position as usize])
    }

    /// The sectors of a contract as committed, by position.
    pub fn committed_sectors<'a>(&self, disk: &'a [u8], place: usize) -> Vec<&'a [u8]> {
        let positions = self.places[place].size / self.sector;
        (0..positions).map(|position| self.committed_sector(disk, place, position)).collect()
    }

    /// "The parent is read from the stage where it has a copy, else from the disk".
    pub fn running_sector<'a>(&self, disk: &'a [u8], stage: &'a [u8], position: u64) -> &'a [u8] {
        match self.program.staged[position as usize] {
            NONE => self.committed_sector(disk, self.parent().unwrap(), position),
            slot => sector(stage, self.sector, slot),
        }
    }

    /// The sectors of the parent as the program sees it, by position; none in read-only mode.
    pub fn running_sectors<'a>(&self, disk: &'a [u8], stage: &'a [u8]) -> Vec<&'a [u8]> {
        let positions = self.program.running / self.sector;
        (0..positions).map(|position| self.running_sector(disk, stage, position)).collect()
    }
}

/// M-106: "any id whose last 28 bytes are all zero, the zero id included".
pub fn padded(id: &[u8; 32]) -> bool {
    id[32 - 28..].iter().all(|&byte| byte == 0)
}

/// The sector in a slot of an area, of sectors of this size.
pub fn sector(area: &[u8], size: u64, slot: u8) -> &[u8] {
    let from = slot as usize * size as usize;
    &area[from..from + size as usize]
}

pub fn sector_mut(area: &mut [u8], size: u64, slot: u8) -> &mut [u8] {
    let from = slot as usize * size as usize;
    &mut area[from..from + size as usize]
}
