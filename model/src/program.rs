//! The calls on a program: open, piece, interrupt, reached, close.

use crate::head;
use crate::host::*;
use crate::instruction;
use crate::tree;

/// What a close answers: "Closing with 0 or 14 answers the tally and the growth, a signed count of bytes".
#[derive(Clone, Copy, PartialEq, Debug)]
pub struct Closed {
    pub answer: u64,
    pub tally: u64,
    pub growth: i64,
}

/// "any other number it answers is 0"
fn refused(answer: u64) -> Closed {
    Closed { answer, tally: 0, growth: 0 }
}

impl Host {
    /// "Opening takes a head, a budget (64-bit), seven prices (16-bit each) and an output length, 72 to 65,536." Checks 1, 2, 3,
    /// then 9 and 10 in reading order, 7, 11 (decision 9). "Opening runs nothing." "The seventh price, Init, is tallied at
    /// opening" (it comes first in the order of the bench).
    pub fn open(&mut self, output_length: u64, budget: u64, prices: [u16; 7], head_bytes: &[u8]) -> u64 {
        if !self.in_order() {
            return 1;
        }
        if output_length < LEAST_OUTPUT || output_length > MOST_OUTPUT {
            return 2;
        }
        if self.program.open {
            return 3;
        }
        let head = match head::read(head_bytes) {
            Ok(head) => head,
            Err(fault) => return fault,
        };
        let parent = self.find(&head.contract);
        if head.contract != head::read_only_word() && parent.is_none() {
            return 7;
        }
        let start_price = prices[0] as u64;
        if start_price > budget {
            return 11;
        }
        let running = parent.map_or(0, |p| self.places[p].size);
        self.program =
            Program { open: true, head, output_length, budget, prices, tally: start_price, running, ..closed_program() };
        self.program.staged = [NONE; 64];
        0
    }

    /// "A program of no instructions has ended at once."
    pub fn ended(&self) -> bool {
        self.program.ran == self.program.head.count
    }

    /// "a call that lends them must lend the same lengths"
    pub fn lent_as_made(&self, disk: &[u8], stage: &[u8]) -> bool {
        disk.len() as u64 == self.disk_length() && stage.len() as u64 == self.stage_length()
    }

    /// "A piece is copied into the input area after the bytes already come. Then instructions run in turn while their need has
    /// come." "After an end or a failure, pieces are still stored." Checks 1, 2, 4, 12; "2 tests input and output areas only if
    /// a program is open".
    pub fn piece(&mut self, disk: &[u8], stage: &mut [u8], input: &mut [u8], output: &mut [u8], piece: &[u8]) -> u64 {
        if !self.in_order() {
            return 1;
        }
        if !self.lent_as_made(disk, stage) {
            return 2;
        }
        if self.program.open
            && (input.len() as u64 != self.program.head.declared || output.len() as u64 != self.program.output_length)
        {
            return 2;
        }
        if !self.program.open {
            return 4;
        }
        let came = self.program.came + piece.len() as u64;
        if came > self.program.head.declared {
            return 12;
        }
        input[self.program.came as usize..came as usize].copy_from_slice(piece);
        self.program.came = came;
        while !self.program.failed && !self.ended() && instruction::need(self) <= self.program.came {
            instruction::take(self, disk, stage, input, output);
        }
        0
    }

    /// "An interrupt writes record 20 ... for the first instruction not run; if the program has ended or failed it answers 0 and
    /// changes nothing." Checks 1, 2, 4. It lends disk and output (decision 8).
    pub fn interrupt(&mut self, disk: &[u8], output: &mut [u8]) -> u64 {
        if !self.in_order() {
            return 1;
        }
        if disk.len() as u64 != self.disk_length() {
            return 2;
        }
        if self.program.open && output.len() as u64 != self.program.output_length {
            return 2;
        }
        if !self.program.open {
            return 4;
        }
        if !self.ended() && !self.program.failed {
            instruction::fail(self, disk, output, 20);
        }
        0
    }

    /// The starting pair: the parent's committed size and root. "Read-only mode shows size 0 and root zeros."
    pub fn starting_pair(&self, disk: &[u8]) -> (u64, tree::Hash) {
        match self.parent() {
            Some(place) => (self.places[place].size, self.committed_contract_root(disk, place)),
            None => (0, [0; 32]),
        }
    }

    /// The pair of the parent as the program sees it; (0, zeros) in read-only mode.
    pub fn running_pair(&self, disk: &[u8], stage: &[u8]) -> (u64, tree::Hash) {
        (self.program.running, self.running_contract_root(disk, stage))
    }

    /// Decision 14: size and root that a program has reached, the starting pair after a failure. Checks 1, 2, 4.
    pub fn reached(&self, disk: &[u8], stage: &[u8]) -> (u64, u64, tree::Hash) {
        if !self.in_order() {
            return (1, 0, [0; 32]);
        }
        if !self.lent_as_made(disk, stage) {
            return (2, 0, [0; 32]);
        }
        if !self.program.open {
            return (4, 0, [0; 32]);
        }
        let (size, root) = if self.program.failed { self.starting_pair(disk) } else { self.running_pair(disk, stage) };
        (0, size, root)
    }

    /// The checks that both closes make: 1, 2, 4.
    fn close_refusal(&self, disk: &[u8], stage: &[u8]) -> Option<u64> {
        if !self.in_order() {
            return Some(1);
        }
        if !self.lent_as_made(disk, stage) {
            return Some(2);
        }
        if !self.program.open {
            return Some(4);
        }
        None
    }

    /// "Giving up always closes and commits nothing."
    pub fn give_up(&mut self, disk: &[u8], stage: &[u8]) -> Closed {
        if let Some(answer) = self.close_refusal(disk, stage) {
            return refused(answer);
        }
        self.close_with(0, 0)
    }

    /// "Agreement names final size and root (0 and zeros in read-only mode)". 13, "agreement to a program not ended, or failed"; then
    /// M-104: "when final size and root equal the starting ones", 0 "whatever pair is given, and nothing is committed"; 14, "agreed size
    /// or root differs: changes dropped, program closed".
    pub fn agree(&mut self, disk: &mut [u8], stage: &[u8], size: u64, root: &tree::Hash) -> Closed {
        if let Some(answer) = self.close_refusal(disk, stage) {
            return refused(answer);
        }
        if !self.ended() || self.program.failed {
            return refused(13);
        }
        let reached = self.running_pair(disk, stage);
        if reached == self.starting_pair(disk) {
            return self.close_with(0, 0);
        }
        if (size, *root) != reached {
            return self.close_with(14, 0);
        }
        let growth = self.program.running as i64 - self.starting_size() as i64;
        if let Some(place) = self.parent() {
            self.commit(place, disk, stage);
        }
        self.close_with(0, growth)
    }

    /// "Every close frees all stage slots."
    fn close_with(&mut self, answer: u64, growth: i64) -> Closed {
        let tally = self.program.tally;
        self.program = closed_program();
        Closed { answer, tally, growth }
    }

    /// "Commit: positions past the final size free their slots; kept positions keep theirs; new ones, ascending, take the lowest
    /// free; staged sectors are copied there." M-105: "commit copies the stage slot's kept root to that of the disk slot which the staged
    /// sector is copied to (no hashing)".
    fn commit(&mut self, place: usize, disk: &mut [u8], stage: &[u8]) {
        let before = self.places[place].size / self.sector;
        let after = self.program.running / self.sector;
        self.places[place].size = before.min(after) * self.sector;
        for position in after..64 {
            self.places[place].slots[position as usize] = 0;
        }
        for position in before..after {
            let slot = self.lowest_free_disk_slot();
            self.places[place].slots[position as usize] = slot;
            self.places[place].size += self.sector;
        }
        for position in 0..after as usize {
            let staged = self.program.staged[position];
            if staged != NONE {
                let slot = self.places[place].slots[position];
                sector_mut(disk, self.sector, slot).copy_from_slice(sector(stage, self.sector, staged));
                self.disk_roots[slot as usize] = self.stage_roots[staged as usize];
            }
        }
    }

    /// "Every choice of slot, disk or stage, is the lowest free one."
    fn lowest_free_disk_slot(&self) -> u8 {
        let used = |slot: &u8| {
            self.places.iter().any(|place| place.held && place.slots[..(place.size / self.sector) as usize].contains(slot))
        };
        (0..self.disk_sectors as u8).find(|slot| !used(slot)).unwrap()
    }
}
