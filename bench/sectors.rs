//! One program on the proved machine, from a fresh host to its close: from standard input to standard output what the model's command `once` does
//! (model/README.md), through `candlebrood_run` of the proved library. Areas are lent here; all else is the library's.
use std::io::{Read, Write};

extern "C" {
    fn candlebrood_run(
        sector: u64,
        init: u16,
        memory: u16,
        readbase: u16,
        readlength: u16,
        writebase: u16,
        writelength: u16,
        truncatebase: u16,
        budget: u64,
        ids: *const u8,
        ids_length: usize,
        head: *const u8,
        head_length: usize,
        data: *const u8,
        data_length: usize,
        disk: *mut u8,
        disk_length: usize,
        stage: *mut u8,
        stage_length: usize,
        input: *mut u8,
        input_length: usize,
        output: *mut u8,
        output_length: usize,
        count: *mut u8,
        count_length: usize,
    ) -> u64;
}

/// The longest area that a host may have, 64 sectors of 4,194,304 bytes.
const MOST: u64 = 1 << 28;

/// What is left of the input; none where bytes are missing.
struct Rest<'a>(&'a [u8]);

impl<'a> Rest<'a> {
    fn bytes(&mut self, n: u64) -> Option<&'a [u8]> {
        let (taken, rest) = self.0.split_at_checked(usize::try_from(n).ok()?)?;
        self.0 = rest;
        Some(taken)
    }

    fn number(&mut self) -> Option<u64> {
        Some(number(self.bytes(8)?))
    }
}

fn number(bytes: &[u8]) -> u64 {
    u64::from_le_bytes(bytes[..8].try_into().unwrap())
}

/// An area of zeros of so many sectors. One that is longer than any host's is lent as one byte more than the longest, which is no whole number of
/// sectors of any size, so that the library refuses it all the same.
fn area(sectors: u64, sector: u64) -> Vec<u8> {
    let length = sectors.checked_mul(sector).unwrap_or(0);
    vec![0; length.min(MOST + 1) as usize]
}

/// The pair that was agreed to: the last record's size and root; of a program without records, a fresh contract's. None after a failure.
fn agreed(records: &[u8]) -> Option<Vec<u8>> {
    let (mut pair, mut rest) = (vec![0; 40], records);
    while !rest.is_empty() {
        if number(rest) != 0 {
            return None;
        }
        pair = rest[16..56].to_vec();
        rest = &rest[64 + 32 * number(&rest[56..]) as usize..];
        rest = &rest[8 + number(rest) as usize..];
    }
    Some(pair)
}

/// The records and the pair, or the number of a refusal; 9 if bytes are missing, there are not seven prices or one passes 65,535.
fn play(all: &[u8]) -> Result<Vec<u8>, u64> {
    let mut rest = Rest(all);
    let mut word = || rest.number().ok_or(9u64);
    let (sector, disk, stage) = (word()?, word()?, word()?);
    if word()? != 7 {
        return Err(9);
    }
    let mut prices = [0u16; 7];
    for price in &mut prices {
        *price = word()?.try_into().map_err(|_| 9u64)?;
    }
    let (budget, contracts) = (word()?, word()?);
    let ids = contracts.checked_mul(32).and_then(|n| rest.bytes(n)).ok_or(9u64)?;
    let head = rest.number().and_then(|n| rest.bytes(n)).ok_or(9u64)?;
    let data = rest.0;

    let (mut disk, mut stage) = (area(disk, sector), area(stage, sector));
    let (mut input, mut output, mut count) = (vec![0u8; 65_536], vec![0u8; 65_536], [0u8; 8]);
    let [init, memory, readbase, readlength, writebase, writelength, truncatebase] = prices;
    let answer = unsafe {
        candlebrood_run(
            sector,
            init,
            memory,
            readbase,
            readlength,
            writebase,
            writelength,
            truncatebase,
            budget,
            ids.as_ptr(),
            ids.len(),
            head.as_ptr(),
            head.len(),
            data.as_ptr(),
            data.len(),
            disk.as_mut_ptr(),
            disk.len(),
            stage.as_mut_ptr(),
            stage.len(),
            input.as_mut_ptr(),
            input.len(),
            output.as_mut_ptr(),
            output.len(),
            count.as_mut_ptr(),
            count.len(),
        )
    };
    if answer != 0 {
        return Err(answer);
    }
    let mut wrote = output[..number(&count) as usize].to_vec();
    if let Some(pair) = agreed(&wrote) {
        wrote.extend(pair);
    }
    Ok(wrote)
}

fn main() {
    let mut all = Vec::new();
    std::io::stdin().read_to_end(&mut all).unwrap();
    let wrote = play(&all).unwrap_or_else(|number| number.to_le_bytes().to_vec());
    std::io::stdout().write_all(&wrote).unwrap();
}
