//! "A program with these areas reads standard input: the price count 7, prices in the order above, budget, contract count (8-byte
//! numbers) and ids, head length, head, data to the end; it forms, opens, gives the data as one piece, agrees to the pair reached
//! (gives up after a failure) and writes the records, or on a refusal its number in 8 bytes and nothing more."

use crate::coverage;
use crate::head::Reader;
use crate::host;
use crate::tree;

/// M-103: "Our test program keeps to 4,096."
pub const SECTOR: u64 = 4_096;
/// "disk 8 sectors, stage 4, output 16,384"
pub const DISK: u64 = 8 * SECTOR;
pub const STAGE: u64 = 4 * SECTOR;
pub const OUTPUT: u64 = 16_384;

/// The lengths that a program is played with.
#[derive(Clone, Copy)]
pub struct Room {
    pub sector: u64,
    pub disk: u64,
    pub stage: u64,
    pub output: u64,
}

const BENCH: Room = Room { sector: SECTOR, disk: DISK, stage: STAGE, output: OUTPUT };
/// Two sectors of disk and two of stage, of 1,048,576 bytes each.
const LARGE: Room = Room { sector: 1_048_576, disk: 2_097_152, stage: 2_097_152, output: host::MOST_OUTPUT };

pub struct Ahead<'a> {
    pub prices: [u16; 7],
    pub budget: u64,
    pub ids: Vec<[u8; 32]>,
    pub head: &'a [u8],
    pub data: &'a [u8],
}

/// "9, before all others, if bytes ahead of the data are missing, the price count differs or a price passes 65,535"
pub fn ahead(bytes: &[u8]) -> Result<Ahead<'_>, u64> {
    let mut reader = Reader { rest: bytes };
    if reader.number()? != 7 {
        return Err(9);
    }
    let mut prices = [0u16; 7];
    for price in &mut prices {
        *price = u16::try_from(reader.number()?).map_err(|_| 9u64)?;
    }
    let budget = reader.number()?;
    let count = reader.number()?;
    let id_bytes = reader.bytes(count.checked_mul(32).ok_or(9u64)?)?;
    let ids = id_bytes.chunks(32).map(|id| id.try_into().unwrap()).collect();
    let head_length = reader.number()?;
    let head = reader.bytes(head_length)?;
    Ok(Ahead { prices, budget, ids, head, data: reader.rest })
}

fn done(answer: u64) -> Result<(), u64> {
    if answer == 0 {
        Ok(())
    } else {
        Err(answer)
    }
}

/// The records with the pair that was agreed to (none after a failure), or the first refusal (decisions 1 to 7).
fn records(room: Room, bytes: &[u8]) -> Result<(Vec<u8>, Option<(u64, tree::Hash)>), u64> {
    let ahead = ahead(bytes)?;
    let (answer, mut host) = host::fresh(room.sector, room.disk, room.stage);
    done(answer)?;
    let mut disk = vec![0u8; room.disk as usize];
    let mut stage = vec![0u8; room.stage as usize];
    let mut output = vec![0u8; room.output as usize];
    for id in &ahead.ids {
        done(host.form(id))?;
    }
    done(host.open(room.output, ahead.budget, ahead.prices, ahead.head))?;
    let mut input = vec![0u8; host.program.head.declared as usize];
    done(host.piece(&disk, &mut stage, &mut input, &mut output, ahead.data))?;
    let written = host.program.written as usize;
    let mut agreed = None;
    if host.program.failed {
        done(host.give_up(&disk, &stage).answer)?;
    } else {
        let (answer, size, root) = host.reached(&disk, &stage);
        done(answer)?;
        done(host.agree(&mut disk, &stage, size, &root).answer)?;
        agreed = Some((size, root));
    }
    Ok((output[..written].to_vec(), agreed))
}

/// What the program of the bench writes.
pub fn play(bytes: &[u8]) -> Vec<u8> {
    let result = records(BENCH, bytes);
    coverage::answer("depot", result.as_ref().err().copied().unwrap_or(0));
    written(result.map(|(records, _)| records))
}

/// The same with sectors of 1,048,576 bytes, two of disk and two of stage, and 65,536 bytes of output.
pub fn play_large(bytes: &[u8]) -> Vec<u8> {
    written(records(LARGE, bytes).map(|(records, _)| records))
}

/// The same with a sector size and counts of disk and stage sectors that stand ahead of the rest, and 65,536 bytes of output. Behind
/// the records stands the pair that was agreed to: its size and its root. 9 comes first, then 2.
pub fn play_once(bytes: &[u8]) -> Vec<u8> {
    let mut reader = Reader { rest: bytes };
    let mut sizes = || Ok::<_, u64>((reader.number()?, reader.number()?, reader.number()?));
    let result = sizes().and_then(|(sector, disk, stage)| {
        // a length that no number of 64 bits holds is no length of a host
        let length = |sectors: u64| sectors.checked_mul(sector).unwrap_or(0);
        let room = Room { sector, disk: length(disk), stage: length(stage), output: host::MOST_OUTPUT };
        records(room, reader.rest)
    });
    written(result.map(|(mut records, agreed)| {
        if let Some((size, root)) = agreed {
            records.extend(size.to_le_bytes());
            records.extend(root);
        }
        records
    }))
}

/// "writes the records, or on a refusal its number in 8 bytes and nothing more"
fn written(result: Result<Vec<u8>, u64>) -> Vec<u8> {
    result.unwrap_or_else(|number| number.to_le_bytes().to_vec())
}
