//! Visits to one contract, each done as often as the input says: what bench/run measures beside the project's program of the same
//! name, from the same input and with the same line for an answer.

use crate::blake2b::hash32;
use crate::coverage;
use crate::depot::SECTOR;
use crate::head::Reader;
use crate::host::{self, Host};

/// "Disk area: 1 to 64 whole sectors. Stage area: 1 to 16." Both the largest, of sectors of 4,096 bytes.
const DISK: u64 = host::MOST_DISK * SECTOR;
const STAGE: u64 = host::MOST_STAGE * SECTOR;
/// The longest head and the longest data that a visit may have here; more ends the visits.
const MOST_HEAD: u64 = 4_096;
const MOST_DATA: u64 = 65_536;

struct Areas {
    disk: Vec<u8>,
    stage: Vec<u8>,
    input: Vec<u8>,
    output: Vec<u8>,
    /// The bytes of records that the last visit wrote.
    written: usize,
}

/// What every visit is opened with.
struct Offer {
    budget: u64,
    prices: [u16; 7],
}

struct Visit<'a> {
    times: u64,
    empty: u64,
    head: &'a [u8],
    data: &'a [u8],
}

/// An answer; other than 0 it is a refusal.
fn done(answer: u64) -> Result<(), u64> {
    if answer == 0 {
        Ok(())
    } else {
        Err(answer)
    }
}

/// Bytes after their length.
fn counted<'a>(reader: &mut Reader<'a>, most: u64) -> Option<&'a [u8]> {
    let length = reader.number().ok().filter(|length| *length <= most)?;
    reader.bytes(length).ok()
}

fn next<'a>(reader: &mut Reader<'a>) -> Option<Visit<'a>> {
    let times = reader.number().ok()?;
    let empty = reader.number().ok()?;
    let head = counted(reader, MOST_HEAD)?;
    let data = counted(reader, MOST_DATA)?;
    Some(Visit { times, empty, head, data })
}

/// Opens under the head, gives so many empty pieces as long as they are accepted, gives up. Where that is refused, the visit is too.
fn idle(host: &mut Host, areas: &mut Areas, offer: &Offer, visit: &Visit) {
    if visit.empty == 0 {
        return;
    }
    host.open(host::MOST_OUTPUT, offer.budget, offer.prices, visit.head);
    let input = &mut areas.input[..host.program.head.declared as usize];
    for _ in 0..visit.empty {
        if host.piece(&areas.disk, &mut areas.stage, input, &mut areas.output, &[]) != 0 {
            break;
        }
    }
    host.give_up(&areas.disk, &areas.stage);
}

/// Opens under the head, gives the data in one piece, agrees to the pair reached, or gives up after a failure. A refusal shows no records.
fn once(host: &mut Host, areas: &mut Areas, offer: &Offer, visit: &Visit) -> Result<(), u64> {
    areas.written = 0;
    done(host.open(host::MOST_OUTPUT, offer.budget, offer.prices, visit.head))?;
    let input = &mut areas.input[..host.program.head.declared as usize];
    done(host.piece(&areas.disk, &mut areas.stage, input, &mut areas.output, visit.data))?;
    let written = host.program.written as usize;
    if host.program.failed {
        done(host.give_up(&areas.disk, &areas.stage).answer)?;
    } else {
        let (answer, size, root) = host.reached(&areas.disk, &areas.stage);
        done(answer)?;
        done(host.agree(&mut areas.disk, &areas.stage, size, &root).answer)?;
    }
    areas.written = written;
    Ok(())
}

fn ahead(reader: &mut Reader) -> Result<([u8; 32], Offer), u64> {
    let id = reader.array()?;
    let budget = reader.number()?;
    let mut prices = [0u16; 7];
    for price in &mut prices {
        *price = reader.number()?.min(65_535) as u16;
    }
    Ok((id, Offer { budget, prices }))
}

/// All visits, until one is refused; `visits` counts those that were done.
fn all(reader: &mut Reader, areas: &mut Areas, id: &[u8; 32], offer: &Offer, visits: &mut u64) -> Result<(), u64> {
    let (_, mut host) = host::fresh(SECTOR, DISK, STAGE);
    done(host.form(id))?;
    while let Some(visit) = next(reader) {
        for _ in 0..visit.times {
            idle(&mut host, areas, offer, &visit);
            once(&mut host, areas, offer, &visit)?;
            *visits += 1;
        }
    }
    Ok(())
}

fn hex(bytes: &[u8]) -> String {
    bytes.iter().map(|byte| format!("{byte:02x}")).collect()
}

/// The line that is written.
pub fn play(bytes: &[u8]) -> String {
    let mut reader = Reader { rest: bytes };
    let Ok((id, offer)) = ahead(&mut reader) else {
        return "bytes missing ahead of the visits\n".to_string();
    };
    let zeros = |length: u64| vec![0u8; length as usize];
    let mut areas = Areas {
        disk: zeros(DISK),
        stage: zeros(STAGE),
        input: zeros(MOST_DATA),
        output: zeros(host::MOST_OUTPUT),
        written: 0,
    };
    let mut visits = 0;
    // counting would be measured too
    let refusal = match coverage::uncounted(|| all(&mut reader, &mut areas, &id, &offer, &mut visits)) {
        Ok(()) => String::new(),
        Err(number) => format!(" refused {number}"),
    };
    let disk = hex(&hash32(&areas.disk));
    let records = hex(&hash32(&areas.output[..areas.written]));
    format!("visits {visits}{refusal} disk {disk} records {records}\n")
}
