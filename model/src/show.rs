//! Inputs and outputs as text, for looking at a difference.

use crate::calls::{self, Item};
use crate::depot;
use crate::head::{self, Head, Reader};

pub fn hex(bytes: &[u8]) -> String {
    bytes.iter().map(|byte| format!("{byte:02x}")).collect()
}

/// The start and the end of long bytes.
pub fn short(bytes: &[u8]) -> String {
    if bytes.len() <= 48 {
        return hex(bytes);
    }
    format!("{}..{} ({} bytes)", hex(&bytes[..16]), hex(&bytes[bytes.len() - 16..]), bytes.len())
}

/// An id by its first and last two bytes; the ReadOnly word by name.
pub fn id(bytes: &[u8]) -> String {
    if bytes == head::read_only_word() {
        return "ReadOnly".to_string();
    }
    format!("{}..{}", hex(&bytes[..2]), hex(&bytes[30..]))
}

pub fn head_text(bytes: &[u8]) -> String {
    match head::read(bytes) {
        Ok(head) => good_head_text(&head),
        Err(fault) => format!("head of {} bytes with fault {fault}: {}", bytes.len(), short(bytes)),
    }
}

fn good_head_text(head: &Head) -> String {
    let mut text = format!("contract {}, declared {}", id(&head.contract), head.declared);
    for instruction in &head.instructions[..head.count as usize] {
        let name = String::from_utf8_lossy(&instruction.name).trim_end_matches('\0').escape_debug().to_string();
        let operands: Vec<String> = instruction.operands[..instruction.operand_count as usize]
            .iter()
            .map(|o| format!("{}+{}", o.offset, o.length))
            .collect();
        text += &format!("\n        {name}({}){}", operands.join(", "), if instruction.proof { " with proof" } else { "" });
    }
    text
}

pub fn item_text(item: &Item) -> String {
    match item {
        Item::Fresh { disk, stage, fill } => format!("fresh disk {disk}, stage {stage}, fill {fill}"),
        Item::FreshOfSize { sector, disk, stage, fill } => {
            format!("fresh of sector size {sector}: disk {disk}, stage {stage}, fill {fill}")
        }
        Item::Form { id: contract } => format!("form {}", id(contract)),
        Item::Drop { id: contract } => format!("drop {}", id(contract)),
        Item::Open { output_length, budget, prices, head } => {
            format!("open output {output_length}, budget {budget}, prices {prices:?}, {}", head_text(head))
        }
        Item::Piece { disk, stage, input, output, piece } => {
            format!("piece lent {disk}, {stage}, {input}, {output}; {} bytes: {}", piece.len(), short(piece))
        }
        Item::Interrupt { disk, output } => format!("interrupt lent {disk}, {output}"),
        Item::GiveUp { disk, stage } => format!("give up lent {disk}, {stage}"),
        Item::Agree { disk, stage, size, root } => format!("agree lent {disk}, {stage}; size {size}, root {}", hex(root)),
        Item::Reached { disk, stage } => format!("reached lent {disk}, {stage}"),
        Item::Sound { disk, stage } => format!("sound lent {disk}, {stage}"),
        Item::Locate { root } => format!("locate root {}", hex(root)),
        Item::Poke { field, i, j, value } => format!("poke field {field}, i {i}, j {j}, value {value}"),
        Item::Check { root, count, first, end, data, tail } => {
            let (bytes, hashes) = tail.split_at(*data as usize);
            let (bytes, hashes) = (short(bytes), short(hashes));
            let root = hex(root);
            format!("check root {root}, count {count}, range {first}..{end}, tail of {} bytes: {bytes} with {hashes}", tail.len())
        }
    }
}

/// A script's items with what the model answers.
pub fn script_text(bytes: &[u8]) -> Vec<String> {
    let mut player = calls::new_player();
    let mut reader = Reader { rest: bytes };
    let mut lines = Vec::new();
    while let Some(item) = calls::read_item(&mut reader) {
        let answered = player.make(&item);
        let (tally, growth) = (answered.tally, answered.growth);
        let (sector, disk, stage) = (player.host.sector, player.host.disk_sectors, player.host.stage_sectors);
        let held = |staged: bool| if staged { "in the stage" } else { "on the disk" };
        let spot = match (answered.spot, tally) {
            (Some(spot), 1) => format!("; found {}: place {}, position {}", held(spot.staged), spot.place, spot.position),
            (Some(_), _) => "; not found".to_string(),
            (None, _) => String::new(),
        };
        let answers = format!(
            "answers {}, {tally}, {growth}{spot}; sector size {sector}, {disk} of disk, {stage} of stage",
            answered.answer
        );
        lines.push(format!("item {}: {}\n      {answers}", lines.len(), item_text(&item)));
    }
    lines
}

pub fn depot_text(bytes: &[u8]) -> Vec<String> {
    let mut lines = match depot::ahead(bytes) {
        Err(_) => vec![format!("bytes ahead of the data are missing or wrong: {}", short(bytes))],
        Ok(ahead) => {
            let ids: Vec<String> = ahead.ids.iter().map(|contract| id(contract)).collect();
            vec![
                format!("prices {:?}, budget {}, contracts {}", ahead.prices, ahead.budget, ids.join(" ")),
                head_text(ahead.head),
                format!("{} bytes of data: {}", ahead.data.len(), short(ahead.data)),
            ]
        }
    };
    lines.extend(record_lines(&depot::play(bytes)));
    lines
}

/// A report's numbers and hashes by name, for the item that it is of.
pub fn report_lines(bytes: &[u8], item: &Item) -> Vec<String> {
    let mut lines = Vec::new();
    let _ = fill_report_lines(&mut Reader { rest: bytes }, item, &mut lines);
    lines
}

fn fill_report_lines(reader: &mut Reader, item: &Item, lines: &mut Vec<String>) -> Result<(), u64> {
    let second = match item {
        Item::Reached { .. } => "size",
        Item::Sound { .. } => "sound",
        Item::Locate { .. } => "found",
        _ => "tally",
    };
    for name in ["answer", second, "growth"] {
        lines.push(format!("{name} {}", reader.number()? as i64));
    }
    if let Item::Reached { .. } = item {
        lines.push(format!("root {}", hex(reader.bytes(32)?)));
    }
    if let Item::Locate { .. } = item {
        for name in ["found at place", "found at position", "found in the stage"] {
            lines.push(format!("{name} {}", reader.number()?));
        }
    }
    let sector = reader.number()?;
    lines.push(format!("sector size {sector}"));
    lines.push(format!("disk sectors {}, stage sectors {}", reader.number()?, reader.number()?));
    for place in 0..8 {
        if reader.number()? == 0 {
            lines.push(format!("place {place} not held"));
            continue;
        }
        let contract = hex(reader.bytes(32)?);
        let size = reader.number()?;
        let slots = numbers(reader, size.checked_div(sector).unwrap_or(0).min(64))?;
        lines.push(format!("place {place}: {contract}, size {size}, slots {slots:?}"));
    }
    if reader.number()? == 0 {
        lines.push("no program open".to_string());
    } else {
        for name in ["came", "ran", "tally", "written", "failed", "running"] {
            lines.push(format!("{name} {}", reader.number()?));
        }
        lines.push(format!("staged {:?}", numbers(reader, 64)?));
    }
    for name in ["disk", "stage", "input", "output"] {
        lines.push(format!("{name} area {}", hex(reader.bytes(32)?)));
    }
    for name in ["disk", "stage"] {
        lines.push(format!("kept roots of {name} slots {}", hex(reader.bytes(32)?)));
    }
    Ok(())
}

fn numbers(reader: &mut Reader, count: u64) -> Result<Vec<u64>, u64> {
    (0..count).map(|_| reader.number()).collect()
}

/// Records, or a refusal.
pub fn record_lines(bytes: &[u8]) -> Vec<String> {
    if bytes.len() == 8 {
        return vec![format!("refusal {}", u64::from_le_bytes(bytes.try_into().unwrap()))];
    }
    let mut lines = Vec::new();
    let mut reader = Reader { rest: bytes };
    while !reader.rest.is_empty() {
        let Ok(line) = record_line(&mut reader) else {
            lines.push("a record cut short".to_string());
            break;
        };
        lines.push(line);
    }
    lines
}

fn record_line(reader: &mut Reader) -> Result<String, u64> {
    let (number, cost, size) = (reader.number()?, reader.number()?, reader.number()?);
    let root = hex(reader.bytes(32)?);
    let hashes = reader.number()?;
    let proof = short(reader.bytes(hashes.saturating_mul(32))?);
    let length = reader.number()?;
    let output = short(reader.bytes(length)?);
    Ok(format!("record {number}, cost {cost}, size {size}, root {root}, {hashes} hashes {proof}, {length} bytes {output}"))
}
