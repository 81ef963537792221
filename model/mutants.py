#!/usr/bin/env python3
"""Puts mistakes into a copy of the model, one at a time, and looks whether random inputs, or those of a file, notice them.

use: model/mutants.py [SEED [N]]
     model/mutants.py FILE            (a file as `model gen` makes it, such as crates/cases/stdin)

All mistakes go into one copy, each behind a switch, so that the copy is built once. A mistake that no input notices shows a gap in
the generator, or is none that a caller can see.
"""
import os, pathlib, re, subprocess, sys

# Other look-ups by root (M-110), which go ahead of the right one: what they find is answered.
COMMITTED = "for position in 0..self.places[place].size / self.sector { let spot = Spot { place, position, staged: false }; if root_of(spot) == *root { return Some(spot); } }"
OTHERS_FIRST = "{ for place in (0..8).filter(|&p| self.places[p].held && Some(p) != self.searched_first()) { %s } self.searched_first() }" % COMMITTED
LAST_PLACE = "{ if self.searched_first().is_none() { for place in (0..8).rev().filter(|&p| self.places[p].held) { %s } } self.searched_first() }" % COMMITTED
BY_POSITION = "{ if self.searched_first().is_none() { for position in 0..64 { for place in (0..8).filter(|&p| self.places[p].held && position < self.places[p].size / self.sector) { let spot = Spot { place, position, staged: false }; if root_of(spot) == *root { return Some(spot); } } } } self.searched_first() }"
LAST_OF_PARENT = "{ if let Some(place) = self.searched_first() { for position in (0..self.program.running / self.sector).rev() { let spot = Spot { place, position, staged: self.program.staged[position as usize] != NONE }; if root_of(spot) == *root { return Some(spot); } } } self.searched_first() }"
STAGE_BEFORE_DISK = "{ if let Some(place) = self.searched_first() { for position in (0..self.program.running / self.sector).filter(|&p| self.program.staged[p as usize] != NONE) { let spot = Spot { place, position, staged: true }; if root_of(spot) == *root { return Some(spot); } } } self.searched_first() }"
COMMITTED_TOO = "{ if let Some(place) = self.searched_first() { if (0..self.program.running / self.sector).all(|position| root_of(Spot { place, position, staged: self.program.staged[position as usize] != NONE }) != *root) { %s } } self.searched_first() }" % COMMITTED

# (file, what stands there, the mistake): both are expressions, and the first place where it stands is meant.
MISTAKES = [
    ("instruction", "o.offset as u128 + o.length as u128 > declared as u128", "o.offset.wrapping_add(o.length) > declared"),
    ("instruction", "o.offset as u128 + o.length as u128 > declared as u128", "o.length != 0 && o.offset as u128 + o.length as u128 > declared as u128"),
    ("instruction", "operands != instruction.operand_count", "operands > instruction.operand_count"),
    ("instruction", "o.length != 0", "true"),
    ("instruction", "number_21(&instruction) || number_22(&instruction, host.program.head.declared)", "number_22(&instruction, host.program.head.declared)"),
    ("instruction", "number(count)? != rest.len() as u64", "number(count)? > rest.len() as u64"),
    ("instruction", "part.len() < 8", "part.len() < 9"),
    ("instruction", "host.read_only_mode() && name != Name::Read && name != Name::ReadSector", "host.read_only_mode() && name != Name::Read && name != Name::ReadSector && name != Name::Copy"),
    ("instruction", "host.parent() == Some(place)", "false"),
    ("instruction", "length == 0 || offset as u128 + length as u128 > end as u128", "length == 0 || offset.wrapping_add(length) > end"),
    ("instruction", "length == 0 || offset as u128 + length as u128 > end as u128", "length == 0 || offset as u128 + length as u128 >= end as u128"),
    ("instruction", "offset / sector != (offset + length - 1) / sector", "offset / sector != (offset + length) / sector"),
    ("instruction", "size % z != 0 || size.abs_diff(running) > z", "size % z != 0 || *size > running + z"),
    ("instruction", "size % z != 0 || size.abs_diff(running) > z", "size.abs_diff(running) > z"),
    ("instruction", "size % z != 0 || size.abs_diff(running) > z", "size % z != 0 || size.abs_diff(running) > z || *size == running"),
    ("instruction", "bad_span(z, *destination, *size, running) || bad_span(z, *source, *size, running)", "bad_span(z, *destination, *size, running)"),
    ("instruction", "bad_span(z, *first, *size, running) || bad_span(z, *second, *size, running)", "bad_span(z, *second, *size, running)"),
    ("instruction", "offset % 64 != 0 || length % 64 != 0", "offset % 64 != 0"),
    ("instruction", "offset % 64 != 0 || length % 64 != 0", "length % 64 != 0"),
    ("instruction", "instruction.proof && number_27(&inputs)", "number_27(&inputs) && instruction.proof && name != Name::Truncate"),
    ("instruction", "memory(10) + read(*length)", "memory(10) + price(2)"),
    ("instruction", "memory(20) + write(data.len() as u64)", "memory(20) + write(data.len() as u64 + 8)"),
    ("instruction", "memory(20) + read(*size) + write(*size)", "memory(20) + write(*size)"),
    ("instruction", "memory(30) + 2 * (read(*size) + write(*size))", "memory(30) + read(*size) + write(*size)"),
    ("instruction", "memory(30) + 2 * (read(*size) + write(*size))", "memory(20) + 2 * (read(*size) + write(*size))"),
    ("instruction", "memory(5) + price(6)", "memory(5)"),
    ("instruction", "(1_048_576 + program.head.declared) * time * price(1)", "(1_048_576 + program.came) * time * price(1)"),
    ("instruction", "(used + wanted) as u64 > host.stage_sectors", "(used + wanted) as u64 >= host.stage_sectors"),
    ("instruction", "(used + wanted) as u64 > host.stage_sectors", "(used + written.len()) as u64 > host.stage_sectors"),
    ("instruction", "(used + wanted) as u64 > host.stage_sectors", "used as u64 == host.stage_sectors && !matches!(inputs, Inputs::Read { .. } | Inputs::ReadSector { .. })"),
    ("instruction", "*size as u128 + host.other_sizes() > host.disk_length() as u128", "*size as u128 + host.other_sizes() >= host.disk_length() as u128"),
    ("instruction", "number_40(host, &inputs)", "number_40(host, &inputs) && !number_41(host, &inputs)"),
    ("instruction", "program.tally as u128 + cost as u128 > program.budget as u128", "program.tally as u128 + cost as u128 >= program.budget as u128"),
    ("instruction", "program.written + record_length(&shown) + 72 > program.output_length", "program.written + record_length(&shown) + 72 >= program.output_length"),
    ("instruction", "program.written + record_length(&shown) + 72 > program.output_length", "program.written + record_length(&shown) + 71 > program.output_length"),
    ("instruction", "read_span(host, disk, stage, *first, *size)", "{ give_copy(host, disk, stage, *first / host.sector); read_span(host, disk, stage, *first, *size) }"),
    ("instruction", "write_span(host, disk, stage, *first, &second_bytes)", "{ write_span(host, disk, stage, *first, &second_bytes); write_span(host, disk, stage, *second, &first_bytes) }"),
    ("instruction", "write_span(host, disk, stage, *destination, &bytes)", "for (i, _) in bytes.iter().enumerate() { let byte = read_span(host, disk, stage, *source + i as u64, 1); write_span(host, disk, stage, *destination + i as u64, &byte) }"),
    ("instruction", "sector_mut(stage, host.sector, slot).fill(0)", "()"),
    ("instruction", "(0..host.stage_sectors as u8).find(|slot| !host.program.staged.contains(slot)).unwrap()", "(0..host.stage_sectors as u8).rfind(|slot| !host.program.staged.contains(slot)).unwrap()"),
    ("instruction", "host.starting_pair(disk)", "(host.program.running, host.starting_pair(disk).1)"),
    ("instruction", "number_26(host, &inputs, &source)", "number_26(host, &inputs, &source) && !(instruction.proof && number_27(&inputs))"),
    ("instruction", "instruction.proof && number_27(&inputs)", "instruction.proof && number_27(&inputs) && program.tally as u128 + cost(program, &inputs) as u128 <= program.budget as u128"),
    ("instruction", "program.tally as u128 + cost as u128 > program.budget as u128", "program.tally as u128 + cost as u128 > program.budget as u128 && !number_40(host, &inputs)"),
    ("instruction", "number_40(host, &inputs)", "number_40(host, &inputs) && program.written + 144 <= program.output_length"),
    ("instruction", "number_41(host, &inputs)", "number_41(host, &inputs) && program.written + 144 <= program.output_length"),
    ("instruction", "inputs(name, &instruction, input)?", "{ if host.read_only_mode() && name != Name::Read && name != Name::ReadSector { return Err(24); } inputs(name, &instruction, input)? }"),
    ("instruction", "host.program.failed = true", "{ host.program.failed = true; host.program.staged = [NONE; 64] }"),
    ("program", "output_length < LEAST_OUTPUT || output_length > MOST_OUTPUT", "output_length < LEAST_OUTPUT"),
    ("program", "output_length < LEAST_OUTPUT || output_length > MOST_OUTPUT", "!self.program.open && (output_length < LEAST_OUTPUT || output_length > MOST_OUTPUT)"),
    ("program", "head.contract != head::read_only_word() && parent.is_none()", "head.contract != head::read_only_word() && parent.is_none() && prices[0] as u64 <= budget"),
    ("program", "return fault", "{ if head_bytes.len() >= 32 && head_bytes[..32] != head::read_only_word() && self.find(head_bytes[..32].try_into().unwrap()).is_none() { return 7; } return fault }"),
    ("program", "disk.len() as u64 != self.disk_length()", "self.program.open && disk.len() as u64 != self.disk_length()"),
    ("program", "staged != NONE", "staged != NONE && (position as u64) < before.max(1)"),
    ("program", "self.close_with(0, 0)", "{ self.program.tally = 0; self.close_with(0, 0) }"),
    ("program", "start_price > budget", "start_price >= budget"),
    ("program", "self.program.ran == self.program.head.count", "self.program.head.count > 0 && self.program.ran == self.program.head.count"),
    ("program", "disk.len() as u64 == self.disk_length() && stage.len() as u64 == self.stage_length()", "disk.len() as u64 == self.disk_length()"),
    ("program", "input.len() as u64 != self.program.head.declared || output.len() as u64 != self.program.output_length", "input.len() as u64 != self.program.head.declared || (output.len() as u64) < self.program.output_length"),
    ("program", "came > self.program.head.declared", "came > self.program.head.declared || self.program.failed"),
    ("program", "came > self.program.head.declared", "came > self.program.head.declared || self.ended()"),
    ("program", "!self.ended() && !self.program.failed", "!self.program.failed && self.program.ran < self.program.head.count.max(1)"),
    ("program", "!self.ended() && !self.program.failed", "!self.ended()"),
    ("program", "self.program.failed { self.starting_pair(disk) }", None),
    ("program", "!self.ended() || self.program.failed", "!self.ended()"),
    ("program", "!self.ended() || self.program.failed", "self.program.failed"),
    ("program", "(size, *root) != reached", "*root != reached.1"),
    ("program", "(size, *root) != reached", "size != reached.0"),
    ("program", "(size, *root) != reached", "(size, &root[..31]) != (reached.0, &reached.1[..31])"),
    ("program", "self.program.running as i64 - self.starting_size() as i64", "(self.program.running as i64 - self.starting_size() as i64).max(0)"),
    ("program", "self.close_with(14, 0)", "{ let size = self.program.running as i64; self.close_with(14, size) }"),
    ("program", "(0..self.disk_sectors as u8).find(|slot| !used(slot)).unwrap()", "(0..self.disk_sectors as u8).rfind(|slot| !used(slot)).unwrap()"),
    ("program", "self.places[place].slots[position as usize] = 0", "()"),
    ("host", "(0..8).find(|&p| self.places[p].held && self.places[p].id == *id)", "(0..8).find(|&p| self.places[p].held && self.places[p].id[..31] == id[..31])"),
    ("host", "(0..8).find(|&p| !self.places[p].held)", "(0..8).rfind(|&p| !self.places[p].held)"),
    ("host", "Place { held: true, id: *id, ..EMPTY_PLACE }", "Place { held: true, id: *id, ..self.places[free] }"),
    ("host", "self.places[place] = EMPTY_PLACE", "self.places[place].held = false"),
    ("host", "padded(id)", "padded(id) && self.find(id).is_none()"),
    ("host", "padded(id)", "padded(id) && self.places.iter().any(|place| !place.held)"),
    ("host", "padded(id)", "padded(id) && *id != [0; 32]"),
    ("host", "id[32 - 28..].iter().all(|&byte| byte == 0)", "id[5..].iter().all(|&byte| byte == 0)"),
    ("host", "id[32 - 28..].iter().all(|&byte| byte == 0)", "id[4..31].iter().all(|&byte| byte == 0)"),
    ("host", "id[32 - 28..].iter().all(|&byte| byte == 0)", "id[3..].iter().all(|&byte| byte == 0)"),
    ("host", "id[32 - 28..].iter().all(|&byte| byte == 0)", "id.iter().all(|&byte| byte == 0)"),
    ("host", "id[32 - 28..].iter().all(|&byte| byte == 0)", "id[4] == 0 && id[31] == 0"),
    ("host", "return 15", "return 5"),
    ("host", "return 1", "{ if padded(id) { return 15; } return 1 }"),
    ("host", "return 3", "{ if padded(id) { return 15; } return 3 }"),
    ("host", "self.places[place] = EMPTY_PLACE", "{ if padded(id) { return 15; } self.places[place] = EMPTY_PLACE }"),
    ("host", "return 7", "{ if padded(id) { return 15; } return 7 }"),
    ("host", "place.id == head::read_only_word()", "place.id == head::read_only_word() || padded(&place.id)"),
    ("program", "head.contract != head::read_only_word() && parent.is_none()", "head.contract != head::read_only_word() && (parent.is_none() || padded(&head.contract))"),
    ("program", "return 7", "{ if padded(&head.contract) { return 15; } return 7 }"),
    ("program", "reached == self.starting_pair(disk)", "false"),
    ("program", "reached == self.starting_pair(disk)", "reached.0 == self.starting_pair(disk).0"),
    ("program", "reached == self.starting_pair(disk)", "reached == self.starting_pair(disk) && !self.read_only_mode()"),
    ("program", "reached == self.starting_pair(disk)", "reached == self.starting_pair(disk) && self.program.staged.iter().all(|&slot| slot == NONE)"),
    ("program", "reached == self.starting_pair(disk)", "(size, *root) == self.starting_pair(disk)"),
    ("program", "reached == self.starting_pair(disk)", "{ if let (true, Some(place)) = (reached == self.starting_pair(disk), self.parent()) { self.commit(place, disk, stage); } reached == self.starting_pair(disk) }"),
    ("program", "return self.close_with(0, 0)", "return { self.program.tally = 0; self.close_with(0, 0) }"),
    ("program", "return self.close_with(0, 0)", "return refused(0)"),
    ("program", "!self.ended() || self.program.failed", "(!self.ended() || self.program.failed) && self.running_pair(disk, stage) != self.starting_pair(disk)"),
    ("program", "!self.ended() || self.program.failed", "!self.ended() && self.running_pair(disk, stage) != self.starting_pair(disk) || self.program.failed"),
    ("instruction", "host.find(contract).ok_or(25u64)?", "host.find(contract).filter(|_| !padded(contract)).ok_or(25u64)?"),
    ("head", "number > most", "number >= most"),
    ("head", "flag > 1", "flag > 2"),
    ("head", "!reader.rest.is_empty()", "false"),
    ("depot", "reader.number()? != 7", "reader.number()? > 7"),
    ("depot", "count.checked_mul(32).ok_or(9u64)?", "count.wrapping_mul(32)"),
    # M-103
    ("host", "sector.is_power_of_two() && sector >= LEAST_SECTOR && sector <= MOST_SECTOR", "sector.is_power_of_two() && sector >= 2_048 && sector <= MOST_SECTOR"),
    ("host", "sector.is_power_of_two() && sector >= LEAST_SECTOR && sector <= MOST_SECTOR", "sector % LEAST_SECTOR == 0 && sector >= LEAST_SECTOR && sector <= MOST_SECTOR"),
    ("host", "sector.is_power_of_two() && sector >= LEAST_SECTOR && sector <= MOST_SECTOR", "sector >= LEAST_SECTOR && sector <= MOST_SECTOR"),
    ("host", "sector.is_power_of_two() && sector >= LEAST_SECTOR && sector <= MOST_SECTOR", "sector.is_power_of_two() && sector >= LEAST_SECTOR && sector <= 2 * MOST_SECTOR"),
    ("host", "sector.is_power_of_two() && sector >= LEAST_SECTOR && sector <= MOST_SECTOR", "sector.is_power_of_two() && sector >= LEAST_SECTOR"),
    ("host", "sector.is_power_of_two() && sector >= LEAST_SECTOR && sector <= MOST_SECTOR", "sector.is_power_of_two() && sector >= LEAST_SECTOR && sector < MOST_SECTOR"),
    ("host", "sector.is_power_of_two() && sector >= LEAST_SECTOR && sector <= MOST_SECTOR", "sector.is_power_of_two() && sector > LEAST_SECTOR && sector <= MOST_SECTOR"),
    ("host", "sector.is_power_of_two() && sector >= LEAST_SECTOR && sector <= MOST_SECTOR", "sector == LEAST_SECTOR || sector == MOST_SECTOR"),
    ("host", "size_taken(sector)", "(sector != 0)"),
    ("host", "size_taken(sector)", "(size_taken(sector) || sector == 2_048)"),
    ("host", "whole_sectors(sector, disk_length, MOST_DISK)", "whole_sectors(LEAST_SECTOR, disk_length, MOST_DISK * sector / LEAST_SECTOR)"),
    ("host", "whole_sectors(sector, stage_length, MOST_STAGE)", "whole_sectors(LEAST_SECTOR, stage_length, MOST_STAGE * sector / LEAST_SECTOR)"),
    ("host", "whole_sectors(sector, disk_length, MOST_DISK)", "whole_sectors(sector, disk_length, MOST_DISK * LEAST_SECTOR / sector)"),
    ("host", "if good { (sector, disk_length / sector, stage_length / sector) } else { (0, 0, 0) }", "if good { (sector, disk_length / sector, stage_length / sector) } else { (sector, 0, 0) }"),
    ("host", "if good { (sector, disk_length / sector, stage_length / sector) } else { (0, 0, 0) }", "if good { (sector, disk_length / LEAST_SECTOR, stage_length / LEAST_SECTOR) } else { (0, 0, 0) }"),
    ("host", "self.disk_sectors * self.sector", "self.disk_sectors * LEAST_SECTOR"),
    ("host", "self.stage_sectors * self.sector", "self.stage_sectors * LEAST_SECTOR"),
    ("host", "place.size % self.sector != 0", "place.size % LEAST_SECTOR != 0"),
    ("host", "place.size / self.sector > MOST_DISK", "place.size / LEAST_SECTOR > MOST_DISK"),
    ("host", "program.running % self.sector != 0", "program.running % LEAST_SECTOR != 0"),
    ("host", "position * self.sector", "position * LEAST_SECTOR"),
    ("instruction", "offset / sector != (offset + length - 1) / sector", "offset / LEAST_SECTOR != (offset + length - 1) / LEAST_SECTOR"),
    ("instruction", "offset / sector != (offset + length - 1) / sector", "length > sector"),
    ("instruction", "offset / sector != (offset + length - 1) / sector", "length > LEAST_SECTOR || offset / sector != (offset + length - 1) / sector"),
    ("instruction", "size % z != 0 || size.abs_diff(running) > z", "size % LEAST_SECTOR != 0 || size.abs_diff(running) > LEAST_SECTOR"),
    ("instruction", "size % z != 0 || size.abs_diff(running) > z", "size % z != 0 || size.abs_diff(running) > LEAST_SECTOR"),
    ("instruction", "size % z != 0 || size.abs_diff(running) > z", "size % LEAST_SECTOR != 0 || size.abs_diff(running) > z"),
    ("instruction", "sector_mut(stage, host.sector, slot).fill(0)", "sector_mut(stage, host.sector, slot)[..LEAST_SECTOR as usize].fill(0)"),
    ("instruction", "sector_mut(stage, host.sector, slot).copy_from_slice(host.committed_sector(disk, place, position))", "sector_mut(stage, host.sector, slot)[..LEAST_SECTOR as usize].copy_from_slice(&host.committed_sector(disk, place, position)[..LEAST_SECTOR as usize])"),
    ("program", "sector_mut(disk, self.sector, slot).copy_from_slice(sector(stage, self.sector, staged))", "sector_mut(disk, self.sector, slot)[..LEAST_SECTOR as usize].copy_from_slice(&sector(stage, self.sector, staged)[..LEAST_SECTOR as usize])"),
    ("program", "sector_mut(disk, self.sector, slot).copy_from_slice(sector(stage, self.sector, staged))", "sector_mut(disk, LEAST_SECTOR, slot).copy_from_slice(sector(stage, LEAST_SECTOR, staged))"),
    ("program", "self.program.running / self.sector", "self.program.running / LEAST_SECTOR"),
    ("tree", "count < 1 || count > MOST_SEGMENTS", "count < 1 || count > 4_096"),
    ("tree", "count < 1 || count > MOST_SEGMENTS", "count < 1 || count >= MOST_SEGMENTS"),
    ("tree", "count < 1 || count > MOST_SEGMENTS", "count < 1 || count > MOST_SEGMENTS + 1"),
    ("tree", "count < 1 || count > MOST_SEGMENTS", "count < 1"),
    ("tree", "first < end && end <= count", "first < end"),
    ("tree", "first < end && end <= count", "first < end && end < count"),
    ("tree", "first < end && end <= count", "end <= count"),
    ("tree", "bytes.len() as u64 != 64 * (end - first)", "(bytes.len() as u64) < 64 * (end - first)"),
    ("tree", "!left_over.is_empty()", "left_over.len() >= 32"),
    ("tree", "!left_over.is_empty()", "false"),
    ("tree", "built != root", "built[..31] != root[..31]"),
    ("tree", "built != root", "built[..4] != root[..4]"),
    ("calls", "tail.len() <= MOST_TAIL && tree::check(root, *count, *first, *end, bytes, hashes)", "tree::check(root, *count, *first, *end, bytes, hashes)"),
    ("calls", "tail.len() <= MOST_TAIL && tree::check(root, *count, *first, *end, bytes, hashes)", "tail.len() < MOST_TAIL && tree::check(root, *count, *first, *end, bytes, hashes)"),
    ("calls", "self.fresh(*sector, *disk, *stage, *fill)", "self.fresh(depot::SECTOR, *disk, *stage, *fill)"),
    ("calls", "place.size.checked_div(host.sector).unwrap_or(0).min(64)", "(place.size / 4_096).min(64)"),
    # M-105: what changes kept roots
    ("instruction", "roots::rehash(host, stage, position)", "()"),
    ("instruction", "roots::rehash(host, stage, position)", "if matches!(inputs, Inputs::Write { .. } | Inputs::Swap { .. }) { roots::rehash(host, stage, position) }"),
    ("instruction", "roots::rehash(host, stage, position)", "if !matches!(inputs, Inputs::Swap { first, .. } if position == first / host.sector) { roots::rehash(host, stage, position) }"),
    ("instruction", "roots::rehash(host, stage, position)", "if !matches!(inputs, Inputs::Swap { second, .. } if position == second / host.sector) { roots::rehash(host, stage, position) }"),
    ("instruction", "roots::rehash(host, stage, position)", "if !matches!(inputs, Inputs::Swap { first, second, .. } if first / host.sector == second / host.sector) { roots::rehash(host, stage, position) }"),
    ("instruction", "roots::rehash(host, stage, position)", "{ roots::rehash(host, stage, position); let slot = host.program.staged[position as usize]; if let Some(place) = host.parent() { if position * host.sector < host.places[place].size { host.disk_roots[host.places[place].slots[position as usize] as usize] = host.stage_roots[slot as usize]; } } }"),
    ("instruction", "roots::rehash(host, stage, position)", "for p in (0..64).filter(|&p| host.program.staged[p as usize] != NONE).collect::<Vec<u64>>() { roots::rehash(host, stage, p) }"),
    ("instruction", "roots::rehash(host, stage, position)", "{ let (place, slot) = (host.parent().unwrap(), host.program.staged[position as usize]); if position * host.sector < host.places[place].size && host.committed_sector(disk, place, position) == host.running_sector(disk, stage, position) { host.stage_roots[slot as usize] = host.disk_roots[host.places[place].slots[position as usize] as usize]; } else { roots::rehash(host, stage, position) } }"),
    ("instruction", "tree::zeros_root(host.sector)", "host.stage_roots[slot as usize]"),
    ("instruction", "tree::zeros_root(host.sector)", "[0; 32]"),
    ("instruction", "tree::zeros_root(host.sector)", "tree::zeros_root(LEAST_SECTOR)"),
    ("instruction", "tree::zeros_root(host.sector)", "tree::zeros_root(2 * host.sector)"),
    ("instruction", "host.program.staged[(size / host.sector) as usize] = NONE", "{ let slot = std::mem::replace(&mut host.program.staged[(size / host.sector) as usize], NONE); if slot != NONE { host.stage_roots[slot as usize] = [0; 32]; } }"),
    ("program", "self.disk_roots[slot as usize] = self.stage_roots[staged as usize]", "()"),
    ("program", "self.disk_roots[slot as usize] = self.stage_roots[staged as usize]", "self.disk_roots[slot as usize] = tree::root(sector(disk, self.sector, slot))"),
    ("program", "self.disk_roots[slot as usize] = self.stage_roots[staged as usize]", "if (position as u64) < before { self.disk_roots[slot as usize] = self.stage_roots[staged as usize] }"),
    ("program", "self.disk_roots[slot as usize] = self.stage_roots[staged as usize]", "if (position as u64) >= before { self.disk_roots[slot as usize] = self.stage_roots[staged as usize] }"),
    ("program", "self.disk_roots[slot as usize] = self.stage_roots[staged as usize]", "self.disk_roots[position] = self.stage_roots[staged as usize]"),
    ("program", "self.disk_roots[slot as usize] = self.stage_roots[staged as usize]", "self.disk_roots[slot as usize] = self.stage_roots[position & 15]"),
    ("program", "self.disk_roots[slot as usize] = self.stage_roots[staged as usize]", "std::mem::swap(&mut self.disk_roots[slot as usize], &mut self.stage_roots[staged as usize])"),
    ("program", "self.places[place].slots[position as usize] = 0", "{ if position < before { self.disk_roots[self.places[place].slots[position as usize] as usize] = [0; 32]; } self.places[place].slots[position as usize] = 0 }"),
    ("program", "self.program = closed_program()", "{ self.program = closed_program(); self.stage_roots = [[0; 32]; 16]; }"),
    ("program", "self.close_with(14, 0)", "{ self.stage_roots = [[0; 32]; 16]; self.close_with(14, 0) }"),
    ("program", "self.close_with(0, 0)", "{ self.stage_roots = [[0; 32]; 16]; self.close_with(0, 0) }"),
    ("program", "self.program.staged = [NONE; 64]", "{ self.program.staged = [NONE; 64]; self.stage_roots = [[0; 32]; 16]; }"),
    ("host", "self.places[place] = EMPTY_PLACE", "{ for slot in self.places[place].slots[..(self.places[place].size / self.sector) as usize].to_vec() { self.disk_roots[slot as usize] = [0; 32]; } self.places[place] = EMPTY_PLACE }"),
    ("calls", "self.host = host", "{ let (disk, stage) = (self.host.disk_roots, self.host.stage_roots); self.host = host; (self.host.disk_roots, self.host.stage_roots) = (disk, stage); }"),
    ("calls", "self.host = host", "{ let stage = self.host.stage_roots; self.host = host; self.host.stage_roots = stage; }"),
    ("calls", "self.host = host", "{ let roots = (self.host.disk_roots, self.host.stage_roots); self.host = host; if answer != 0 { (self.host.disk_roots, self.host.stage_roots) = roots; } }"),
    # M-105: what follows from them
    ("roots", "tree::joined(&self.committed_roots(place))", "tree::root(&self.committed_sectors(disk, place).concat())"),
    ("roots", "tree::joined(&self.running_roots())", "tree::root(&self.running_sectors(disk, stage).concat())"),
    ("roots", "tree::joined(&self.running_roots())", "tree::joined(&(0..self.program.running / self.sector).map(|p| match self.program.staged[p as usize] { NONE => tree::root(self.running_sector(disk, stage, p)), slot => self.stage_roots[slot as usize] }).collect::<Vec<Hash>>())"),
    ("roots", "tree::joined(&self.running_roots())", "tree::joined(&(0..self.program.running / self.sector).map(|p| match self.program.staged[p as usize] { NONE => self.running_root(p), _ => tree::root(self.running_sector(disk, stage, p)) }).collect::<Vec<Hash>>())"),
    ("roots", "self.kept_root(spot)", "tree::root(self.sector_at(disk, stage, spot))"),
    ("roots", "self.kept_root(spot)", "if spot.staged { tree::root(self.sector_at(disk, stage, spot)) } else { self.kept_root(spot) }"),
    ("roots", "self.kept_root(spot)", "if spot.staged { self.kept_root(spot) } else { tree::root(self.sector_at(disk, stage, spot)) }"),
    ("roots", "self.committed_root(self.parent().unwrap(), position)", "self.disk_roots[position as usize]"),
    ("roots", "self.stage_roots[slot as usize]", "self.stage_roots[position as usize & 15]"),
    ("instruction", "Source { sectors: host.running_sectors(disk, stage), roots: host.running_roots() }", "Source { sectors: host.running_sectors(disk, stage), roots: host.running_sectors(disk, stage).into_iter().map(tree::root).collect() }"),
    ("instruction", "Source { sectors: host.committed_sectors(disk, place), roots: host.committed_roots(place) }", "Source { sectors: host.committed_sectors(disk, place), roots: host.committed_sectors(disk, place).into_iter().map(tree::root).collect() }"),
    ("instruction", "Source { sectors: vec![sector], roots: vec![*root] }", "{ let spot = found.unwrap(); if spot.position == 0 && !spot.staged { Source { sectors: host.committed_sectors(disk, spot.place), roots: host.committed_roots(spot.place) } } else { Source { sectors: vec![sector], roots: vec![*root] } } }"),
    ("instruction", "Source { sectors: vec![sector], roots: vec![*root] }", "{ let spot = found.unwrap(); if spot.position == 0 && spot.staged { Source { sectors: host.running_sectors(disk, stage), roots: host.running_roots() } } else { Source { sectors: vec![sector], roots: vec![*root] } } }"),
    ("tree", "inside(hashes)", "hashes.push(roots[0])"),
    ("tree", "at + count <= position || position < at", "at + count <= position"),
    ("tree", "walk_sectors(right, at + part, position, hashes, inside)", "{ let mut late = Vec::new(); walk_sectors(right, at + part, position, &mut late, inside); hashes.splice(0..0, late); }"),
    ("tree", "left_part(roots.len() as u64)", "(roots.len() as u64 / 2)"),
    ("instruction", "proof(&source, position, from / 64, end / 64)", "proof(&source, position, from / 64, (end / 64).min(64))"),
    # M-105: sound
    ("roots", "return (1, false)", "return (0, false)"),
    ("roots", "self.lent_as_made(disk, stage)", "(disk.len() as u64 == self.disk_length())"),
    ("roots", "self.lent_as_made(disk, stage)", "(stage.len() as u64 == self.stage_length())"),
    ("roots", "self.unsound_at(disk, stage).is_none()", "{ if !self.program.open { return (4, false); } self.unsound_at(disk, stage).is_none() }"),
    ("roots", "self.unsound_at(disk, stage).is_none()", "true"),
    ("roots", "self.unsound_at(disk, stage).is_none()", "(self.unsound_at(disk, stage) != Some(\"stage\"))"),
    ("roots", "self.unsound_at(disk, stage).is_none()", "(self.unsound_at(disk, stage) != Some(\"disk\"))"),
    ("roots", "self.unsound_at(disk, stage).is_none()", "(self.unsound_at(disk, stage).is_none() && (0..self.disk_sectors as u8).all(|s| self.disk_roots[s as usize] == [0; 32] || self.disk_roots[s as usize] == tree::root(sector(disk, self.sector, s))))"),
    ("roots", "self.unsound_at(disk, stage).is_none()", "(self.unsound_at(disk, stage).is_none() && (0..self.stage_sectors as u8).all(|s| self.stage_roots[s as usize] == [0; 32] || self.stage_roots[s as usize] == tree::root(sector(stage, self.sector, s))))"),
    ("roots", "self.disk_roots[*slot as usize] != tree::root(sector(disk, self.sector, *slot))", "self.disk_roots[*slot as usize][..31] != tree::root(sector(disk, self.sector, *slot))[..31]"),
    ("roots", "self.disk_roots[*slot as usize] != tree::root(sector(disk, self.sector, *slot))", "self.disk_roots[*slot as usize][4..] != tree::root(sector(disk, self.sector, *slot))[4..]"),
    ("roots", "self.disk_roots[*slot as usize] != tree::root(sector(disk, self.sector, *slot))", "self.disk_roots[*slot as usize] != tree::root(sector(disk, self.sector, *slot)) && self.parent() != Some(place)"),
    ("roots", "self.places[p].held", "self.places[p].held && (0..p).all(|q| !self.places[q].held)"),
    ("roots", "self.places[p].held", "self.places[p].size % self.sector == 0 && self.places[p].size <= self.disk_length()"),
    ("roots", "self.program.open && slot != NONE", "slot != NONE && slot < 16"),
    # M-105: the script player
    ("calls", "host.disk_roots[i][j] = value as u8", "host.disk_roots[i ^ 1][j] = value as u8"),
    ("calls", "host.disk_roots[i][j] = value as u8", "host.disk_roots[i][31 - j] = value as u8"),
    ("calls", "host.stage_roots[i][j] = value as u8", "host.disk_roots[i][j] = value as u8"),
    ("calls", "host.stage_roots[i][j] = value as u8", "host.stage_roots[i ^ 1][j] = value as u8"),
    ("calls", "(64, 32, 256)", "(65, 32, 256)"),
    ("calls", "(16, 32, 256)", "(15, 32, 256)"),
    ("calls", "player.host.stage_roots.concat()", "player.host.stage_roots[..player.host.stage_sectors.min(16) as usize].concat()"),
    ("calls", "player.host.disk_roots.concat()", "player.host.disk_roots[..player.host.disk_sectors.min(64) as usize].concat()"),
    # M-110: the look-up's order and what it sees
    ("lookup", "self.searched_first()", "None"),
    ("lookup", "self.searched_first()", OTHERS_FIRST),
    ("lookup", "self.searched_first()", LAST_PLACE),
    ("lookup", "self.searched_first()", BY_POSITION),
    ("lookup", "self.searched_first()", LAST_OF_PARENT),
    ("lookup", "self.searched_first()", STAGE_BEFORE_DISK),
    ("lookup", "self.searched_first()", COMMITTED_TOO),
    ("lookup", "!self.program.open", "false"),
    ("lookup", "!self.program.open", "!self.program.open || self.program.failed"),
    ("lookup", "!self.program.open", "!self.program.open || self.ended()"),
    ("lookup", "self.parent()", "self.parent().or((0..8).find(|&p| self.places[p].held))"),
    ("lookup", "self.parent()", "self.parent().filter(|_| self.program.ran > 0)"),
    ("lookup", "self.parent()", "self.parent().filter(|_| self.program.staged.iter().any(|&slot| slot != NONE))"),
    ("lookup", "self.parent()", "self.parent().filter(|&p| !padded(&self.places[p].id))"),
    ("lookup", "0..self.program.running / self.sector", "0..(self.program.running / self.sector).saturating_sub(1)"),
    ("lookup", "0..self.program.running / self.sector", "0..self.program.running / self.sector + 1"),
    ("lookup", "0..self.program.running / self.sector", "0..self.starting_size() / self.sector"),
    ("lookup", "0..self.program.running / self.sector", "0..self.starting_size().max(self.program.running) / self.sector"),
    ("lookup", "0..self.program.running / self.sector", "0..self.starting_size().min(self.program.running) / self.sector"),
    ("lookup", "0..self.program.running / self.sector", "1..self.program.running / self.sector"),
    ("lookup", "0..self.program.running / self.sector", "0..(if self.program.failed { self.starting_size() } else { self.program.running }) / self.sector"),
    ("lookup", "0..self.program.running / self.sector", "0..self.program.running / LEAST_SECTOR"),
    ("lookup", "self.program.staged[position as usize] != NONE", "false"),
    ("lookup", "self.program.staged[position as usize] != NONE", "self.program.staged[position as usize] != NONE && position * self.sector < self.starting_size()"),
    ("lookup", "self.program.staged[position as usize] != NONE", "self.program.staged[position as usize] != NONE && position * self.sector >= self.starting_size()"),
    ("lookup", "root_of(own) == *root", "root_of(own)[..4] == root[..4]"),
    ("lookup", "root_of(own) == *root", "root_of(own)[..31] == root[..31]"),
    ("lookup", "root_of(own) == *root", "root_of(own)[4..] == root[4..]"),
    ("lookup", "root_of(own) == *root", "root_of(own) == *root && *root != [0; 32]"),
    ("lookup", "root_of(own) == *root", "root_of(own) == *root && own.staged"),
    ("lookup", "root_of(own) == *root", "root_of(own) == *root && !own.staged"),
    ("lookup", "return Some(own)", "return Some(Spot { position: if own.staged { self.program.staged[position as usize] as u64 } else { position }, ..own })"),
    ("lookup", "return Some(own)", "return Some(Spot { position: if own.staged { position } else { self.places[place].slots[position as usize] as u64 }, ..own })"),
    ("lookup", "return Some(own)", "return Some(Spot { place: 0, ..own })"),
    ("lookup", "self.places[p].held && Some(p) != first", "self.places[p].held"),
    ("lookup", "self.places[p].held && Some(p) != first", "Some(p) != first"),
    ("lookup", "self.places[p].held && Some(p) != first", "self.places[p].held && first.is_none()"),
    ("lookup", "self.places[p].held && Some(p) != first", "self.places[p].held && first.map_or(true, |place| p < place)"),
    ("lookup", "self.places[p].held && Some(p) != first", "self.places[p].held && first.map_or(true, |place| p > place)"),
    ("lookup", "self.places[p].held && Some(p) != first", "self.places[p].held && Some(p) != first && !(self.program.open && first.is_none())"),
    ("lookup", "self.places[p].held && Some(p) != first", "self.places[p].held && Some(p) != first && !padded(&self.places[p].id)"),
    ("lookup", "self.places[p].held && Some(p) != first", "self.places[p].held && p != 7 && Some(p) != first"),
    ("lookup", "0..self.places[place].size / self.sector", "0..(self.places[place].size / self.sector).saturating_sub(1)"),
    ("lookup", "0..self.places[place].size / self.sector", "1..self.places[place].size / self.sector"),
    ("lookup", "0..self.places[place].size / self.sector", "0..(self.places[place].size / self.sector).min(1)"),
    ("lookup", "0..self.places[place].size / self.sector", "0..(self.places[place].size / self.sector + 1).min(64)"),
    ("lookup", "0..self.places[place].size / self.sector", "0..self.places[place].size / LEAST_SECTOR"),
    ("lookup", "Spot { place, position, staged: false }", "Spot { place, position: self.places[place].size / self.sector - 1 - position, staged: false }"),
    ("lookup", "root_of(other) == *root", "root_of(other)[..4] == root[..4]"),
    ("lookup", "root_of(other) == *root", "root_of(other)[..31] == root[..31]"),
    ("lookup", "root_of(other) == *root", "root_of(other)[4..] == root[4..]"),
    ("lookup", "root_of(other) == *root", "root_of(other) == *root && *root != [0; 32]"),
    ("lookup", "return Some(other)", "return Some(Spot { position: self.places[place].slots[position as usize] as u64, ..other })"),
    # M-110: what is read, and what locate answers
    ("lookup", "spot.staged", "false"),
    ("lookup", "self.program.staged[spot.position as usize]", "(spot.position as u8 & 15)"),
    ("roots", "spot.staged", "false"),
    ("roots", "self.running_root(spot.position)", "self.stage_roots[spot.position as usize & 15]"),
    ("instruction", "host.look_up(root, |spot| host.root_looked_up(disk, stage, spot))", "{ let mut before = host.clone(); before.program.open = false; before.look_up(root, |spot| host.root_looked_up(disk, stage, spot)) }"),
    ("instruction", "host.look_up(root, |spot| host.root_looked_up(disk, stage, spot))", "host.look_up(root, |spot| host.root_looked_up(disk, stage, spot)).filter(|spot| !spot.staged)"),
    ("instruction", "found.ok_or(25u64)?", "found.ok_or(26u64)?"),
    ("instruction", "found.ok_or(25u64)?", "found.filter(|spot| !(next(host).proof && spot.staged)).ok_or(25u64)?"),
    ("lookup", "self.look_up(root, |spot| self.kept_root(spot))", "{ let mut before = self.clone(); before.program.open = false; before.look_up(root, |spot| self.kept_root(spot)) }"),
    ("lookup", "self.look_up(root, |spot| self.kept_root(spot))", "self.look_up(root, |spot| self.kept_root(spot)).filter(|spot| !spot.staged)"),
    ("lookup", "self.look_up(root, |spot| self.kept_root(spot))", "self.look_up(root, |spot| self.kept_root(spot)).filter(|spot| self.program.open || spot.place != 0)"),
    ("lookup", "!self.in_order()", "false"),
    ("lookup", "!self.in_order()", "self.program.open && !self.in_order()"),
    ("lookup", "!self.in_order()", "!self.program.open && !self.in_order()"),
    ("lookup", "(0, found)", "if self.program.open { (0, found) } else { (4, None) }"),
    ("lookup", "(0, found)", "if self.program.open { (3, None) } else { (0, found) }"),
    ("lookup", "(0, found)", "if self.program.failed { (13, None) } else { (0, found) }"),
    ("lookup", "(0, found)", "if found.is_none() { (25, None) } else { (0, found) }"),
    ("lookup", "(0, found)", "if self.read_only_mode() { (0, None) } else { (0, found) }"),
    ("calls", "found.unwrap_or(Spot { place: 0, position: 0, staged: false })", "found.unwrap_or(Spot { place: 8, position: 0, staged: false })"),
    ("calls", "found.unwrap_or(Spot { place: 0, position: 0, staged: false })", "found.unwrap_or(Spot { place: 0, position: 64, staged: answer == 0 })"),
    ("calls", "found.is_some() as u64", "(found.is_some() || answer != 0) as u64"),
    ("calls", "found.is_some() as u64", "1"),
    ("calls", "found.is_some() as u64", "found.is_none() as u64"),
    ("calls", "found.is_some() as u64", "spot.staged as u64"),
    ("calls", "number(spot.place as u64)", "number(spot.position)"),
    ("calls", "number(spot.position)", "number(spot.place as u64)"),
    ("calls", "number(spot.position)", "number(spot.position * player.host.sector)"),
    ("calls", "number(spot.staged as u64)", "number(!spot.staged as u64)"),
    ("calls", "number(spot.staged as u64)", "number(0)"),
    ("calls", "answered.spot", "answered.spot.filter(|_| answered.answer == 0)"),
    ("calls", "answered.spot", "answered.spot.filter(|_| answered.tally == 1)"),
]
MISTAKES[[m[2] for m in MISTAKES].index(None)] = (
    "program",
    "if self.program.failed { self.starting_pair(disk) } else { self.running_pair(disk, stage) }",
    "self.running_pair(disk, stage)",
)


def conditions(text):
    """Each condition of order, left out."""
    found = re.findall(r'return (Some\("[^"]*"\))', text)
    return [("host", name, "None") for name in found]


def main():
    named = sys.argv[1] if len(sys.argv) == 2 and not sys.argv[1].isdigit() else None
    seed, count = ("", "") if named else (sys.argv[1:] + ["1", "1000"][len(sys.argv) - 1:])[:2]
    root = pathlib.Path(__file__).resolve().parent
    work = root.parent / "target/model/mutants"
    (work / "src").mkdir(parents=True, exist_ok=True)
    texts = {path.stem: path.read_text() for path in (root / "src").glob("*.rs")}
    mistakes = MISTAKES + conditions(texts["host"])
    places = {}
    for number, (file, old, new) in enumerate(mistakes):
        at = texts[file].index(old)
        places.setdefault((file, at, old), []).append((number, new))
    for (file, at, old), news in sorted(places.items(), reverse=True):
        choice = "".join(f"if crate::mistake({number}) {{ {new} }} else " for number, new in news)
        texts[file] = texts[file][:at] + f"({choice}{{ {old} }})" + texts[file][at + len(old):]
    texts["main"] += (
        "\nstatic MISTAKE: std::sync::LazyLock<u64> = std::sync::LazyLock::new(|| std::env::var(\"MISTAKE\").map_or(9999, |m| m.parse().unwrap()));"
        "\npub fn mistake(number: u64) -> bool {\n    *MISTAKE == number\n}\n"
    )
    for name, text in texts.items():
        (work / "src" / f"{name}.rs").write_text(text)
    program = work / "model"
    subprocess.run(["rustc", "-A", "warnings", "--edition", "2021", "-O", "-C", "target-cpu=native", "-C", "overflow-checks=on", "-o", program, work / "src/main.rs"], check=True)
    inputs = named or str(work / "inputs")
    if not named:
        subprocess.run([program, "gen", seed, count, work], check=True)
    right = subprocess.run([program, "digests", inputs], capture_output=True, check=True).stdout.split(b"\n")
    unnoticed = 0
    for number, (file, old, new) in enumerate(mistakes):
        noticed = first_difference(program, inputs, number, right)
        unnoticed += noticed is None
        print(f"{number}: {file}: {old}  =>  {new}: {'NOT NOTICED' if noticed is None else f'input {noticed}'}", flush=True)
    print(f"{len(mistakes)} mistakes, {unnoticed} not noticed by {f'the inputs of {named}' if named else f'{count} inputs of seed {seed}'}")


def first_difference(program, inputs, number, right):
    """The first input for which the copy with this mistake writes something else, or ends."""
    child = subprocess.Popen([program, "digests", inputs], env=dict(os.environ, MISTAKE=str(number)), stdout=subprocess.PIPE, stderr=subprocess.DEVNULL)
    at = 0
    for line in child.stdout:
        if line.rstrip(b"\n") != right[at]:
            break
        at += 1
    child.kill()
    child.wait()
    return None if at == len(right) - 1 else at


main()
