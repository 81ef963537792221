//! Runs the model on many inputs, and the programs to be compared with it where they are named.

use crate::blake2b::hash32;
use crate::calls;
use crate::coverage;
use crate::depot;
use crate::gen::{self, Input};
use crate::head::Reader;
use crate::show;
use std::io::Write;
use std::process::{Command, Stdio};

/// Makes the inputs and puts them into one file: for each its kind (`d` or `c`), its length in 8 bytes, its bytes.
pub fn make(seed: u64, count: u64, directory: &str) {
    std::fs::create_dir_all(directory).unwrap();
    let file = std::fs::File::create(format!("{directory}/inputs")).unwrap();
    let mut out = std::io::BufWriter::new(file);
    for number in 0..count {
        let input = gen::input(seed, number);
        out.write_all(&[if input.for_calls { b'c' } else { b'd' }]).unwrap();
        out.write_all(&(input.bytes.len() as u64).to_le_bytes()).unwrap();
        out.write_all(&input.bytes).unwrap();
    }
    out.flush().unwrap();
}

/// The next input of such a file.
fn next(reader: &mut Reader) -> Option<Input> {
    let [kind] = reader.array::<1>().ok()?;
    let length = reader.number().ok()?;
    let bytes = reader.bytes(length).ok()?.to_vec();
    Some(Input { for_calls: kind == b'c', bytes })
}

/// Writes one input of a file to standard output.
pub fn extract(path: &str, which: usize) {
    let file = std::fs::read(path).unwrap();
    let mut reader = Reader { rest: &file };
    let input = (0..=which).map_while(|_| next(&mut reader)).nth(which).expect("no such input");
    std::io::stdout().write_all(&input.bytes).unwrap();
}

/// What the model writes.
fn play(input: &Input) -> Vec<u8> {
    if input.for_calls {
        calls::play(&input.bytes)
    } else {
        depot::play(&input.bytes)
    }
}

/// A line for each input: a digest of what the model writes.
pub fn digests(path: &str) {
    let file = std::fs::read(path).unwrap();
    let mut reader = Reader { rest: &file };
    let mut number = 0;
    while let Some(input) = next(&mut reader) {
        println!("{number} {}", show::hex(&hash32(&play(&input))[..8]));
        number += 1;
    }
}

/// A line for each input of standard input, as the project's `cases` writes it: place, program, length and digest of what the model writes.
pub fn cases(file: &[u8]) {
    let mut reader = Reader { rest: file };
    let mut place = 0;
    while let Some(input) = next(&mut reader) {
        let written = play(&input);
        let program = if input.for_calls { "calls" } else { "depot" };
        println!("{place} {program} {} {}", written.len(), show::hex(&hash32(&written)));
        place += 1;
    }
}

/// A line for each input of a file: its kind, its length, and what it reaches.
pub fn reach(path: &str) {
    let file = std::fs::read(path).unwrap();
    let mut reader = Reader { rest: &file };
    while let Some(input) = next(&mut reader) {
        coverage::clear();
        let written = play(&input).len();
        let kind = if input.for_calls { "c" } else { "d" };
        println!("{kind}\t{}\t{written}\t{}", input.bytes.len(), coverage::reached().join("\t"));
    }
}

/// Runs the model on all inputs of a file, compares, prints the counts. Where nothing was compared it says so, and ends with 1.
pub fn run(path: &str, label: &str) {
    let named = |variable: &str| std::env::var(variable).ok().filter(|path| !path.is_empty());
    let (depot_program, calls_program) = (named("DEPOT"), named("CALLS"));
    let file = std::fs::read(path).unwrap();
    let mut reader = Reader { rest: &file };
    let (mut count, mut compared) = (0usize, 0usize);
    let start = std::time::Instant::now();
    while let Some(input) = next(&mut reader) {
        let program = if input.for_calls { &calls_program } else { &depot_program };
        if let Some(program) = program {
            compare(program, &input, &format!("{label}-{count}"));
            compared += 1;
        } else if input.for_calls {
            calls::play_unreported(&input.bytes);
        } else {
            depot::play(&input.bytes);
        }
        count += 1;
    }
    let seconds = start.elapsed().as_secs_f64();
    coverage::print();
    if compared == 0 {
        println!("{count} inputs, NOTHING COMPARED: neither DEPOT nor CALLS names a program");
        std::process::exit(1);
    }
    println!("{count} inputs, {compared} compared, no difference, {:.0} a second", count as f64 / seconds);
}

/// What a program writes for an input, and how it ended.
fn output_of(program: &str, input: &[u8]) -> (Vec<u8>, String) {
    let mut child = Command::new(program).stdin(Stdio::piped()).stdout(Stdio::piped()).spawn().expect(program);
    let mut stdin = child.stdin.take().unwrap();
    let bytes = input.to_vec();
    let writer = std::thread::spawn(move || drop(stdin.write_all(&bytes)));
    let output = child.wait_with_output().unwrap();
    writer.join().unwrap();
    (output.stdout, output.status.to_string())
}

/// Stops at a difference, after saving the input (a script with all items left out that are not needed for it) and both outputs.
fn compare(program: &str, input: &Input, label: &str) {
    if output_of(program, &input.bytes).0 == play(input) {
        return;
    }
    let kind = if input.for_calls { "calls" } else { "depot" };
    let name = format!("model/difference/{label}.{kind}");
    std::fs::create_dir_all("model/difference").unwrap();
    std::fs::write(format!("{name}.whole"), &input.bytes).unwrap();
    let input =
        if input.for_calls { shorter_script(program, input) } else { Input { for_calls: false, bytes: input.bytes.clone() } };
    let expected = play(&input);
    let (found, status) = output_of(program, &input.bytes);
    std::fs::write(&name, &input.bytes).unwrap();
    std::fs::write(format!("{name}.model"), &expected).unwrap();
    std::fs::write(format!("{name}.project"), &found).unwrap();
    println!("difference: {name} ({} bytes); {program} ended with {status}", input.bytes.len());
    println!("  the model wrote {} bytes, the project {}", expected.len(), found.len());
    let at = (0..expected.len().max(found.len())).find(|&i| expected.get(i) != found.get(i)).unwrap_or(0);
    println!("  first difference at byte {at}");
    if input.for_calls {
        show_script_difference(&input, &expected, &found, at);
    } else {
        show::depot_text(&input.bytes).iter().take(3).for_each(|line| println!("  {line}"));
        show_lines(&show::record_lines(&expected), &show::record_lines(&found));
    }
    std::process::exit(1);
}

/// Leaves out items, the last first, as long as a difference stays.
fn shorter_script(program: &str, input: &Input) -> Input {
    let mut reader = Reader { rest: &input.bytes };
    let mut items = Vec::new();
    while let Some(item) = calls::read_item(&mut reader) {
        items.push(calls::item_bytes(&item));
    }
    let script = |items: &[Vec<u8>]| Input { for_calls: true, bytes: items.concat() };
    let differs = |input: &Input| output_of(program, &input.bytes).0 != play(input);
    if !differs(&script(&items)) {
        return Input { for_calls: true, bytes: input.bytes.clone() };
    }
    let mut at = items.len();
    while at > 0 {
        at -= 1;
        let mut fewer = items.clone();
        fewer.remove(at);
        if differs(&script(&fewer)) {
            items = fewer;
        }
    }
    script(&items)
}

fn show_script_difference(input: &Input, expected: &[u8], found: &[u8], at: usize) {
    let reports = calls::item_reports(&input.bytes);
    let Some(which) = reports.iter().rposition(|(from, _)| *from <= at) else {
        println!("  no item is reported");
        return;
    };
    show::script_text(&input.bytes).iter().take(which + 1).for_each(|line| println!("  {line}"));
    let (from, item) = &reports[which];
    let part = |bytes: &[u8]| show::report_lines(bytes.get(*from..).unwrap_or(&[]), item);
    show_lines(&part(expected), &part(found));
}

fn show_lines(expected: &[String], found: &[String]) {
    let nothing = "(nothing)".to_string();
    for i in 0..expected.len().max(found.len()) {
        let (left, right) = (expected.get(i).unwrap_or(&nothing), found.get(i).unwrap_or(&nothing));
        if left != right {
            println!("  model:   {left}\n  project: {right}");
        }
    }
}
