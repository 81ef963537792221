//! An independent model of the depot machine, in plain Rust. See model/README.md.

mod batch;
mod blake2b;
mod calls;
mod check;
mod coverage;
mod depot;
mod draft;
mod gen;
mod head;
mod host;
mod instruction;
mod lookup;
mod memo;
mod mixes;
mod program;
mod random;
mod roots;
mod show;
mod tree;
mod unsound;

use std::io::{Read, Write};

fn standard_input() -> Vec<u8> {
    let mut bytes = Vec::new();
    std::io::stdin().read_to_end(&mut bytes).unwrap();
    bytes
}

fn number(word: &str) -> u64 {
    word.parse().expect("a number")
}

fn main() {
    let arguments: Vec<String> = std::env::args().skip(1).collect();
    let words: Vec<&str> = arguments.iter().map(String::as_str).collect();
    match words[..] {
        ["depot"] => std::io::stdout().write_all(&depot::play(&standard_input())).unwrap(),
        ["large"] => std::io::stdout().write_all(&depot::play_large(&standard_input())).unwrap(),
        ["once"] => std::io::stdout().write_all(&depot::play_once(&standard_input())).unwrap(),
        ["calls"] => std::io::stdout().write_all(&calls::play(&standard_input())).unwrap(),
        ["mixes"] => std::io::stdout().write_all(mixes::play(&standard_input()).as_bytes()).unwrap(),
        ["check"] => check::run(),
        ["gen", seed, count, directory] => batch::make(number(seed), number(count), directory),
        ["batch", inputs, label] => batch::run(inputs, label),
        ["digests", inputs] => batch::digests(inputs),
        ["cases"] => batch::cases(&standard_input()),
        ["reach", inputs] => batch::reach(inputs),
        ["show", "depot"] => show::depot_text(&standard_input()).iter().for_each(|line| println!("{line}")),
        ["show", "calls"] => show::script_text(&standard_input()).iter().for_each(|line| println!("{line}")),
        ["extract", inputs, which] => batch::extract(inputs, number(which) as usize),
        _ => {
            eprintln!("use: model depot | large | once | calls | mixes | check | show depot | show calls");
            eprintln!("     model gen SEED N DIRECTORY | batch INPUTS LABEL | digests INPUTS | reach INPUTS | extract INPUTS I | cases");
            std::process::exit(2);
        }
    }
}
