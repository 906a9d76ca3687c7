//! Folders with `pack`, `transmission`, `date`, `name` and the right `ack`, tried on both receivers.

use crate::compare::is_right_need;
use crate::{INDEPENDENT, PROVED, Side, independent_need};
use std::fs;
use std::path::Path;

const OUTPUT: usize = 65_536;

/// Reports how many folders each receiver agrees with.
pub fn run(folders: &[&str]) -> bool {
    let mut passed = true;
    for (name, side) in [("independent", INDEPENDENT), ("proved", PROVED)] {
        let wrong: Vec<_> = folders.iter().filter(|folder| !agrees(side, Path::new(folder))).collect();
        println!("{name}: {} of {} vectors agree", folders.len() - wrong.len(), folders.len());
        for folder in &wrong {
            println!("  differs: {folder}");
        }
        passed &= wrong.is_empty();
    }
    passed
}

/// The file is the right one, and the need is that of the independent receiver and as it should be.
fn agrees(side: Side, folder: &Path) -> bool {
    let read = |file: &str| fs::read(folder.join(file)).unwrap_or_default();
    let argument = |file: &str| {
        let mut text = read(file);
        while text.last() == Some(&b'\n') {
            text.pop();
        }
        text
    };
    let [transmission, pack] = ["transmission", "pack"].map(read);
    let [date, name] = ["date", "name"].map(argument);
    let mut out = vec![0; OUTPUT];
    let answer = (side.receiver)(&transmission, &pack, &date, &name, &mut out);
    let need = (side.need)(&transmission, &pack, &date, &name);
    written(answer, &out) == read("ack")
        && need == independent_need(&transmission, &pack, &date, &name)
        && is_right_need(need, &transmission, answer, OUTPUT)
}

/// What the program `ackfile` would write.
fn written(answer: u64, out: &[u8]) -> Vec<u8> {
    match answer >> 32 {
        0 => out[..answer as usize].to_vec(),
        refusal => format!("refused {refusal}\n").into_bytes(),
    }
}
