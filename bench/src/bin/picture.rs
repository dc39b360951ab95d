//! The picture of a day, as SVG.
//!
//!     picture session FILMS COMMANDS PICTURE
//!     picture journal FILMS JOURNAL ROUNDS DISK MEMORY PICTURE
//!     picture words COMMANDS JOURNAL
//!     picture films FILMS
//!
//! A session is the film file and the commands of the program `hall`. A journal is a file of 64-bit words, least significant byte
//! first, laid out as the module `journal` of the crate `playback` says; `words` writes that of a session. `films` writes the films of
//! the example day.

use bench::picture::draw::draw;
use bench::picture::example::films;
use bench::picture::record::Record;
use std::{env, fs, process};

fn read(path: &str) -> Vec<u8> {
    fs::read(path).unwrap_or_else(|error| {
        eprintln!("picture: {path}: {error}");
        process::exit(1);
    })
}

fn write(path: &str, bytes: &[u8]) {
    if let Err(error) = fs::write(path, bytes) {
        eprintln!("picture: {path}: {error}");
        process::exit(1);
    }
}

fn number(text: &str) -> u64 {
    text.parse().unwrap_or_else(|_| {
        eprintln!("picture: {text} is no number");
        process::exit(1);
    })
}

fn main() {
    let arguments: Vec<String> = env::args().skip(1).collect();
    let arguments: Vec<&str> = arguments.iter().map(String::as_str).collect();
    match arguments[..] {
        ["session", films, commands, picture] => {
            let record = Record::of_session(&read(films), &read(commands));
            write(picture, draw(&record).as_bytes());
        }
        ["journal", films, journal, rounds, disk, memory, picture] => {
            let journal = read(journal);
            let words = journal.chunks_exact(8);
            let words: Vec<u64> = words
                .map(|word| u64::from_le_bytes(word.try_into().expect("8 bytes")))
                .collect();
            let (rounds, disk, memory) = (number(rounds), number(disk), number(memory));
            let record = Record::of_journal(&read(films), rounds, disk, memory, &words);
            write(picture, draw(&record).as_bytes());
        }
        ["words", commands, journal] => {
            let words = Record::journal_of(&read(commands));
            let bytes: Vec<u8> = words.iter().flat_map(|word| word.to_le_bytes()).collect();
            write(journal, &bytes);
        }
        ["films", path] => write(path, &films()),
        _ => {
            eprintln!("picture session FILMS COMMANDS PICTURE");
            eprintln!("picture journal FILMS JOURNAL ROUNDS DISK MEMORY PICTURE");
            eprintln!("picture words COMMANDS JOURNAL");
            eprintln!("picture films FILMS");
            process::exit(1);
        }
    }
}
