//! A session of 64 MB, long lines and many short ones: the program's memory does not grow with its input.

use crate::program::{write, Program};
use reference::cases::sessions::document;
use reference::console::Console;
use std::path::Path;
use std::process::ChildStdin;
use std::{fs, thread};

/// Bytes of the short lines, and of each long one.
const SHORT_LINES: usize = 8_000_000;
const LONG_LINE: usize = 14_000_000;
const LONG_LINES: usize = 4;

/// KiB that the program may have had at most.
const MAX_MEMORY: u64 = 4_096;

/// Opens a day and plays it to its end, so that the lines after it change nothing.
const DAY: &[u8] = b"OPEN 1 0 0\nPLAY\n";

/// Lines that are refused on a day that is over: 23, 19, 21, 24, 24.
const LINES: &[u8] = b"PLAY\nDROP 7\nBOOK 1 1 1 6 1 0 0\nplay\n\n";

fn answers(console: &mut Console, lines: &[u8]) -> Vec<u8> {
    let lines = lines.split_inclusive(|&byte| byte == b'\n');
    lines
        .flat_map(|line| console.answer(&line[..line.len() - 1]).into_bytes())
        .collect()
}

/// What the program must print.
fn expected(file: &[u8]) -> Vec<u8> {
    let mut console = Console::start(file).expect("film 1");
    let mut expected = answers(&mut console, DAY);
    let short = answers(&mut console, LINES);
    assert_eq!(short, answers(&mut console, LINES), "lines change the day");
    expected.extend(short.repeat(SHORT_LINES / LINES.len()));
    let long = answers(&mut console, &long_line());
    expected.extend(long.repeat(LONG_LINES));
    expected
}

fn long_line() -> Vec<u8> {
    let mut line = vec![b'7'; LONG_LINE];
    line.push(b'\n');
    line
}

/// Writes the input, and gives the pipe back, which is still open.
fn send(mut input: ChildStdin) -> Result<ChildStdin, String> {
    write(&mut input, DAY)?;
    write(&mut input, &LINES.repeat(SHORT_LINES / LINES.len()))?;
    let long = long_line();
    for _ in 0..LONG_LINES {
        write(&mut input, &long)?;
    }
    Ok(input)
}

/// The most memory that the program has had after the input, in KiB.
pub fn peak(hall: &Path, folder: &Path) -> Result<u64, String> {
    let (file, _) = document();
    fs::write(folder.join("films.bin"), &file).map_err(|error| error.to_string())?;
    let expected = expected(&file);
    let mut program = Program::start(hall, folder).map_err(|error| error.to_string())?;
    let input = program.take_input();
    let (answered, input) = thread::scope(|scope| {
        let writer = scope.spawn(|| send(input));
        let answered = program.wait_for(expected.len());
        if answered.is_err() {
            // The writer would wait for a program that reads no more.
            program.kill();
        }
        (answered, writer.join().expect("a writer that ends"))
    });
    answered?;
    // The program waits for more while its memory is looked at.
    let input = input?;
    let peak = program.peak_memory().ok_or("no VmHWM of the program")?;
    drop(input);
    program.wait_for_end()?;
    if program.printed != expected {
        return Err("it prints something else than the second implementation".into());
    }
    if peak > MAX_MEMORY {
        return Err(format!("it took {peak} KiB, more than {MAX_MEMORY}"));
    }
    Ok(peak)
}
