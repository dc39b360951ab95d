//! Draws films, inputs of every kind of line, and the pieces in which an input is read.

use super::film;
use crate::cases::random::Random;
use crate::film_file::Film;
use crate::loss::loss;
use crate::schedule::{sends, smallest_reserve};
use std::fmt::Write;

/// Numbers at their bounds and past them.
const BOUNDS: [u64; 18] = [
    0,
    1,
    256,
    257,
    1_024,
    1_025,
    65_535,
    65_536,
    86_400,
    86_401,
    16_777_215,
    16_777_216,
    4_294_967_295,
    4_294_967_296,
    1_099_511_627_776,
    1_099_511_627_777,
    1 << 63,
    u64::MAX,
];

/// One to three films of one to nine rounds.
pub fn films(random: &mut Random) -> Vec<Film> {
    (0..=random.below(3) as u16)
        .map(|number| {
            let heavy = random.pick(&[2, 9, 100, 70_000]);
            let sizes = (0..=random.below(9)).map(|_| random.below(heavy) as u32);
            film(number * 3 + 1, &sizes.collect::<Vec<u32>>())
        })
        .collect()
}

/// A day and some commands, mostly legal.
pub fn day(random: &mut Random, films: &[Film], commands: u64) -> String {
    let sizes = films.iter().flat_map(|film| &film.sizes);
    let unit = sizes.max().map_or(1, |&size| u64::from(size) + 1);
    let rounds = 10 + random.below(40);
    let disk = loss(1 + random.below(4)) + unit + random.below(4 * unit);
    let mut input = format!("OPEN {rounds} {disk} {}\n", unit + random.below(6 * unit));
    for _ in 0..commands {
        match random.below(10) {
            0..=5 => {
                let film = &films[random.below(films.len() as u64) as usize];
                let prefetch = random.below(4);
                let sends = sends(prefetch, &film.sizes);
                let cap = unit + random.below(2 * unit);
                let least = smallest_reserve(&sends, cap);
                let reserve = random.pick(&[least, least, least + 1, least.saturating_sub(1)]);
                let space = (rounds + 1).saturating_sub(sends.len() as u64);
                let first = random.below(space + 1);
                let last = first + random.below((space - first).max(1));
                let name = random.below(8);
                let number = film.number;
                let cabs = 1 + random.below(7);
                writeln!(
                    input,
                    "BOOK {name} {number} {prefetch} {reserve} {cabs} {first} {last}"
                )
                .expect("text");
            }
            6 => writeln!(input, "DROP {}", random.below(8)).expect("text"),
            _ => input += "PLAY\n",
        }
    }
    if random.once_in(3) {
        input.pop();
    }
    input
}

/// A command one of whose numbers stands at a bound or past it, or has all 20 digits.
fn command_at_a_bound(random: &mut Random, films: &[Film]) -> String {
    let film = &films[random.below(films.len() as u64) as usize];
    let reserve = film.sizes.iter().copied().max().map_or(0, u64::from);
    let number = u64::from(film.number);
    let (word, mut fields) = match random.below(6) {
        0 => ("OPEN", vec![40, 300_000, 3 * reserve]),
        1 => ("DROP", vec![7]),
        _ => ("BOOK", vec![9, number, 1, reserve, 2, 0, 20]),
    };
    let field = random.below(fields.len() as u64) as usize;
    fields[field] = match random.below(4) {
        0 => 0,
        _ => random.pick(&BOUNDS),
    };
    let digits = random.pick(&[1, 1, 1, 20]);
    let fields = fields.iter().map(|number| format!(" {number:0digits$}"));
    word.to_string() + &fields.collect::<String>()
}

/// A line that is no command, without a byte 10: 24.
pub fn no_command(random: &mut Random) -> Vec<u8> {
    let command = random.pick(&["PLAY", "DROP 7", "OPEN 20 200000 60", "BOOK 1 1 1 6 1 0 9"]);
    let mut line = command.as_bytes().to_vec();
    let position = random.below(line.len() as u64) as usize;
    let space = command.find(' ').unwrap_or(0);
    match random.below(18) {
        // Lines of more than 200 bytes, and those about as long.
        0 => line.resize(random.pick(&[199, 200, 201, 202, 256, 4_096]), b' '),
        1 => line.resize(random.pick(&[200, 201, 400, 70_000]), b'0'),
        2 => {
            line = vec![b' '; random.pick(&[200, 201])];
            line.extend(command.as_bytes());
        }
        // Spaces before, behind, and twice.
        3 => line.insert(0, b' '),
        4 => line.push(b' '),
        5 => line.insert(space, b' '),
        // Lower case.
        6 => line.make_ascii_lowercase(),
        7 => line[position.min(3)].make_ascii_lowercase(),
        // Bytes that no command has, in the place of one of its own and behind it.
        8 => line[position] = random.pick(b"\t\r\0\x0b\x7f\x80\xa0\xff,"),
        9 => line.push(random.pick(b"\t\r\0\x80\xff;")),
        // Too few numbers, and too many.
        10 => line.truncate(command.rfind(' ').unwrap_or(3)),
        11 => line.extend(b" 1"),
        // No word.
        12 => line = [b"".as_slice(), b" ", b"P", b"\0", b"\xff"][position % 5].to_vec(),
        // Another byte for the space.
        13 => line[space] = random.pick(b"\t\r\0\xa0,_"),
        _ => line = bad_number(random).into(),
    }
    line
}

/// A command with a number that is none: no numeral, a numeral of more than 20 digits, of 65 bits, a name of more than 32.
fn bad_number(random: &mut Random) -> String {
    match random.below(4) {
        0 => {
            let text = random.pick(&["+7", "-7", "7.", "0x7", "7a", "/", ":", "\u{663}"]);
            format!("DROP {text}")
        }
        1 => {
            let digits = random.pick(&[21, 60, 194, 195, 196]);
            format!("DROP {:0digits$}", 7)
        }
        2 => {
            let past = random.pick(&[1 << 64, 10_u128.pow(20) - 1]);
            let (before, after) = random.pick(&[
                ("OPEN", " 1 1"),
                ("OPEN 20 1", ""),
                ("BOOK 1 1 1 6", " 0 9"),
            ]);
            format!("{before} {past}{after}")
        }
        _ => {
            let past = random.pick(&[1 << 32, (1 << 33) - 1, u64::MAX]);
            let (word, after) = random.pick(&[("DROP", ""), ("BOOK", " 1 1 6 1 0 9")]);
            format!("{word} {past}{after}")
        }
    }
}

/// An input of every kind of line: commands before OPEN, a day with refused commands and lines that are no commands among
/// its own, played beyond its end; with and without a final byte 10.
pub fn input(random: &mut Random, films: &[Film], commands: u64) -> Vec<u8> {
    let mut lines: Vec<Vec<u8>> = Vec::new();
    if random.once_in(3) {
        let early = ["PLAY", "DROP 0", "BOOK 1 1 1 6 1 0 9", "OPEN 1025 0 0"];
        lines.push(random.pick(&early).into());
    }
    for line in day(random, films, commands).lines() {
        lines.push(line.into());
        match random.below(6) {
            0 => lines.push(no_command(random)),
            1 => lines.push(command_at_a_bound(random, films).into()),
            _ => {}
        }
    }
    if random.once_in(4) {
        lines.extend(vec![b"PLAY".to_vec(); 60]);
    }
    let mut input = lines.join(&b'\n');
    if !random.once_in(3) {
        input.push(b'\n');
    }
    input
}

/// The input cut into pieces of drawn lengths, as reads may give it: of a byte each, cut anywhere, or of many lines.
pub fn pieces<'a>(random: &mut Random, input: &'a [u8]) -> Vec<&'a [u8]> {
    // Some thousand pieces at most, however long the input is.
    let longest = random
        .pick(&[1, 7, 60, 1_000, 100_000])
        .max(input.len() / 1_000);
    let mut rest = input;
    let mut pieces = Vec::new();
    while !rest.is_empty() {
        let length = 1 + random.below(longest.min(rest.len()) as u64) as usize;
        let (piece, after) = rest.split_at(length);
        pieces.push(piece);
        rest = after;
    }
    pieces
}

#[cfg(test)]
mod tests {
    use super::*;
    use crate::console::command;
    use crate::refusal::Refusal;

    #[test]
    fn no_command_is_refused_24() {
        let mut random = Random::new(24);
        for _ in 0..10_000 {
            let line = no_command(&mut random);
            assert!(!line.contains(&b'\n'));
            assert_eq!(
                command(&line),
                Err(Refusal::NotACommand),
                "{}",
                line.escape_ascii()
            );
        }
    }

    #[test]
    fn pieces_are_the_input() {
        let mut random = Random::new(25);
        for length in [0, 1, 2, 30, 5_000] {
            let input: Vec<u8> = (0..length).map(|_| random.bits() as u8).collect();
            assert_eq!(pieces(&mut random, &input).concat(), input);
        }
    }
}
