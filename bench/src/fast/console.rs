//! The program `hall` over a day carried on call by call.

use super::film_file::Catalogue;
use super::replay::Carried;
use crate::scheduler::Opening;
use playback::{Booking, Line, Refusal, Request};
use std::io::{BufRead, Write};

const MAX_FILE: usize = 65_536;
const MAX_LINE: usize = 200;
/// Rounds that a day may have.
const ROUNDS: u64 = 1_024;
const PLACES: usize = 64;

/// The program's state.
struct Console<'a> {
    file: &'a [u8],
    carried: Option<Carried<'a>>,
    records: Vec<Booking>,
    lines: Vec<Line>,
}

fn put_number(output: &mut Vec<u8>, mut number: u64) {
    let mut digits = [0; 20];
    let mut at = digits.len();
    loop {
        at -= 1;
        digits[at] = b'0' + (number % 10) as u8;
        number /= 10;
        if number == 0 {
            break;
        }
    }
    output.extend_from_slice(&digits[at..]);
}

/// A word and numbers, parted by spaces.
fn put_line(output: &mut Vec<u8>, word: &[u8], numbers: &[u64]) {
    output.extend_from_slice(word);
    for (place, &number) in numbers.iter().enumerate() {
        if place > 0 || !word.is_empty() {
            output.push(b' ');
        }
        put_number(output, number);
    }
    output.push(b'\n');
}

/// The numbers of a command of that many; none where a field is no numeral of 64 bits.
fn numbers<const COUNT: usize>(fields: &[u8]) -> Option<[u64; COUNT]> {
    let mut numbers = [0_u64; COUNT];
    let mut fields = fields.split(|&byte| byte == b' ');
    for number in &mut numbers {
        let field = fields.next()?;
        if field.is_empty() || field.len() > 20 {
            return None;
        }
        for &byte in field {
            let digit = byte.wrapping_sub(b'0');
            if digit > 9 {
                return None;
            }
            *number = number.checked_mul(10)?.checked_add(digit.into())?;
        }
    }
    fields.next().is_none().then_some(numbers)
}

impl Console<'_> {
    fn answer(&mut self, line: &[u8], output: &mut Vec<u8>) {
        if let Err(refusal) = self.carry_out(line, output) {
            put_line(output, b"NO", &[refusal.number().into()]);
        }
    }

    fn carry_out(&mut self, line: &[u8], output: &mut Vec<u8>) -> Result<(), Refusal> {
        if line.len() > MAX_LINE {
            return Err(Refusal::Command);
        }
        if line == b"PLAY" {
            return self.play(output);
        }
        let (word, fields) = line.split_at_checked(5).ok_or(Refusal::Command)?;
        match word {
            b"BOOK " => self.book(fields, output),
            b"DROP " => {
                let [name] = numbers(fields).ok_or(Refusal::Command)?;
                let name = u32::try_from(name).map_err(|_| Refusal::Command)?;
                let carried = self.carried.as_mut().ok_or(Refusal::DayRounds)?;
                carried.drop_booking(&mut self.records, name)?;
                put_line(output, b"DROPPED", &[name.into()]);
                Ok(())
            }
            b"OPEN " => {
                let [rounds, disk, memory] = numbers(fields).ok_or(Refusal::Command)?;
                let opening = Opening {
                    rounds,
                    disk,
                    memory,
                };
                let carried = Carried::open(self.file, opening)?;
                if rounds > ROUNDS {
                    return Err(Refusal::NoRoom);
                }
                self.carried = Some(carried);
                put_line(output, b"OPENED", &[]);
                Ok(())
            }
            _ => Err(Refusal::Command),
        }
    }

    fn book(&mut self, fields: &[u8], output: &mut Vec<u8>) -> Result<(), Refusal> {
        let [name, film, prefetch, reserve, cabs, first, last] =
            numbers(fields).ok_or(Refusal::Command)?;
        let request = Request {
            name: u32::try_from(name).map_err(|_| Refusal::Command)?,
            film,
            prefetch,
            reserve,
            cabs,
            first,
            last,
        };
        let carried = self.carried.as_mut().ok_or(Refusal::DayRounds)?;
        let start = carried.book(&mut self.records, &request)?;
        put_line(output, b"BOOKED", &[name, start]);
        Ok(())
    }

    fn play(&mut self, output: &mut Vec<u8>) -> Result<(), Refusal> {
        let carried = self.carried.as_mut().ok_or(Refusal::DayRounds)?;
        let round = carried.day.now;
        let (films, cabs) = carried.lines(&self.records, PLACES as u64, &mut self.lines)?;
        put_line(output, b"ROUND", &[round, films, cabs]);
        for line in &self.lines {
            put_line(
                output,
                b"",
                &[line.name.into(), line.read, line.send, line.held],
            );
        }
        carried.next_round();
        Ok(())
    }
}

/// Serves an input to its end; what was answered is written before more input is waited for.
pub fn serve(file: &[u8], mut input: impl BufRead, mut output: impl Write) {
    let mut text = Vec::new();
    let accepted = if file.len() > MAX_FILE {
        Err(Refusal::FileSize)
    } else {
        Catalogue::read(file).map(|_| ())
    };
    if let Err(refusal) = accepted {
        put_line(&mut text, b"NO", &[refusal.number().into()]);
        let _ = output.write_all(&text);
        return;
    }
    let mut console = Console {
        file,
        carried: None,
        records: vec![Booking::default(); PLACES],
        lines: Vec::new(),
    };
    // The beginning of a line that has not ended yet, and at most one byte more than a line may have.
    let mut begun = Vec::new();
    let mut in_line = false;
    while let Ok(bytes) = input.fill_buf() {
        if bytes.is_empty() {
            break;
        }
        let length = bytes.len();
        for part in bytes.split_inclusive(|&byte| byte == b'\n') {
            let (ends, line) = match part.strip_suffix(b"\n") {
                Some(line) => (true, line),
                None => (false, part),
            };
            if ends && !in_line {
                console.answer(line, &mut text);
                continue;
            }
            let room = (MAX_LINE + 1).saturating_sub(begun.len());
            begun.extend_from_slice(&line[..line.len().min(room)]);
            in_line = !ends;
            if ends {
                console.answer(&begun, &mut text);
                begun.clear();
            }
        }
        input.consume(length);
        let _ = output.write_all(&text);
        text.clear();
    }
    if in_line {
        console.answer(&begun, &mut text);
        let _ = output.write_all(&text);
    }
}
