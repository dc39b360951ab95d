//! The program `hall`: its commands, its output and a whole session.

use crate::day::{Booking, Day, Line, Request, Sheet};
use crate::desk;
use crate::film_file::verdict;
use crate::refusal::{ask, Refusal};

/// Bytes of the longest film file ("Is it at most 65,536 bytes? 25").
pub const MAX_FILE: usize = 65_536;
/// "Its sheet has 1,024 rounds".
pub const SHEET_ROUNDS: usize = 1_024;
/// "and its list 64 places".
pub const LIST_PLACES: usize = 64;
/// Bytes of the longest line.
const MAX_LINE: usize = 200;
/// Digits of the longest numeral.
const MAX_DIGITS: usize = 20;

/// A command: "OPEN T D M; BOOK name film p b cabs first last; DROP name; PLAY".
#[derive(Clone, Copy, Debug, PartialEq, Eq)]
pub enum Command {
    Open { rounds: u64, disk: u64, memory: u64 },
    Book(Request),
    Drop { name: u32 },
    Play,
}

/// A numeral "of 1 to 20 digits fitting 64 bits".
fn numeral(field: &[u8]) -> Option<u64> {
    let digits = field.iter().all(u8::is_ascii_digit);
    if !digits || !(1..=MAX_DIGITS).contains(&field.len()) {
        return None;
    }
    // 20 digits are below 2^67, so that 128 bits hold them.
    let value = field
        .iter()
        .fold(0_u128, |value, digit| value * 10 + u128::from(digit - b'0'));
    u64::try_from(value).ok()
}

/// The command of a line without its byte 10. "Is the line one of these, at most 200 bytes, with numerals of 1 to 20 digits
/// fitting 64 bits, and names 32? 24."
pub fn command(line: &[u8]) -> Result<Command, Refusal> {
    ask(line.len() <= MAX_LINE, Refusal::NotACommand)?;
    let mut fields = line.split(|&byte| byte == b' ');
    let word = fields.next().unwrap_or(&[]);
    let numbers: Option<Vec<u64>> = fields.map(numeral).collect();
    let numbers = numbers.ok_or(Refusal::NotACommand)?;
    let name = |number: u64| u32::try_from(number).map_err(|_| Refusal::NotACommand);
    match (word, numbers.as_slice()) {
        (b"OPEN", &[rounds, disk, memory]) => Ok(Command::Open {
            rounds,
            disk,
            memory,
        }),
        (b"BOOK", &[number, film, prefetch, reserve, cabs, first, last]) => {
            Ok(Command::Book(Request {
                name: name(number)?,
                film,
                prefetch,
                reserve,
                cabs,
                first,
                last,
            }))
        }
        (b"DROP", &[number]) => Ok(Command::Drop {
            name: name(number)?,
        }),
        (b"PLAY", &[]) => Ok(Command::Play),
        _ => Err(Refusal::NotACommand),
    }
}

/// The lines of an input. "A line ends at byte 10 or the end of input; no line follows a final byte 10."
pub fn lines(input: &[u8]) -> Vec<&[u8]> {
    let mut lines: Vec<&[u8]> = input.split(|&byte| byte == b'\n').collect();
    if lines.last().is_some_and(|line| line.is_empty()) {
        lines.pop();
    }
    lines
}

/// The program's film file and its day. "Before OPEN the day has T = 0."
#[derive(Clone, Debug)]
pub struct Console {
    file: Vec<u8>,
    day: Day,
    records: Vec<Booking>,
    sheet: Sheet,
}

impl Console {
    /// The program begins: "Is it at most 65,536 bytes? 25", then the file's questions.
    pub fn start(file: &[u8]) -> Result<Console, Refusal> {
        ask(file.len() <= MAX_FILE, Refusal::FileTooLong)?;
        verdict(file)?;
        Ok(Console {
            file: file.to_vec(),
            day: Day::default(),
            records: vec![Booking::default(); LIST_PLACES],
            sheet: Sheet {
                open: vec![0; SHEET_ROUNDS],
                reserves: vec![0; SHEET_ROUNDS],
                held: vec![0; SHEET_ROUNDS],
            },
        })
    }

    /// What the program prints for a line.
    pub fn answer(&mut self, line: &[u8]) -> String {
        command(line)
            .and_then(|command| self.carry_out(command))
            .unwrap_or_else(refused)
    }

    fn carry_out(&mut self, command: Command) -> Result<String, Refusal> {
        match command {
            Command::Open {
                rounds,
                disk,
                memory,
            } => {
                desk::open(&mut self.day, &mut self.sheet, rounds, disk, memory)?;
                Ok("OPENED\n".to_string())
            }
            Command::Book(request) => {
                let start = desk::book(
                    &self.file,
                    &mut self.day,
                    &mut self.records,
                    &mut self.sheet,
                    &request,
                )?;
                Ok(format!("BOOKED {} {start}\n", request.name))
            }
            Command::Drop { name } => {
                desk::drop_booking(
                    &self.file,
                    &mut self.day,
                    &mut self.records,
                    &mut self.sheet,
                    name,
                )?;
                Ok(format!("DROPPED {name}\n"))
            }
            Command::Play => self.play(),
        }
    }

    fn play(&mut self) -> Result<String, Refusal> {
        let round = self.day.now;
        let mut report = [Line::default(); LIST_PLACES];
        let played = desk::play(&self.file, &mut self.day, &self.records, &mut report)?;
        let mut text = format!("ROUND {round} {} {}\n", played.open, played.cabs);
        for line in &report[..played.open as usize] {
            text += &format!("{} {} {} {}\n", line.name, line.read, line.send, line.held);
        }
        Ok(text)
    }
}

/// "A refusal prints NO and its number."
fn refused(refusal: Refusal) -> String {
    format!("NO {}\n", refusal.number())
}

/// A whole run: what the program prints for a film file ("A missing file counts as empty, and a refused one ends the
/// program") and an input.
pub fn session(file: &[u8], input: &[u8]) -> String {
    match Console::start(file) {
        Ok(mut console) => lines(input)
            .into_iter()
            .map(|line| console.answer(line))
            .collect(),
        Err(refusal) => refused(refusal),
    }
}

#[cfg(test)]
mod tests {
    use super::*;
    use crate::film_file::{encode, Film};

    fn film_1() -> Vec<u8> {
        encode(&[Film {
            number: 1,
            sizes: vec![8, 8, 8, 2, 6, 4],
        }])
    }

    fn answers(input: &str) -> String {
        session(&film_1(), input.as_bytes())
    }

    #[test]
    fn session_of_document_01() {
        let input = "OPEN 20 141433 18\nBOOK 1 1 1 6 1 0 0\nBOOK 2 1 1 6 2 0 10\nBOOK 3 1 1 6 1 0 5\nPLAY\nPLAY\n";
        let output =
            "OPENED\nBOOKED 1 0\nBOOKED 2 3\nNO 22\nROUND 0 1 0\n1 6 0 6\nROUND 1 1 1\n1 6 8 12\n";
        assert_eq!(answers(input), output);
    }

    #[test]
    fn desk_figures_for_film_1() {
        let second = |opening: &str, cabs: u64| {
            let input =
                format!("OPEN 20 {opening}\nBOOK 1 1 1 6 1 0 0\nBOOK 2 1 1 6 {cabs} 0 10\n");
            answers(&input).lines().last().map(str::to_string)
        };
        assert_eq!(second("141433 15", 2).as_deref(), Some("BOOKED 2 6"));
        assert_eq!(second("141432 18", 2).as_deref(), Some("BOOKED 2 7"));
        assert_eq!(second("141433 18", 1).as_deref(), Some("BOOKED 2 6"));
    }

    #[test]
    fn lines_end_at_byte_10_or_the_end_of_input() {
        assert_eq!(lines(b""), Vec::<&[u8]>::new());
        assert_eq!(lines(b"\n"), [b""]);
        assert_eq!(lines(b"PLAY"), [b"PLAY"]);
        assert_eq!(lines(b"PLAY\n\nPLAY"), [b"PLAY".as_slice(), b"", b"PLAY"]);
    }

    #[test]
    fn grammar() {
        for line in [
            "",
            " ",
            "PLAY ",
            " PLAY",
            "play",
            "PLAY\r",
            "PLAY 1",
            "DROP",
            "DROP ",
            "DROP  1",
            "DROP +1",
            "DROP -1",
            "DROP 1 2",
            "DROP\t1",
            "DROP 4294967296",
            "OPEN 1 2",
            "DROP 000000000000000000001",
            "OPEN 18446744073709551616 1 1",
            "PLAY\0",
            "OPEN 1 2 3 ",
        ] {
            assert_eq!(
                command(line.as_bytes()),
                Err(Refusal::NotACommand),
                "{line}"
            );
        }
        assert_eq!(
            command(b"DROP 00000000004294967295"),
            Ok(Command::Drop { name: u32::MAX })
        );
        let largest = u64::MAX.to_string();
        let open = Command::Open {
            rounds: u64::MAX,
            disk: 0,
            memory: 1,
        };
        assert_eq!(command(format!("OPEN {largest} 0 1").as_bytes()), Ok(open));
    }

    #[test]
    fn files_and_days_that_are_refused() {
        assert_eq!(session(&[], b"PLAY\n"), "NO 1\n");
        assert_eq!(session(&[0; 65_536], b"PLAY\n"), "NO 2\n");
        assert_eq!(session(&[0; 65_537], b"PLAY\n"), "NO 25\n");
        assert_eq!(
            answers("PLAY\nOPEN 1025 0 0\nOPEN 0 0 0\n"),
            "NO 14\nNO 11\nNO 14\n"
        );
        assert_eq!(
            answers("OPEN 1 0 0\nPLAY\nPLAY"),
            "OPENED\nROUND 0 0 0\nNO 23\n"
        );
    }
}
