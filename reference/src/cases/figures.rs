//! The figures of document 01: the lines of 'Figures for film 1', starred and not, and the losses that 'The disk loss' names.

use crate::console::{LIST_PLACES, SHEET_ROUNDS};
use crate::day::{Booking, Day, Request, Sheet};
use crate::desk;
use crate::film_file::{encode, Film};
use crate::loss::loss;
use crate::refusal::Refusal;
use crate::schedule::{least_reserve, peak, rounds, schedule};

/// "Film 1 has sizes 8, 8, 8, 2, 6, 4."
const FILM_1: [u32; 6] = [8, 8, 8, 2, 6, 4];

/// Places of the list that a schedule is written to.
const TOTALS: usize = 16;

fn only_film(sizes: &[u32]) -> Vec<u8> {
    encode(&[Film {
        number: 1,
        sizes: sizes.to_vec(),
    }])
}

fn list(numbers: &[u64]) -> String {
    let numbers: Vec<String> = numbers.iter().map(u64::to_string).collect();
    numbers.join(", ")
}

fn refused(refusal: Refusal) -> String {
    format!("refused {}", refusal.number())
}

fn totals(prefetch: u64, reserve: u64) -> String {
    let mut output = [0; TOTALS];
    match schedule(&only_film(&FILM_1), 1, prefetch, reserve, &mut output) {
        Ok(()) => format!(
            "totals {}",
            list(&output[..prefetch as usize + FILM_1.len()])
        ),
        Err(refusal) => refused(refusal),
    }
}

fn held(prefetch: u64, reserve: u64, show: fn(&[u64]) -> String) -> String {
    match rounds(&only_film(&FILM_1), 1, prefetch, reserve) {
        Ok(rounds) => show(&rounds.iter().map(|round| round.held).collect::<Vec<u64>>()),
        Err(refusal) => refused(refusal),
    }
}

fn reserve(sizes: &[u32], cap: u64) -> String {
    match least_reserve(&only_film(sizes), 1, 1, cap) {
        Ok(reserve) => format!("gives {reserve}"),
        Err(refusal) => format!("is {}", refused(refusal)),
    }
}

/// Booking 2 of document 01's session, after booking 1, in a day of 20 rounds.
fn booking(disk: u64, memory: u64, cabs: u64) -> Result<u64, Refusal> {
    let file = only_film(&FILM_1);
    let mut day = Day::default();
    let mut records = vec![Booking::default(); LIST_PLACES];
    let mut sheet = Sheet {
        open: vec![0; SHEET_ROUNDS],
        reserves: vec![0; SHEET_ROUNDS],
        held: vec![0; SHEET_ROUNDS],
    };
    let request = |name: u32, cabs: u64, last: u64| Request {
        name,
        film: 1,
        prefetch: 1,
        reserve: 6,
        cabs,
        first: 0,
        last,
    };
    desk::open(&mut day, &mut sheet, 20, disk, memory)?;
    let first = request(1, 1, 0);
    desk::book(&file, &mut day, &mut records, &mut sheet, &first)?;
    let second = request(2, cabs, 10);
    desk::book(&file, &mut day, &mut records, &mut sheet, &second)
}

fn start(disk: u64, memory: u64, cabs: u64) -> String {
    let start = booking(disk, memory, cabs);
    let start = start.map_or_else(refused, |start| format!("start {start}"));
    format!("* Booking 2, D {disk}, M {memory}, cabs {cabs}: {start}")
}

/// What the test program must print: a line for each figure.
pub fn output() -> Vec<u8> {
    let shown = |held: &[u64]| format!("held {}", list(held));
    let most = |held: &[u64]| format!("peak {}", peak(held));
    let mut lines = vec![
        format!("* p 1, b 6: {}; {}", totals(1, 6), held(1, 6, shown)),
        format!("* p 0, b 7: {}", totals(0, 7)),
        format!("* p 0, b 8: {}", held(0, 8, shown)),
        format!("* p 1, b 5: {}", totals(1, 5)),
        format!("* p 2, b 5: {}", held(2, 5, most)),
        format!("* p 1, b 7: {}", held(1, 7, most)),
    ];
    for cap in [12, 11, 8, 7] {
        let reserve = reserve(&FILM_1, cap);
        lines.push(format!("* Least reserve, p 1: cap {cap} {reserve}"));
    }
    lines.push(start(141_433, 15, 2));
    lines.push(start(141_432, 18, 2));
    lines.push(start(141_433, 18, 1));
    for cap in [12, 0] {
        let reserve = reserve(&[0; 6], cap);
        lines.push(format!("All sizes 0, p 1: cap {cap} {reserve}"));
    }
    for films in [0, 1, 2, 3, 256] {
        lines.push(format!("loss({films}) = {}", loss(films)));
    }
    lines
        .join("\n")
        .into_bytes()
        .into_iter()
        .chain([b'\n'])
        .collect()
}

#[cfg(test)]
mod tests {
    use super::output;

    #[test]
    fn figures_of_document_01() {
        let expected = "\
* p 1, b 6: totals 6, 12, 18, 24, 26, 32, 36; held 6, 12, 10, 8, 2, 6, 4
* p 0, b 7: refused 12
* p 0, b 8: held 8, 8, 8, 2, 6, 4
* p 1, b 5: refused 12
* p 2, b 5: peak 14
* p 1, b 7: peak 10
* Least reserve, p 1: cap 12 gives 6
* Least reserve, p 1: cap 11 gives 7
* Least reserve, p 1: cap 8 gives 8
* Least reserve, p 1: cap 7 is refused 13
* Booking 2, D 141433, M 15, cabs 2: start 6
* Booking 2, D 141432, M 18, cabs 2: start 7
* Booking 2, D 141433, M 18, cabs 1: start 6
All sizes 0, p 1: cap 12 gives 0
All sizes 0, p 1: cap 0 gives 0
loss(0) = 0
loss(1) = 100000
loss(2) = 141421
loss(3) = 173205
loss(256) = 1600000
";
        assert_eq!(String::from_utf8(output()).as_deref(), Ok(expected));
    }
}
