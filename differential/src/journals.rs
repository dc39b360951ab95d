//! Journals: whole days replayed, every word of the log and every lent place compared.

use crate::broken::break_request;
use crate::calls::{to_day, Lists, AROUND};
use crate::case::{garbage_list, Case};
use crate::compare::{same, Compared, Harness, Lent};
use crate::draw::{broken, Scale};
use crate::films::number;
use crate::tally::Function;
use playback::journal::{ANSWER, BOOK, DROP, ENTRY, PLAY};
use playback::lent;
use reference::bounds::{MAX_BOOKINGS, MAX_DAY_ROUNDS, MAX_DISK, MAX_MEMORY};
use reference::cases::random::Random;
use reference::day::{Day, Line, Request};
use reference::desk;
use reference::refusal::Refusal;

/// One journal on a drawn day, opened empty.
pub fn call(harness: &mut Harness, random: &mut Random, scale: Scale, turn: u64) -> Compared {
    let mut case = Case::draw(random, scale);
    let mut opening = case.day;
    let journal = journal(random, &mut case, scale, turn);
    if turn % 5 == 1 {
        let number = 1 + (turn / 5 % 7) as u32;
        case.file = broken(random, &case.films, number);
    }
    match turn % 20 {
        3 => opening.rounds = random.pick(&[0, MAX_DAY_ROUNDS + 1, u64::MAX]),
        8 => opening.disk = random.pick(&[MAX_DISK + 1, u64::MAX]),
        13 => opening.memory = random.pick(&[MAX_MEMORY + 1, u64::MAX]),
        18 => case.sheet.reserves.truncate(opening.rounds as usize - 1),
        _ => {}
    }
    let words = match random.below(4) {
        0 => random.below(3 * journal.len() as u64 / ENTRY as u64 + 1),
        _ => 4_000 + 100 * journal.len() as u64,
    };
    let log = garbage_list(random, words as usize);
    compare(harness, &mut case, opening, &journal, log)
}

/// Entries for the day, and words after the last one. The case is left with a list of few or many places, none of them taken.
fn journal(random: &mut Random, case: &mut Case, scale: Scale, turn: u64) -> Vec<u64> {
    case.day.now = 0;
    let mut journal = Vec::new();
    for index in 0..scale.bookings + random.below(20) {
        let aim = Function::Entry.refusals()[((turn + index) % 20) as usize];
        journal.extend(entry(random, case, aim));
    }
    // Words that make no whole entry.
    journal.extend(garbage_list(random, turn as usize % ENTRY));
    let left = case.records.split_off(case.day.count as usize);
    let places = random.pick(&[0, 1, 3, 40, 256, 300]);
    case.records = (0..places)
        .map(|place| left.get(place).copied().unwrap_or_default())
        .collect();
    journal
}

/// An entry, often one that is refused with the number.
fn entry(random: &mut Random, case: &Case, aim: u32) -> [u64; ENTRY] {
    let mut words = [0; ENTRY];
    for word in &mut words {
        *word = random.bits();
    }
    let standing = case.standing_one(random).map_or(5, |booking| booking.name);
    let name = u64::from(random.pick(&[standing, 5, 6]));
    let kind = match aim {
        24 => random.pick(&[0, 4, u64::MAX, BOOK, DROP]),
        19 => DROP,
        23 | 11 => PLAY,
        _ => random.pick(&[BOOK, BOOK, BOOK, PLAY, PLAY, DROP]),
    };
    words[0] = kind;
    match kind {
        BOOK => {
            let mut request = case.request(random);
            if random.once_in(2) {
                break_request(random, case, &mut request, aim);
            }
            words[1] = u64::from(request.name);
            words[2..].copy_from_slice(&[
                request.film,
                request.prefetch,
                request.reserve,
                request.cabs,
                request.first,
                request.last,
            ]);
        }
        PLAY => words[1] = random.pick(&[0, 1, 256, 256, u64::MAX]),
        _ => words[1] = name,
    }
    if aim == 24 {
        words[1] |= random.pick(&[1 << 32, 1 << 63]);
    }
    words
}

/// What an entry answers and the lines of a played round.
type Answered = (Result<[u64; 2], Refusal>, Vec<Line>);

/// Carries an entry out by the second implementation.
fn carry_out(case: &mut Case, entry: &[u64]) -> Answered {
    let name = u32::try_from(entry[1]);
    match (entry[0], name) {
        (BOOK, Ok(name)) => {
            let request = Request {
                name,
                film: entry[2],
                prefetch: entry[3],
                reserve: entry[4],
                cabs: entry[5],
                first: entry[6],
                last: entry[7],
            };
            let (day, records, sheet) = (&mut case.day, &mut case.records, &mut case.sheet);
            let booked = desk::book(&case.file, day, records, sheet, &request);
            (booked.map(|start| [start, 0]), Vec::new())
        }
        (DROP, Ok(name)) => {
            let (day, records, sheet) = (&mut case.day, &mut case.records, &mut case.sheet);
            let dropped = desk::drop_booking(&case.file, day, records, sheet, name);
            (dropped.map(|()| [0, 0]), Vec::new())
        }
        (PLAY, _) => {
            let mut report = vec![Line::default(); entry[1].min(MAX_BOOKINGS) as usize];
            let played = desk::play(&case.file, &mut case.day, &case.records, &mut report);
            let lines = played.as_ref().map_or(0, |played| played.open as usize);
            report.truncate(lines);
            (played.map(|played| [played.open, played.cabs]), report)
        }
        _ => (Err(Refusal::NotACommand), Vec::new()),
    }
}

/// The replay by the second implementation: what the case becomes, the log, and the answers' numbers.
fn replay(
    case: &mut Case,
    opening: Day,
    journal: &[u64],
    log: &mut [u64],
) -> (lent::Replayed, Vec<u32>) {
    case.day = Day::default();
    let Day {
        rounds,
        disk,
        memory,
        ..
    } = opening;
    let opened = desk::open(&mut case.day, &mut case.sheet, rounds, disk, memory);
    let mut replayed = lent::Replayed::default();
    if let Err(refusal) = opened {
        replayed.refusal = number(refusal);
        return (replayed, Vec::new());
    }
    let mut numbers = Vec::new();
    let mut written = 0;
    for entry in journal.chunks_exact(ENTRY) {
        if log.len() - written < ANSWER {
            break;
        }
        let before = case.day;
        let (answer, lines) = carry_out(case, entry);
        let refusal = answer.as_ref().err().map_or(0, |&refusal| number(refusal));
        let [first, second] = answer.unwrap_or([0, 0]);
        let mut words = vec![u64::from(refusal), first, second];
        for line in lines {
            words.extend([u64::from(line.name), line.read, line.send, line.held]);
        }
        if log.len() - written < words.len() {
            // Only a played round has more than three words, and of what is lent it changes the day alone.
            case.day = before;
            break;
        }
        log[written..written + words.len()].copy_from_slice(&words);
        written += words.len();
        numbers.push(refusal);
    }
    replayed.entries = numbers.len() as u64;
    replayed.words = written as u64;
    replayed.day = to_day(case.day);
    (replayed, numbers)
}

fn compare(
    harness: &mut Harness,
    case: &mut Case,
    opening: Day,
    journal: &[u64],
    before: Vec<u64>,
) -> Compared {
    let mut lists = Lists::new(case);
    let mut log = Lent::new(&before, AROUND);
    let mut expected_log = before;
    let file = case.file.clone();
    let ((expected, numbers), found) = harness.call(
        Function::Replay,
        || replay(case, opening, journal, &mut expected_log),
        || {
            lent::replay(
                &file,
                opening.rounds,
                opening.disk,
                opening.memory,
                lists.records.list(),
                journal,
                log.list(),
                lists.opens.list(),
                lists.reserves.list(),
                lists.helds.list(),
            )
        },
    );
    harness.tally.answer(Function::Replay, expected.refusal);
    for number in numbers {
        harness.tally.answer(Function::Entry, number);
    }
    same("replay", &expected, &found)?;
    log.compare("log", &expected_log, AROUND)?;
    lists.compare(case)
}
