//! Calls on drawn days: opening, booking, dropping, playing.

use crate::broken::{break_day, break_request, short_of_memory};
use crate::calls::{book_call, drop_call, open_call, play_call};
use crate::case::Case;
use crate::compare::{Compared, Harness};
use crate::draw::Scale;
use crate::tally::Function;
use reference::bounds::{MAX_DAY_ROUNDS, MAX_DISK, MAX_MEMORY};
use reference::cases::random::Random;
use reference::day::{Day, Request};

/// Counts the calls of each function, so that each aims at one refusal after another.
#[derive(Clone, Copy, Debug, Default)]
pub struct Turns {
    turns: [u64; 4],
}

impl Turns {
    /// The refusal to aim at: every other time the next of the function's, else none.
    fn aim(&mut self, function: Function) -> u32 {
        let turn = &mut self.turns[function as usize - Function::Open as usize];
        *turn += 1;
        if turn.is_multiple_of(2) {
            return 0;
        }
        let refusals = function.refusals();
        // 16 and 22 come about in many ways.
        let often = [16, 16, 22, 22]
            .into_iter()
            .filter(|number| refusals.contains(number));
        let aims: Vec<u32> = refusals.iter().copied().chain(often).collect();
        aims[(*turn / 2) as usize % aims.len()]
    }
}

/// Some calls on one drawn day, each on the day as the last accepted one left it.
pub fn calls(
    harness: &mut Harness,
    random: &mut Random,
    turns: &mut Turns,
    scale: Scale,
    count: usize,
) -> Compared {
    let mut case = Case::draw(random, scale);
    for _ in 0..count {
        if random.once_in(3) {
            case.set_lists(random);
        }
        let function = random.pick(&[
            Function::Open,
            Function::Book,
            Function::Book,
            Function::Book,
            Function::Book,
            Function::Drop,
            Function::Drop,
            Function::Play,
            Function::Play,
            Function::Play,
        ]);
        let aim = turns.aim(function);
        let mut lent = case.clone();
        let other = if aim != 0 && random.once_in(5) {
            random.pick(function.refusals())
        } else {
            0
        };
        // The list is broken first, while the day is still whole.
        let mut broken = vec![aim, other];
        broken.sort_by_key(|&number| number != 16);
        broken.dedup();
        for number in broken {
            break_day(random, &mut lent, number);
        }
        let accepted = match function {
            Function::Open => drawn_open(harness, random, &mut lent, aim)?,
            Function::Book => drawn_book(harness, random, &mut lent, aim)?,
            Function::Drop => drawn_drop(harness, random, &mut lent, aim)?,
            _ => drawn_play(harness, random, &mut lent, aim)?,
        };
        // An opening takes every booking away: the day goes on as it was.
        if accepted && function != Function::Open {
            case = lent;
        }
    }
    Ok(())
}

fn drawn_open(
    harness: &mut Harness,
    random: &mut Random,
    case: &mut Case,
    aim: u32,
) -> Compared<bool> {
    let Day {
        mut rounds,
        mut disk,
        mut memory,
        ..
    } = case.day;
    match aim {
        14 => rounds = random.pick(&[0, MAX_DAY_ROUNDS + 1, 1 << 32, u64::MAX]),
        15 => {
            disk = random.pick(&[disk, MAX_DISK + 1, u64::MAX]);
            memory = random.pick(&[MAX_MEMORY + 1, u64::MAX]);
        }
        11 => {}
        _ => rounds = 1 + random.below(rounds.clamp(1, MAX_DAY_ROUNDS)),
    }
    open_call(harness, case, rounds, disk, memory)
}

fn drawn_book(
    harness: &mut Harness,
    random: &mut Random,
    case: &mut Case,
    aim: u32,
) -> Compared<bool> {
    let mut request = if (1..=MAX_DAY_ROUNDS).contains(&case.day.rounds) && fits_day(case) {
        case.request(random)
    } else {
        Request {
            name: random.bits() as u32,
            film: random.below(1 << 17),
            last: random.bits(),
            ..Request::default()
        }
    };
    if aim == 22 && random.once_in(4) {
        short_of_memory(case, &mut request);
    } else {
        break_request(random, case, &mut request, aim);
    }
    if aim == 0 && request.cabs != 0 && random.once_in(2) {
        case.tighten(random, &mut request);
    }
    book_call(harness, case, &request)
}

/// Whether every stream has its rounds in the day, which may have been made shorter.
fn fits_day(case: &Case) -> bool {
    let longest = case.streams.iter().map(|stream| stream.rounds()).max();
    longest <= Some(case.day.rounds)
}

fn drawn_drop(
    harness: &mut Harness,
    random: &mut Random,
    case: &mut Case,
    aim: u32,
) -> Compared<bool> {
    let name = match case.standing_one(random) {
        Some(booking) if aim != 19 => booking.name,
        _ => random.bits() as u32,
    };
    drop_call(harness, case, name)
}

fn drawn_play(
    harness: &mut Harness,
    random: &mut Random,
    case: &mut Case,
    aim: u32,
) -> Compared<bool> {
    if aim != 14 && aim != 23 && case.day.rounds > 0 && random.below(4) > 0 {
        case.move_to(random);
        if case.day.now == case.day.rounds && aim == 0 {
            case.day.now = 0;
        }
    }
    let open = case.open_films();
    let lines = if aim == 11 {
        open.saturating_sub(1)
    } else {
        open + random.pick(&[0, 0, 1, 300])
    };
    case.set_report(random, lines);
    play_call(harness, case)
}
