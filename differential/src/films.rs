//! Calls on a film file: its verdict, entries, summaries, sizes, schedules and least reserves.

use crate::compare::{same, Compared, Harness, Lent};
use crate::draw::{
    broken, films, missing_film, prefetch_past_the_bound, reserve_past_the_bound, streams,
    too_small, Stream, ALL_KINDS,
};
use crate::tally::Function;
use playback::lent;
use reference::bounds::{MAX_FILMS, MAX_FILM_ROUNDS};
use reference::cases::random::Random;
use reference::film_file::{decode, encode, find, summary, verdict, Film, Reader};
use reference::refusal::Refusal;
use reference::schedule::{least_reserve, schedule};

/// The paper's number.
pub fn number(refusal: Refusal) -> u32 {
    refusal.number() as u32
}

fn drawn_films(random: &mut Random) -> Vec<Film> {
    let most = random.pick(&[2, 5, MAX_FILMS as u64]);
    let most_rounds = random.pick(&[1, 12, 200, MAX_FILM_ROUNDS as u64]);
    films(random, most, most_rounds)
}

/// A file, whole or refused with the number.
fn file(random: &mut Random, films: &[Film], wanted: u32) -> Vec<u8> {
    match wanted {
        1..=7 => broken(random, films, wanted),
        _ => encode(films),
    }
}

/// The refusal to aim at in this turn: each of the function's and none, one after another.
fn aim(function: Function, turn: u64) -> u32 {
    let refusals = function.refusals();
    let turn = turn % (refusals.len() as u64 + 2);
    refusals.get(turn as usize).copied().unwrap_or(0)
}

/// The reader's calls, once each on a file of its own.
pub fn reader_calls(harness: &mut Harness, random: &mut Random, turn: u64) -> Compared {
    let films = drawn_films(random);
    let mut lent_file = file(random, &films, aim(Function::Verdict, turn));
    verdict_call(harness, &lent_file)?;
    if random.once_in(2) && !lent_file.is_empty() {
        let place = random.below(lent_file.len() as u64) as usize;
        lent_file[place] ^= 1 << random.below(8);
        verdict_call(harness, &lent_file)?;
    }
    let lent_file = file(random, &films, aim(Function::Film, turn));
    let last = films.len() as u64 - 1;
    for position in [0, last, last + 1, random.bits(), u64::MAX] {
        film_call(harness, &lent_file, position)?;
    }
    let wanted = aim(Function::Summary, turn);
    let lent_file = file(random, &films, wanted);
    let asked = asked_film(random, &films, wanted);
    summary_call(harness, &lent_file, asked)?;
    let wanted = aim(Function::RoundSize, turn);
    let lent_file = file(random, &films, wanted);
    let film = asked_film(random, &films, wanted);
    let rounds = [0, random.below(4_097), random.bits(), u64::MAX, 1 << 62];
    round_size_call(harness, &lent_file, film, random.pick(&rounds))?;
    let n = find(&films, film).map_or(1, |film| film.sizes.len() as u64);
    round_size_call(harness, &lent_file, film, n - 1)?;
    round_size_call(harness, &lent_file, film, n)
}

fn asked_film(random: &mut Random, films: &[Film], wanted: u32) -> u64 {
    if wanted == 8 {
        missing_film(random, films)
    } else {
        u64::from(films[random.below(films.len() as u64) as usize].number)
    }
}

pub fn verdict_call(harness: &mut Harness, file: &[u8]) -> Compared {
    let (expected, found) =
        harness.call(Function::Verdict, || verdict(file), || lent::verdict(file));
    let expected = expected.err().map_or(0, number);
    harness.tally.answer(Function::Verdict, expected);
    same("verdict", &expected, &found)
}

fn film_call(harness: &mut Harness, file: &[u8], position: u64) -> Compared {
    let (expected, found) = harness.call(
        Function::Film,
        || {
            let place = usize::try_from(position).unwrap_or(usize::MAX);
            Reader::start(file).map(|mut reader| reader.nth(place))
        },
        || lent::film(file, position),
    );
    let expected = match expected {
        Ok(Some(entry)) => lent::Film {
            refusal: 0,
            more: 1,
            number: entry.number.into(),
            rounds: entry.rounds.into(),
        },
        Ok(None) => lent::Film::default(),
        Err(refusal) => lent::Film {
            refusal: number(refusal),
            ..lent::Film::default()
        },
    };
    harness.tally.answer(Function::Film, expected.refusal);
    same("film", &expected, &found)
}

fn summary_call(harness: &mut Harness, file: &[u8], film: u64) -> Compared {
    let (expected, found) = harness.call(
        Function::Summary,
        || summary(file, film),
        || lent::summary(file, film),
    );
    let expected = match expected {
        Ok(summary) => lent::Figures {
            refusal: 0,
            total: summary.total,
            largest: summary.largest,
            mean: summary.mean,
        },
        Err(refusal) => lent::Figures {
            refusal: number(refusal),
            ..lent::Figures::default()
        },
    };
    harness.tally.answer(Function::Summary, expected.refusal);
    same("summary", &expected, &found)
}

fn round_size_call(harness: &mut Harness, file: &[u8], film: u64, round: u64) -> Compared {
    let size = || -> Result<Option<u64>, Refusal> {
        let films = decode(file)?;
        let sizes = &find(&films, film)?.sizes;
        let place = usize::try_from(round).unwrap_or(usize::MAX);
        Ok(sizes.get(place).map(|&size| u64::from(size)))
    };
    let (expected, found) = harness.call(Function::RoundSize, size, || {
        lent::round_size(file, film, round)
    });
    let expected = match expected {
        Ok(Some(bytes)) => lent::Size {
            refusal: 0,
            exists: 1,
            bytes,
        },
        Ok(None) => lent::Size::default(),
        Err(refusal) => lent::Size {
            refusal: number(refusal),
            ..lent::Size::default()
        },
    };
    harness.tally.answer(Function::RoundSize, expected.refusal);
    same("round_size", &expected, &found)
}

/// Schedules and least reserves of one drawn file.
pub fn schedule_calls(harness: &mut Harness, random: &mut Random, turn: u64) -> Compared {
    let films = drawn_films(random);
    let streams = streams(random, &films, 2, u64::MAX, &ALL_KINDS);
    for (index, stream) in streams.iter().enumerate() {
        let turn = 2 * turn + index as u64;
        drawn_schedule(harness, random, &films, stream, turn)?;
        drawn_least_reserve(harness, random, &films, stream, turn)?;
    }
    Ok(())
}

fn drawn_schedule(
    harness: &mut Harness,
    random: &mut Random,
    films: &[Film],
    stream: &Stream,
    turn: u64,
) -> Compared {
    let wanted = aim(Function::Schedule, turn);
    let file = file(random, films, wanted);
    let mut film = u64::from(stream.film);
    let (mut prefetch, mut reserve) = (stream.prefetch, stream.reserve);
    let mut places = stream.rounds() + random.pick(&[0, 0, 1, 9]);
    match wanted {
        8 => film = missing_film(random, films),
        9 => prefetch = prefetch_past_the_bound(random, prefetch),
        10 => reserve = reserve_past_the_bound(random, reserve),
        11 => {
            let fewer = random.below(stream.rounds());
            places = random.pick(&[0, stream.rounds() - 1, fewer]);
        }
        12 => reserve = too_small(films, stream).unwrap_or(reserve),
        _ => {}
    }
    if random.once_in(4) {
        let any = random.below(1 << 24);
        reserve = random.pick(&[0, any, 16_777_215]);
    }
    let before: Vec<u64> = (0..places).map(|_| random.bits()).collect();
    let around = random.bits();
    let mut expected_totals = before.clone();
    let mut totals = Lent::new(&before, around);
    let (expected, found) = harness.call(
        Function::Schedule,
        || schedule(&file, film, prefetch, reserve, &mut expected_totals),
        || lent::schedule(&file, film, prefetch, reserve, totals.list()),
    );
    let expected = expected.err().map_or(0, number);
    harness.tally.answer(Function::Schedule, expected);
    same("schedule", &expected, &found)?;
    totals.compare("the schedule's totals", &expected_totals, around)
}

fn drawn_least_reserve(
    harness: &mut Harness,
    random: &mut Random,
    films: &[Film],
    stream: &Stream,
    turn: u64,
) -> Compared {
    let wanted = aim(Function::LeastReserve, turn);
    let file = file(random, films, wanted);
    let mut film = u64::from(stream.film);
    let mut prefetch = stream.prefetch;
    let sizes = &find(films, film).expect("the stream's film").sizes;
    let largest = sizes.iter().copied().max().map_or(0, u64::from);
    let peak = stream.held.iter().copied().max().unwrap_or(0);
    let mut cap = random.pick(&[largest, largest + 1, peak, 3 * largest, u64::MAX]);
    match wanted {
        8 => film = missing_film(random, films),
        9 => prefetch = prefetch_past_the_bound(random, prefetch),
        13 => cap = random.pick(&[0, largest.saturating_sub(1)]),
        _ => {}
    }
    let (expected, found) = harness.call(
        Function::LeastReserve,
        || least_reserve(&file, film, prefetch, cap),
        || lent::least_reserve(&file, film, prefetch, cap),
    );
    let expected = match expected {
        Ok(bytes) => lent::Reserve { refusal: 0, bytes },
        Err(refusal) => lent::Reserve {
            refusal: number(refusal),
            bytes: 0,
        },
    };
    harness
        .tally
        .answer(Function::LeastReserve, expected.refusal);
    same("least_reserve", &expected, &found)
}
