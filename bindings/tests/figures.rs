//! Document 01's figures for film 1, and what a desk keeps.

use playback::journal::{Answer, Call};
use playback::{Booking, Day, Desk, FilmFile, Limits, Refusal, Request};

const FILE: [u8; 34] = [
    1, 0, 1, 0, 6, 0, 6, 0, 0, 0, 8, 0, 0, 0, 8, 0, 0, 0, 8, 0, 0, 0, 2, 0, 0, 0, 6, 0, 0, 0, 4, 0,
    0, 0,
];

fn films() -> FilmFile<'static> {
    FilmFile::new(&FILE).expect("film 1")
}

fn open(disk: u64, memory: u64) -> Desk<'static> {
    let limits = Limits {
        rounds: 20,
        disk,
        memory,
    };
    Desk::open(films(), limits).expect("opened")
}

fn request(name: u32, cabs: u64, last: u64) -> Request {
    Request {
        name,
        film: 1,
        prefetch: 1,
        reserve: 6,
        cabs,
        first: 0,
        last,
    }
}

#[test]
fn schedules_and_reserves() {
    let films = films();
    assert_eq!(films.schedule(1, 1, 6), Ok(vec![6, 12, 18, 24, 26, 32, 36]));
    assert_eq!(films.schedule(1, 0, 7), Err(Refusal::NoSchedule));
    assert_eq!(films.schedule(1, 0, 8), Ok(vec![8, 16, 24, 26, 32, 36]));
    assert_eq!(films.schedule(1, 1, 5), Err(Refusal::NoSchedule));
    assert_eq!(films.schedule(2, 1, 5), Err(Refusal::NoFilm));
    assert_eq!(films.schedule(1, 257, 5), Err(Refusal::Prefetch));
    assert_eq!(films.schedule(1, 256, 1 << 24), Err(Refusal::Reserve));
    let least = |cap| films.least_reserve(1, 1, cap);
    assert_eq!((least(12), least(11), least(8)), (Ok(6), Ok(7), Ok(8)));
    assert_eq!(least(7), Err(Refusal::Cap));
}

#[test]
fn entries_end_and_stay_at_the_end() {
    let mut entries = films().entries();
    assert_eq!(entries.next().map(|entry| entry.rounds), Some(6));
    assert_eq!((entries.next(), entries.next()), (None, None));
    assert_eq!(films().round_size(1, 5), Ok(Some(4)));
    assert_eq!(films().round_size(1, 6), Ok(None));
    assert_eq!(films().round_size(0, 0), Err(Refusal::NoFilm));
}

#[test]
fn first_starts() {
    for (disk, memory, cabs, start) in [
        (141_433, 18, 2, 3),
        (141_433, 15, 2, 6),
        (141_432, 18, 2, 7),
        (141_433, 18, 1, 6),
    ] {
        let mut desk = open(disk, memory);
        assert_eq!(
            desk.book(request(1, 1, 0)).map(|booked| booked.start),
            Ok(0)
        );
        let booked = desk.book(request(2, cabs, 10));
        assert_eq!(booked.map(|booked| booked.start), Ok(start));
    }
}

#[test]
fn the_sheet_and_the_list() {
    let mut desk = open(141_433, 18);
    desk.book(request(1, 1, 0)).expect("booked");
    desk.book(request(2, 2, 10)).expect("booked");
    assert_eq!(desk.sheet().opens[..11], [1, 1, 1, 2, 2, 2, 2, 1, 1, 1, 0]);
    assert_eq!(desk.sheet().helds[..4], [6, 12, 10, 8 + 6]);
    assert_eq!(desk.sheet().reserves[3], 12);
    assert_eq!(desk.book(request(2, 2, 10)), Err(Refusal::NameTaken));
    assert_eq!(desk.drop_booking(9), Err(Refusal::NoName));
    desk.drop_booking(1).expect("dropped");
    let names: Vec<u32> = desk.bookings().iter().map(|booking| booking.name).collect();
    assert_eq!((names, desk.day().count), (vec![2], 1));
    assert_eq!(desk.sheet().opens[..4], [0, 0, 0, 1]);
}

#[test]
fn openings_that_are_refused() {
    let open = |rounds, disk, memory| {
        let limits = Limits {
            rounds,
            disk,
            memory,
        };
        Desk::open(films(), limits).map(|_| ())
    };
    assert_eq!(open(0, 0, 0), Err(Refusal::DayRounds));
    assert_eq!(open(86_401, 0, 0), Err(Refusal::DayRounds));
    assert_eq!(open(u64::MAX, u64::MAX, 0), Err(Refusal::DayRounds));
    assert_eq!(open(86_400, 1 << 32, 0), Err(Refusal::DayLimits));
    assert_eq!(open(86_400, (1 << 32) - 1, 1 << 40), Ok(()));
}

#[test]
fn a_day_kept_elsewhere() {
    let mut desk = open(141_433, 18);
    desk.book(request(1, 1, 0)).expect("booked");
    let (day, records) = (desk.day(), desk.bookings().to_vec());
    let mut again = Desk::resume(films(), day, records.clone());
    assert_eq!(
        again.book(request(2, 2, 10)).map(|booked| booked.start),
        Ok(3)
    );
    // A list that nobody could have booked.
    let mut twice = Desk::resume(films(), Day { count: 2, ..day }, vec![records[0]; 2]);
    assert_eq!(twice.play().map(|_| ()), Err(Refusal::Unsound));
    let mut past = Desk::resume(
        films(),
        Day { count: 257, ..day },
        vec![Booking::default(); 300],
    );
    assert_eq!(past.drop_booking(1), Err(Refusal::Unsound));
    assert_eq!(past.bookings().len(), 257);
    let far = Day {
        rounds: u64::MAX,
        ..day
    };
    assert_eq!(
        Desk::resume(films(), far, records).drop_booking(1),
        Err(Refusal::DayRounds)
    );
}

#[test]
fn a_whole_day_replayed() {
    let mut calls = vec![
        Call::Book(request(1, 1, 0)),
        Call::Book(request(2, 2, 10)),
        Call::Book(request(3, 1, 5)),
        Call::Drop(7),
    ];
    calls.extend([Call::Play(1); 21]);
    let mut journal: Vec<u64> = calls.iter().flat_map(Call::words).collect();
    journal.extend([9; 8 + 5]);
    let limits = Limits {
        rounds: 20,
        disk: 141_433,
        memory: 18,
    };
    let (replayed, answers) = Desk::replay(films(), limits, &journal).expect("opened");
    let mut desk = open(141_433, 18);
    let mut expected = Vec::new();
    for call in calls {
        expected.push(match call {
            Call::Book(request) => match desk.book(request) {
                Ok(booked) => Answer::Booked {
                    start: booked.start,
                },
                Err(refusal) => Answer::Refused(refusal),
            },
            Call::Drop(name) => match desk.drop_booking(name) {
                Ok(()) => Answer::Dropped,
                Err(refusal) => Answer::Refused(refusal),
            },
            // Two films are open in rounds 3 to 6: a report of one line is too short from there on.
            Call::Play(_) if desk.day().now == 3 => Answer::Refused(Refusal::NoRoom),
            Call::Play(_) => match desk.play() {
                Ok(played) => Answer::Played {
                    lines: played.lines.to_vec(),
                    cabs: played.cabs,
                },
                Err(refusal) => Answer::Refused(refusal),
            },
        });
    }
    expected.push(Answer::Refused(Refusal::Command));
    assert_eq!(answers, expected);
    assert_eq!(replayed.day(), desk.day());
    assert_eq!(replayed.bookings(), desk.bookings());
    assert_eq!(replayed.sheet(), desk.sheet());
    let none = Limits::default();
    assert_eq!(
        Desk::replay(films(), none, &journal).map(|_| ()),
        Err(Refusal::DayRounds)
    );
}
