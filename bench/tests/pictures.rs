//! The example day's picture, and what it says of refused bookings.

use bench::picture::draw::draw;
use bench::picture::example::films;
use bench::picture::record::Record;
use reference::console::session;

const FILMS: &[u8] = include_bytes!("../day/films.bin");
const COMMANDS: &[u8] = include_bytes!("../day/commands");
const PICTURE: &str = include_str!("../../docs/pictures/day.svg");

#[test]
fn the_example_is_what_the_documents_show() {
    assert_eq!(films(), FILMS);
    assert!(
        draw(&Record::of_session(FILMS, COMMANDS)) == PICTURE,
        "`make picture` writes it anew"
    );
}

#[test]
fn a_session_and_its_journal_give_one_picture() {
    let day = Record::of_session(FILMS, COMMANDS);
    let journal = Record::journal_of(COMMANDS);
    let limits = (day.day.rounds, day.day.disk, day.day.memory);
    let again = Record::of_journal(FILMS, limits.0, limits.1, limits.2, &journal);
    assert!(draw(&day) == draw(&again));
}

#[test]
fn the_record_has_the_answers_of_the_program() {
    let record = Record::of_session(FILMS, COMMANDS);
    let output = session(FILMS, COMMANDS);
    let lines = |word: &str| output.lines().filter(|line| line.starts_with(word)).count();
    assert_eq!(lines("BOOKED"), record.accepted.len());
    assert_eq!(lines("NO"), record.refused.len());
    for refused in &record.refused {
        assert!(output.contains(&format!("NO {}\n", refused.number)));
    }
}

#[test]
fn every_start_of_a_booking_refused_22_is_refused_by_something() {
    let record = Record::of_session(FILMS, COMMANDS);
    let blocked = record.refused.iter().filter_map(|one| one.blocked.as_ref());
    assert!(blocked.clone().count() > 2);
    for blocked in blocked {
        let strips = blocked.disk.iter().zip(&blocked.memory).zip(&blocked.cabs);
        for ((disk, memory), cabs) in strips {
            assert!(disk | memory | cabs);
        }
    }
}
