//! A day of document 01 from opening to end: what the film sends and needs, the bookings, and every round's report. Each call
//! is answered by a line as the program `hall` prints it.

use playback::{Desk, FilmFile, Limits, Refusal, Request};

/// Film 1, of sizes 8, 8, 8, 2, 6, 4, in the layout of a film file.
const FILE: [u8; 34] = [
    1, 0, // one film
    1, 0, 6, 0, // number 1, 6 rounds
    6, 0, 0, 0, // 6 sizes
    8, 0, 0, 0, 8, 0, 0, 0, 8, 0, 0, 0, 2, 0, 0, 0, 6, 0, 0, 0, 4, 0, 0, 0,
];
const PREFETCH: u64 = 1;
const RESERVE: u64 = 6;

fn print_film(films: FilmFile) -> Result<(), Refusal> {
    for entry in films.entries() {
        let summary = films.summary(entry.number.into())?;
        println!(
            "film {}: {} rounds, {} bytes, largest {}, mean {}",
            entry.number, entry.rounds, summary.total, summary.largest, summary.mean
        );
    }
    let least = films.least_reserve(1, PREFETCH, 12)?;
    println!("least reserve with 12 bytes of memory: {least}");
    print!("read by the end of each round:");
    for total in films.schedule(1, PREFETCH, RESERVE)? {
        print!(" {total}");
    }
    println!();
    Ok(())
}

fn book(desk: &mut Desk, name: u32, cabs: u64, first: u64, last: u64) {
    let request = Request {
        name,
        film: 1,
        prefetch: PREFETCH,
        reserve: RESERVE,
        cabs,
        first,
        last,
    };
    match desk.book(request) {
        Ok(booked) => println!("BOOKED {name} {}", booked.start),
        Err(refusal) => println!("NO {}", refusal.number()),
    }
}

fn play(desk: &mut Desk) {
    match desk.play() {
        Ok(played) => {
            println!("ROUND {} {} {}", played.round, played.films, played.cabs);
            for line in played.lines {
                println!("{} {} {} {}", line.name, line.read, line.send, line.held);
            }
        }
        Err(refusal) => println!("NO {}", refusal.number()),
    }
}

fn main() -> Result<(), Refusal> {
    let films = FilmFile::new(&FILE)?;
    print_film(films)?;
    let limits = Limits {
        rounds: 20,
        disk: 141_433,
        memory: 18,
    };
    let mut desk = Desk::open(films, limits)?;
    println!("OPENED");
    book(&mut desk, 1, 0b01, 0, 0);
    book(&mut desk, 2, 0b10, 0, 10);
    book(&mut desk, 3, 0b01, 0, 5);
    play(&mut desk);
    play(&mut desk);
    // Booking 2 makes way; booking 4 shows on both cabs from the round after the last one of booking 1.
    desk.drop_booking(2)?;
    println!("DROPPED 2");
    book(&mut desk, 4, 0b11, 2, 10);
    while desk.day().now < desk.day().rounds {
        play(&mut desk);
    }
    play(&mut desk);
    Ok(())
}
