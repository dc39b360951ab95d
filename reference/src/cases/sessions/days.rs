//! Days before they are opened, opened, refused, played to the end, and full.

use crate::cases::script::Script;
use crate::console::{LIST_PLACES, SHEET_ROUNDS};
use std::fmt::Write;

/// Before OPEN, after a refused one, opened again, and played to its end and beyond.
pub fn days(script: &mut Script) {
    script.session(
        "BOOK 1 1 1 6 1 0 0\nDROP 1\nPLAY\nOPEN 0 0 0\nPLAY\nOPEN 1025 0 0\nPLAY\nDROP 5\n",
    );
    // A refused OPEN leaves the day before it; an accepted one clears it.
    script.session(
        "OPEN 20 141433 18\nBOOK 1 1 1 6 1 0 0\nPLAY\nOPEN 0 1 1\nPLAY\nOPEN 20 4294967296 1\nPLAY\nOPEN 1025 1 1\n\
         BOOK 1 1 1 6 1 9 9\nPLAY\nOPEN 20 141433 18\nPLAY\nDROP 1\nBOOK 1 1 1 6 1 9 9\nBOOK 2 1 1 6 1 0 9\nPLAY\n",
    );
    for rounds in [1, 7, 12, SHEET_ROUNDS as u32] {
        let mut input =
            format!("OPEN {rounds} 300000 60\nBOOK 4 1 1 6 3 0 0\nBOOK 5 1 0 8 6 0 6\n");
        for _ in 0..rounds.min(20) + 2 {
            input += "PLAY\n";
        }
        input += "BOOK 6 1 0 8 6 0 6\nBOOK 7 1 0 8 6 12 12\nDROP 4\nDROP 4\nPLAY\nBOOK 4 1 0 8 6 30 1018\n";
        script.session(&input);
    }
    // The whole day of 1,024 rounds, and a booking that ends with it.
    let plays = "PLAY\n".repeat(1_026);
    script.session(&format!(
        "OPEN 1024 300000 60\nBOOK 1 1 1 6 9 1017 1017\n{plays}"
    ));
}

/// The films of two shifts on one cab, two rounds too early to two rounds late, with every pre-fetch up to 2, each played
/// past the shift change.
pub fn shift_changes(script: &mut Script) {
    for leaving in 0..3 {
        for coming in 0..3 {
            let mut input = String::new();
            for distance in 0..5 {
                let first = 3 + leaving + 6 - coming + distance - 2;
                writeln!(
                    input,
                    "OPEN 30 250000 60\nBOOK 1 1 {leaving} 8 5 3 3\nBOOK 2 1 {coming} 8 4 {first} {first}\n\
                     BOOK 3 1 {coming} 8 1 {first} {}",
                    first + 1
                )
                .expect("text");
                input += &"PLAY\n".repeat(24);
            }
            script.session(&input);
        }
    }
}

/// 64 bookings of film 1, the last place of the list, and one more; then drops, and bookings in the places freed.
pub fn full_list() -> String {
    let mut input = "OPEN 1024 2000000 9000\n".to_string();
    for name in 0..=LIST_PLACES {
        writeln!(input, "BOOK {name} 1 1 6 {} 0 900", 1_u64 << (name % 64)).expect("text");
    }
    input += "PLAY\nPLAY\nDROP 63\nDROP 0\nPLAY\nBOOK 90 1 1 6 1 3 900\nBOOK 91 1 1 6 1 3 900\nBOOK 92 1 1 6 1 3 900\nPLAY\n";
    input + &"PLAY\n".repeat(9)
}
