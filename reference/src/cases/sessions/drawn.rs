//! Drawn sessions: hostile ones, legal ones, and both in pieces.

use super::{draw, film};
use crate::cases::random::Random;
use crate::cases::script::Script;
use crate::film_file::encode;

/// Sessions of drawn bytes, of drawn words, and drawn sessions with a byte changed here and there.
pub fn hostile_sessions(script: &mut Script, random: &mut Random) {
    for _ in 0..20 {
        let bytes: Vec<u8> = (0..60)
            .map(|_| {
                if random.once_in(6) {
                    b'\n'
                } else {
                    random.bits() as u8
                }
            })
            .collect();
        script.begin().feed(&bytes).end();
    }
    let words = [
        "OPEN",
        "BOOK",
        "DROP",
        "PLAY",
        " ",
        " ",
        " ",
        " ",
        "\n",
        "\n",
        "0",
        "1",
        "7",
        "20",
        "200000",
        "00",
        "\r",
        "x",
        "4294967296",
    ];
    for _ in 0..40 {
        let mut input = "OPEN 20 200000 60\n".to_string();
        for _ in 0..40 {
            input += random.pick(&words);
        }
        script.session(&input);
    }
    for _ in 0..80 {
        let films = [film(1, &[8, 8, 8, 2, 6, 4])];
        let mut bytes = draw::day(random, &films, 8).into_bytes();
        for _ in 0..1 + random.below(4) {
            let position = random.below(bytes.len() as u64) as usize;
            bytes[position] = random.pick(b" \n\r0159OPEND\0x");
        }
        script.begin().feed(&bytes).end();
    }
}

/// Drawn sessions on drawn films.
pub fn drawn_sessions(script: &mut Script, random: &mut Random) {
    for _ in 0..24 {
        let films = draw::films(random);
        script.file(&encode(&films));
        for _ in 0..6 {
            script.session(&draw::day(random, &films, 16));
        }
    }
}

/// Inputs of every kind of line, read in pieces of drawn lengths. Longer ones would take up the script.
pub fn sessions_in_pieces(script: &mut Script, random: &mut Random) {
    for _ in 0..30 {
        let films = draw::films(random);
        let input = draw::input(random, &films, 8);
        if input.len() > 1_000 {
            continue;
        }
        script.file(&encode(&films)).begin();
        for piece in draw::pieces(random, &input) {
            script.feed(piece);
        }
        script.end();
    }
}

/// Lines that are no commands, of every form, each before a command.
pub fn no_commands(script: &mut Script, random: &mut Random) {
    for _ in 0..8 {
        script.begin().feed(b"OPEN 9 200000 50\n");
        for _ in 0..12 {
            script.feed(&draw::no_command(random)).feed(b"\nDROP 7\n");
        }
        script.end();
    }
}
