//! Lines of every kind: the grammar and its bounds.

use crate::cases::script::Script;
use std::fmt::Write;

/// Lines that come near to a command, and three that are.
const NEAR_COMMANDS: &[&str] = &[
    "play",
    "Play",
    "PLAY ",
    " PLAY",
    "  PLAY",
    "PLAY 1",
    "PLAYS",
    "PLA",
    "P",
    "PLAY\r",
    "PLAY\t",
    "PLAY\0",
    "\0",
    "\r",
    " ",
    "OPEN",
    "OPEN ",
    "OPEN 9",
    "OPEN 9 9",
    "OPEN 9 9 ",
    "OPEN 9 9 9 ",
    "OPEN 9 9 9 9",
    "OPEN  9 9 9",
    "OPEN 9  9 9",
    "open 9 9 9",
    "OPEN9 9 9",
    "OPEN +9 9 9",
    "OPEN -9 9 9",
    "OPEN 9. 9 9",
    "OPEN 9 9 9\r",
    "OPEN 9 9 x",
    "OPEN 9 9 /",
    "OPEN 9 9 :",
    "OPEN 0x9 9 9",
    "DROP",
    "DROP ",
    "DROP x",
    "DROP 1 1",
    "DROP\t1",
    "DROP 1\0",
    "DROP one",
    "BOOK",
    "BOOK 1 1 1 6 1 0",
    "BOOK 1 1 1 6 1 0 0 0",
    "BOOK 1 1 1 6 1 0 0 ",
    "BOOK 1 1 1 6 1 0  0",
    "BOOK 1 1 1 6 1 0 a",
    "BOOKED 1 0",
    "NO 24",
    "OPENED",
    "ROUND 0 0 0",
    "PLAY;PLAY",
    "PLAY PLAY",
    "DROP 1,000",
    "\u{feff}PLAY",
    "DR\u{d6}P 1",
    "BOOK 1 1 1 6 1 0 0",
    "DROP 1",
    "PLAY",
];

/// Inputs of no line, empty lines, no final byte 10, and lines that are no commands.
pub fn lines_of_every_kind(script: &mut Script) {
    for input in [
        "",
        "\n",
        "\n\n",
        "PLAY",
        "PLAY\n",
        "\nPLAY",
        "PLAY\n\n",
        "\nOPEN 5 0 0\n\nPLAY\n",
    ] {
        script.session(input);
    }
    let mut input = "OPEN 9 200000 50\n".to_string();
    for line in NEAR_COMMANDS {
        writeln!(input, "{line}").expect("text");
    }
    script.session(&input);
    // The same bytes with every line ended as other systems do.
    script.session(&input.replace('\n', "\r\n"));
    script.session("PLAY\rPLAY\r");
    // Every byte as a line of its own, and in the place of a command's space and digit.
    script.begin();
    for byte in 0..=255 {
        script.feed(&[byte, b'\n']);
    }
    script.end().begin().feed(b"OPEN 9 200000 50\n");
    for byte in 0..=255 {
        script.feed(&[b'D', b'R', b'O', b'P', byte, b'7', b'\n']);
        script.feed(&[b'D', b'R', b'O', b'P', b' ', byte, b'\n']);
    }
    script.end();
    line_lengths(script);
}

/// Numerals and lines at and past their longest; lines of many megabytes, with and without an end.
fn line_lengths(script: &mut Script) {
    script.begin().feed(b"OPEN 9 200000 50\n");
    for zeros in [18, 19, 20, 21, 60, 194, 195, 196] {
        script.feed(b"DROP ").repeat(zeros, b'0').feed(b"7\n");
    }
    // A booking of 200 bytes, its seven numerals of at most 20 digits, is not to be had: the longest command has 151.
    let longest = format!("BOOK{}\n", format!(" {:020}", 1).repeat(7));
    script
        .feed(longest.as_bytes())
        .feed(longest.replace(" 0", " 00").as_bytes());
    for length in [199, 200, 201, 202, 255, 256, 257, 400, 401, 4_096, 65_536] {
        script.repeat(length, b'A').feed(b"\nPLAY\n");
    }
    script.end();
    for (count, byte) in [(10_000_000, b'7'), (10_000_000, b' '), (1_000_000, 0)] {
        script.begin().feed(b"OPEN 9 200000 50\nDROP ");
        script.repeat(count, byte).feed(b"\nPLAY\n");
        script.repeat(count, byte).end();
    }
    // As many empty lines as would fill a buffer of any size.
    script.begin().repeat(300, b'\n').feed(b"PLAY").end();
}

/// Every number of every command at its bound and past it, before OPEN and after.
pub fn numbers_at_their_bounds(script: &mut Script) {
    let numbers = [
        0,
        1,
        2,
        20,
        255,
        256,
        257,
        1_023,
        1_024,
        1_025,
        65_535,
        65_536,
        65_537,
        86_400,
        86_401,
        16_777_215,
        16_777_216,
        4_294_967_295,
        4_294_967_296,
        4_294_967_297,
        1_099_511_627_776,
        1_099_511_627_777,
        u64::MAX,
    ];
    let past = [
        "18446744073709551616",
        "99999999999999999999",
        "100000000000000000000",
    ];
    let texts: Vec<String> = numbers.iter().map(u64::to_string).collect();
    let texts = || texts.iter().map(String::as_str).chain(past);
    let mut input = String::new();
    for text in texts() {
        writeln!(
            input,
            "DROP {text}\nBOOK {text} 1 1 6 1 0 0\nBOOK 1 {text} 1 6 1 0 0"
        )
        .expect("text");
        for open in [
            format!("{text} 200000 50"),
            format!("20 {text} 50"),
            format!("20 200000 {text}"),
        ] {
            writeln!(input, "OPEN {open}").expect("text");
        }
    }
    script.session(&input);
    for field in 0..7 {
        let mut input = "OPEN 1024 300000 60\n".to_string();
        for text in texts() {
            let mut fields = ["8", "1", "1", "6", "1", "0", "1017"];
            fields[field] = text;
            writeln!(input, "BOOK {}\nDROP {}", fields.join(" "), fields[0]).expect("text");
        }
        script.session(&input);
    }
}
