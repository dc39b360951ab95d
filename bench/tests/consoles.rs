//! The consoles over the fast and over the obvious version print what the second implementation's prints.

use bench::{fast, obvious};
use reference::console::session;
use reference::film_file::{encode, Film};
use std::io::BufReader;

/// What both print, with a buffer of so many bytes.
fn served(file: &[u8], input: &str, capacity: usize) -> [String; 2] {
    let mut outputs = [Vec::new(), Vec::new()];
    let bytes = || BufReader::with_capacity(capacity, input.as_bytes());
    fast::console::serve(file, bytes(), &mut outputs[0]);
    obvious::console::serve(file, bytes(), &mut outputs[1]);
    outputs.map(|output| String::from_utf8(output).expect("text"))
}

#[test]
fn sessions_agree_with_the_second_implementation() {
    let file = encode(&[Film {
        number: 1,
        sizes: vec![8, 8, 8, 2, 6, 4],
    }]);
    let long = "X".repeat(1_000);
    let inputs = [
        "OPEN 20 141433 18\nBOOK 1 1 1 6 1 0 0\nBOOK 2 1 1 6 2 0 10\nBOOK 3 1 1 6 1 0 5\nPLAY\nPLAY\n",
        "PLAY\nDROP 1\nBOOK 1 1 1 6 1 0 0\nOPEN 0 1 1\nOPEN 1025 1 1\nOPEN 3 1 1\nPLAY\nPLAY\nPLAY\nPLAY",
        "\n\nplay\nPLAY \nOPEN 1 2\nDROP 4294967296\nDROP 00000000000000000001\nDROP 000000000000000000001\n",
        "OPEN 20 18446744073709551616 18\nOPEN 20 18446744073709551615 18\nOPEN 20 300000 40\nBOOK 7 1 0 8 3 0 0\nDROP 7\nDROP 7\n",
        &format!("{long}\nPLAY\n{long}"),
        "",
    ];
    for input in inputs {
        for capacity in [1, 3, 64, 65_536] {
            let wanted = session(&file, input.as_bytes());
            assert_eq!(served(&file, input, capacity), [wanted.clone(), wanted]);
        }
    }
    assert_eq!(served(&[], "PLAY\n", 64), ["NO 1\n", "NO 1\n"]);
}
