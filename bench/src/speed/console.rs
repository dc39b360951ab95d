//! Lines per second of the program `hall`, beside the same console over the fast and over the obvious version.

use crate::days::{films, PREFETCH};
use crate::document::{grouped, table};
use crate::fast::Fast;
use crate::measure::{children_time, measure, ratio, Effort};
use crate::scheduler::Scheduler;
use reference::cases::random::Random;
use reference::film_file::encode;
use std::fmt::Write as _;
use std::fs::{self, File};
use std::path::{Path, PathBuf};
use std::process::{Command, Stdio};
use std::time::Duration;

/// Rounds of the films: 15 of them are just under the program's 65,536 bytes.
const FILM: usize = 1_000;
const FILMS: usize = 15;

/// An input of the program.
struct Input {
    name: &'static str,
    text: String,
}

fn inputs(file: &[u8]) -> Vec<Input> {
    let mut random = Random::new(31);
    let reserve = Fast.least_reserve(file, 1, PREFETCH, 1 << 40).bytes;
    let short = |random: &mut Random, name: u64| {
        let cab = random.below(64);
        format!("BOOK {name} 1 {PREFETCH} {reserve} {} 0 4\n", 1_u64 << cab)
    };
    let mut bookings = String::new();
    for turn in 0..40 {
        let _ = writeln!(bookings, "OPEN 1024 4294967295 1099511627776");
        for name in 0..64 {
            bookings += &short(&mut random, turn * 100 + name);
        }
        for name in 0..64 {
            let _ = writeln!(bookings, "DROP {}", turn * 100 + name);
        }
    }
    let mut rounds = String::new();
    for _ in 0..4 {
        let _ = writeln!(rounds, "OPEN 1024 4294967295 1099511627776");
        for name in 0..32 {
            let _ = writeln!(
                rounds,
                "BOOK {name} {} {PREFETCH} {reserve} {} 0 4",
                1,
                1_u64 << name
            );
        }
        rounds += &"PLAY\n".repeat(1_024);
    }
    let mut refused = String::new();
    for number in 0..200_000 {
        let _ = writeln!(refused, "LATER {number}");
    }
    vec![
        Input {
            name: "32 films open, rounds played",
            text: rounds,
        },
        Input {
            name: "bookings and drops, up to 64 standing",
            text: bookings,
        },
        Input {
            name: "lines that are no command",
            text: refused,
        },
    ]
}

/// Runs a program on an input; its output goes to a file.
fn run(program: &Path, folder: &Path, input: &Path, output: &Path) {
    let status = Command::new(program)
        .current_dir(folder)
        .stdin(Stdio::from(File::open(input).expect("the input is there")))
        .stdout(Stdio::from(File::create(output).expect("a file is made")))
        .status()
        .expect("the program runs");
    assert!(status.success());
}

/// Lays the films and makes the inputs.
fn laid_inputs(folder: &Path) -> Vec<Input> {
    fs::create_dir_all(folder).expect("the folder is made");
    let file = encode(&films(FILMS, FILM));
    fs::write(folder.join("films.bin"), &file).expect("the films are written");
    inputs(&file)
}

const EFFORT: Effort = Effort {
    runs: 5,
    time: Duration::from_secs(2),
    run: Duration::from_micros(1),
};

/// Seconds that the program `hall` at this path takes for a line, in the input where it takes most.
pub fn slowest_line(hall: &Path, folder: &Path) -> f64 {
    let mut slowest: f64 = 0.0;
    for input in laid_inputs(folder) {
        eprintln!("bench: a line of hall, {}", input.name);
        let (path, output) = (folder.join("input"), folder.join("library"));
        fs::write(&path, &input.text).expect("the input is written");
        let mut library = || run(hall, folder, &path, &output);
        let times = measure(children_time, EFFORT, &mut [&mut library]);
        slowest = slowest.max(times[0].median() / input.text.lines().count() as f64);
    }
    slowest
}

/// The table, with the program `hall` and the consoles over the fast and over the obvious version at these paths, and the seconds of a
/// line of `hall` in the input where it takes most.
pub fn console(hall: &Path, fast_hall: &Path, obvious_hall: &Path, folder: &Path) -> (String, f64) {
    let mut rows = Vec::new();
    let mut slowest: f64 = 0.0;
    for input in laid_inputs(folder) {
        eprintln!("bench: console, {}", input.name);
        let path = folder.join("input");
        fs::write(&path, &input.text).expect("the input is written");
        let outputs: [PathBuf; 3] = ["library", "fast", "obvious"].map(|name| folder.join(name));
        run(hall, folder, &path, &outputs[0]);
        run(fast_hall, folder, &path, &outputs[1]);
        let begin = children_time();
        run(obvious_hall, folder, &path, &outputs[2]);
        let slow = children_time() - begin;
        let [one, other, third] = outputs
            .each_ref()
            .map(|path| fs::read(path).expect("an output"));
        let same = one == other && one == third;
        assert!(same, "{}: the outputs differ", input.name);
        let lines = input.text.lines().count() as f64;
        let mut library = || run(hall, folder, &path, &outputs[0]);
        let mut fast = || run(fast_hall, folder, &path, &outputs[1]);
        let times = measure(children_time, EFFORT, &mut [&mut library, &mut fast]);
        slowest = slowest.max(times[0].median() / lines);
        rows.push(vec![
            input.name.to_string(),
            grouped(lines as u64),
            grouped((lines / times[0].median()) as u64),
            format!("{:.1} %", times[0].spread()),
            grouped((lines / times[1].median()) as u64),
            format!("{:.2}", ratio(&times[0], &times[1])),
            grouped((lines / slow) as u64),
            format!("{:.0}", slow / times[0].median()),
        ]);
    }
    let heads = [
        "input",
        "lines",
        "hall, lines/s",
        "±",
        "fast console, lines/s",
        "time, hall / fast",
        "obvious console, lines/s",
        "time, obvious / hall",
    ];
    (table(&heads, &rows), slowest)
}
