//! Times, growth, stack and instructions of the library beside the versions in Rust.
//!
//!     bench [--write DOCUMENT PICTURES] [--quick] [--hall PROGRAM] [PART ..]
//!     bench instructions VERSION CASE
//!
//! Parts: files, days, sheets, starts, refusals, searches, replays, console, ceilings, growth, stack, instructions; all where none is
//! named. Ends with 1 where a ceiling, of time or of stack, is not kept.

use bench::days::Size;
use bench::document::rewrite;
use bench::measure::Effort;
use bench::speed::cases::{
    file_cases, refusal_cases, replay_case, search_cases, sheet_cases, start_cases,
};
use bench::speed::ceilings::ceilings;
use bench::speed::console::{console, slowest_line};
use bench::speed::growth::growth;
use bench::speed::instructions::{instructions, run_case};
use bench::speed::stacks::stacks;
use bench::speed::tables::{cases_table, grid_tables, Measured};
use std::path::{Path, PathBuf};
use std::process::{Command, ExitCode};
use std::time::{Duration, Instant};
use std::{env, fs};

struct Options {
    write: Option<(PathBuf, PathBuf)>,
    hall: PathBuf,
    quick: bool,
    parts: Vec<String>,
}

fn options(arguments: Vec<String>) -> Options {
    let mut options = Options {
        write: None,
        hall: PathBuf::from("target/bin/hall"),
        quick: false,
        parts: Vec::new(),
    };
    let mut arguments = arguments.into_iter();
    while let Some(argument) = arguments.next() {
        let mut path = || PathBuf::from(arguments.next().expect("a path follows"));
        match argument.as_str() {
            "--write" => options.write = Some((path(), path())),
            "--hall" => options.hall = path(),
            "--quick" => options.quick = true,
            _ => options.parts.push(argument),
        }
    }
    options
}

/// What a command prints first, or nothing.
fn said(program: &str, arguments: &[&str]) -> String {
    let output = Command::new(program).args(arguments).output();
    let text = output.map_or(String::new(), |output| {
        String::from_utf8_lossy(&output.stdout).into_owned()
    });
    text.lines().next().unwrap_or("").trim().to_string()
}

/// The machine that the figures are of.
fn machine() -> String {
    let processor = fs::read_to_string("/proc/cpuinfo").unwrap_or_default();
    let field = |name: &str| {
        let line = processor.lines().find(|line| line.starts_with(name));
        line.and_then(|line| line.split_once(':'))
            .map_or(String::new(), |(_, value)| value.trim().to_string())
    };
    let cores = std::thread::available_parallelism().map_or(1, usize::from);
    let load = fs::read_to_string("/proc/loadavg").unwrap_or_default();
    let load = load.split_whitespace().next().unwrap_or("?").to_string();
    format!(
        "- {} cores of {} (family {}, model {}), {} of cache, virtual machine\n- {}; {}; {}\n- load when the run began: {load}\n",
        cores,
        field("model name"),
        field("cpu family"),
        field("model"),
        field("cache size"),
        said("uname", &["-sr"]),
        said("rustc", &["--version"]),
        said("rt", &["--version"]),
    )
}

fn main() -> ExitCode {
    let arguments: Vec<String> = env::args().skip(1).collect();
    if let [word, version, case] = arguments.as_slice() {
        if word == "instructions" {
            run_case(version, case);
            return ExitCode::SUCCESS;
        }
    }
    let options = options(arguments);
    let begin = Instant::now();
    let effort = if options.quick {
        Effort {
            runs: 3,
            time: Duration::from_millis(20),
            ..Effort::default()
        }
    } else {
        Effort::default()
    };
    let wanted =
        |part: &str| options.parts.is_empty() || options.parts.iter().any(|other| other == part);
    let mut texts = vec![("machine", machine())];
    let mut measured = Measured::default();
    if wanted("files") {
        texts.push(("files", cases_table(&file_cases(), effort, &mut measured)));
    }
    if wanted("days") {
        texts.extend(grid_tables(effort, &mut measured));
    }
    if wanted("sheets") {
        texts.push(("sheets", cases_table(&sheet_cases(), effort, &mut measured)));
    }
    if wanted("starts") {
        texts.push(("starts", cases_table(&start_cases(), effort, &mut measured)));
    }
    if wanted("refusals") {
        texts.push((
            "refusals",
            cases_table(&refusal_cases(), effort, &mut measured),
        ));
    }
    if wanted("searches") {
        texts.push((
            "searches",
            cases_table(&search_cases(), effort, &mut measured),
        ));
    }
    if wanted("replays") {
        let sizes = [(1_024, 64, 512), (8_192, 64, 512), (86_400, 256, 512)];
        let cases: Vec<_> = sizes
            .iter()
            .map(|&(rounds, bookings, film)| {
                replay_case(Size {
                    rounds,
                    bookings,
                    film,
                })
            })
            .collect();
        texts.push(("replays", cases_table(&cases, effort, &mut measured)));
    }
    texts.extend(measured.summary().map(|text| ("ratios", text)));
    let hall = || fs::canonicalize(&options.hall).expect("`make demo` builds the program");
    let folder = env::temp_dir().join(format!("bench-console-{}", std::process::id()));
    let mut line = None;
    if wanted("console") {
        let here = env::current_exe().expect("a path");
        let fast_hall = here.with_file_name("fast_hall");
        let obvious_hall = here.with_file_name("obvious_hall");
        let (text, slowest) = console(&hall(), &fast_hall, &obvious_hall, &folder);
        texts.push(("console", text));
        line = Some(slowest);
    }
    let mut kept = true;
    if wanted("ceilings") {
        let line = line.unwrap_or_else(|| slowest_line(&hall(), &folder));
        let (text, all_kept) = ceilings(effort, &measured, line);
        texts.push(("ceilings", text));
        kept = all_kept;
    }
    let _ = fs::remove_dir_all(&folder);
    let mut picture = None;
    if wanted("growth") {
        let (text, drawn) = growth(effort);
        texts.push(("growth", text));
        picture = Some(drawn);
    }
    if wanted("stack") {
        let (text, all_kept) = stacks();
        texts.push(("stack", text));
        kept &= all_kept;
    }
    if wanted("instructions") {
        texts.push(("instructions", instructions()));
    }
    for (name, text) in &texts {
        println!("{name}\n\n{text}");
    }
    if let Some((document, pictures)) = &options.write {
        if let Some(picture) = picture {
            let path = pictures.join(Path::new("growth.svg"));
            fs::write(path, picture).expect("the picture is written");
        }
        rewrite(document, &texts);
    }
    eprintln!("bench: {:.0} s", begin.elapsed().as_secs_f64());
    if !kept {
        eprintln!("bench: a ceiling is not kept");
        return ExitCode::FAILURE;
    }
    ExitCode::SUCCESS
}
