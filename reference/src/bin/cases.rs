//! `cases FAMILY FOLDER` writes a test program's `stdin` and `stdout` into its folder: what it reads and what it must print.
//! `cases FAMILY FOLDER --check` writes nothing and fails if the files there are not what it would write.
#![forbid(unsafe_code)]

use reference::cases::{desk, figures, films, schedules, sessions};
use reference::console;
use std::path::Path;
use std::process::ExitCode;
use std::{env, fs, io};

/// A file of the folder: its name and its bytes.
type File = (&'static str, Vec<u8>);

/// Bytes of the longest script that a test program takes.
const MAX_SCRIPT: usize = 131_072;

/// A script and what the test program must print for it.
fn script(script: Vec<u8>, run: fn(&[u8]) -> Vec<u8>) -> Vec<File> {
    assert!(script.len() <= MAX_SCRIPT);
    let output = run(&script);
    vec![("stdin", script), ("stdout", output)]
}

/// The session of document 01 for the program itself, which reads `films.bin`.
fn program() -> Vec<File> {
    let (file, input) = sessions::document();
    let output = console::session(&file, input.as_bytes());
    vec![
        ("data/films.bin", file),
        ("stdin", input.into()),
        ("stdout", output.into()),
    ]
}

fn family(name: &str) -> Option<Vec<File>> {
    Some(match name {
        "films" => script(films::script(), films::run),
        "schedules" => script(schedules::script(), schedules::run),
        "desk" => script(desk::script(), desk::run),
        "sessions" => script(sessions::script(), sessions::run),
        "figures" => vec![("stdout", figures::output())],
        "hall" => program(),
        _ => return None,
    })
}

fn write(path: &Path, bytes: &[u8]) -> io::Result<()> {
    if let Some(folder) = path.parent() {
        fs::create_dir_all(folder)?;
    }
    fs::write(path, bytes)
}

fn main() -> ExitCode {
    let arguments: Vec<String> = env::args().skip(1).collect();
    let arguments: Vec<&str> = arguments.iter().map(String::as_str).collect();
    let (name, folder, check) = match arguments.as_slice() {
        [name, folder] => (name, folder, false),
        [name, folder, "--check"] => (name, folder, true),
        _ => {
            eprintln!("usage: cases films|schedules|desk|sessions|figures|hall FOLDER [--check]");
            return ExitCode::FAILURE;
        }
    };
    let Some(files) = family(name) else {
        eprintln!("cases: no family {name}");
        return ExitCode::FAILURE;
    };
    for (file, bytes) in files {
        let path = Path::new(folder).join(file);
        if check {
            if !fs::read(&path).is_ok_and(|stored| stored == bytes) {
                eprintln!("cases: {} is not what {name} writes", path.display());
                return ExitCode::FAILURE;
            }
        } else if let Err(error) = write(&path, &bytes) {
            eprintln!("cases: {}: {error}", path.display());
            return ExitCode::FAILURE;
        }
    }
    ExitCode::SUCCESS
}
