//! The program `hall` over the fast version: `films.bin` and commands from standard input.

use bench::fast::console::serve;
use std::fs;
use std::io::{stdin, stdout, BufReader};

fn main() {
    let file = fs::read("films.bin").unwrap_or_default();
    let input = BufReader::with_capacity(65_536, stdin().lock());
    // The console writes whole answers, so that standard output's own buffer by lines would only cost.
    serve(&file, input, Unbuffered);
}

struct Unbuffered;

impl std::io::Write for Unbuffered {
    fn write(&mut self, bytes: &[u8]) -> std::io::Result<usize> {
        use std::os::fd::AsFd;
        let mut file = fs::File::from(stdout().as_fd().try_clone_to_owned()?);
        file.write(bytes)
    }

    fn flush(&mut self) -> std::io::Result<()> {
        Ok(())
    }
}
