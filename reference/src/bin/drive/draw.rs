//! Draws sessions: film files and inputs of every kind, sent in pieces of every kind.

use crate::session::Session;
use reference::cases::random::Random;
use reference::cases::sessions::{document, draw, full_list, longest_file, refused_files};
use reference::console::MAX_FILE;
use reference::film_file::{decode, encode, Film};

/// A session out of so many has a film file that is missing, refused or too long; enough for each in 200 sessions.
const REFUSED: usize = 8;

/// Film files with which the program ends at once: missing, refused for each number, too long.
fn files() -> Vec<Option<Vec<u8>>> {
    // No file of the layout has 65,536 bytes: its length is 2 more than a multiple of 4.
    let mut longer = encode(&longest_file());
    longer.resize(MAX_FILE, 0);
    let mut files = vec![None, Some(longer.clone())];
    files.extend(refused_files().into_iter().map(|(_, file)| Some(file)));
    for length in [MAX_FILE + 1, 1 << 20] {
        longer.resize(length, 0);
        files.push(Some(longer.clone()));
    }
    files
}

/// Sessions, one after the other.
pub struct Sessions {
    random: Random,
    refused: Vec<Option<Vec<u8>>>,
    drawn: usize,
}

impl Sessions {
    pub fn new(seed: u64) -> Sessions {
        Sessions {
            random: Random::new(seed),
            refused: files(),
            drawn: 0,
        }
    }

    /// The films of the next session, and its file.
    fn films(&mut self) -> (Vec<Film>, Option<Vec<u8>>) {
        let (film_1, _) = document();
        let film_1 = decode(&film_1).expect("film 1");
        if self.drawn % REFUSED == 0 {
            let file = self.drawn / REFUSED % self.refused.len();
            return (film_1, self.refused[file].clone());
        }
        let films = match self.random.below(8) {
            0 => longest_file(),
            1 | 2 => film_1,
            _ => draw::films(&mut self.random),
        };
        let file = encode(&films);
        (films, Some(file))
    }

    fn input(&mut self, films: &[Film]) -> Vec<u8> {
        let random = &mut self.random;
        match random.below(16) {
            0 => Vec::new(),
            1 => (0..random.below(2_000))
                .map(|_| random.pick(b"\n\n\n\r\0 OPENBOOKDROPLAY0123456789\xff"))
                .collect(),
            _ => {
                let commands = random.pick(&[4, 16, 60]);
                draw::input(random, films, commands)
            }
        }
    }
}

impl Iterator for Sessions {
    type Item = Session;

    fn next(&mut self) -> Option<Session> {
        let (films, file) = self.films();
        self.drawn += 1;
        let (film_1, document) = document();
        // The paper's own session and the full list are among the first.
        let (file, input) = match self.drawn % 100 {
            2 => (Some(film_1), document.into()),
            3 => (Some(film_1), full_list().into()),
            _ => (file, self.input(&films)),
        };
        let answered = self.random.once_in(2);
        let pieces: Vec<&[u8]> = if answered && self.random.once_in(2) {
            input.split_inclusive(|&byte| byte == b'\n').collect()
        } else {
            draw::pieces(&mut self.random, &input)
        };
        Some(Session {
            file,
            pieces: pieces.into_iter().map(<[u8]>::to_vec).collect(),
            answered,
        })
    }
}
