//! The film files that the program begins with: refused by each question, as long as may be, and longer.

use super::{document, film};
use crate::cases::script::Script;
use crate::console::MAX_FILE;
use crate::film_file::{encode, Film};
use crate::refusal::Refusal;

/// Small film files that are refused, with their refusals, in the order of the paper's questions.
pub fn refused_files() -> Vec<(Refusal, Vec<u8>)> {
    // F is at 0, the film's number at 2, n at 4, S at 6, the first size at 10.
    let (file, _) = document();
    let cut = |length: usize| file[..length].to_vec();
    let with = |position: usize, bytes: &[u8]| {
        let mut file = file.clone();
        file[position..position + bytes.len()].copy_from_slice(bytes);
        file
    };
    let two = |first: u16, second: u16| encode(&[film(first, &[1]), film(second, &[1])]);
    let mut longer = file.clone();
    longer.push(0);
    vec![
        (Refusal::Truncated, cut(0)),
        (Refusal::Truncated, cut(1)),
        (Refusal::FilmCount, with(0, &[0, 0])),
        (Refusal::FilmCount, with(0, &[65, 0])),
        (Refusal::Truncated, cut(5)),
        (Refusal::FilmOrder, two(5, 5)),
        (Refusal::FilmOrder, two(6, 5)),
        (Refusal::RoundCount, with(4, &[0, 0])),
        (Refusal::RoundCount, with(4, &[1, 16])),
        (Refusal::Truncated, cut(9)),
        (Refusal::SizeCount, with(6, &[5, 0, 0, 0])),
        (Refusal::SizeCount, with(6, &[7, 0, 0, 0])),
        (Refusal::SizeCount, with(6, &[6, 0, 0, 1])),
        (Refusal::Truncated, cut(33)),
        (Refusal::SizeTooLarge, with(10, &[0, 0, 0, 1])),
        (Refusal::SizeTooLarge, with(30, &[255, 255, 255, 255])),
        (Refusal::TrailingBytes, longer),
    ]
}

/// Film 1 and four long films, in 65,534 bytes. A file of the layout has 4 × (F + S) + 6 bytes, so that none is longer and
/// has at most 65,536.
pub fn longest_file() -> Vec<Film> {
    let rounds = [6, 4_096, 4_096, 4_096, 4_083];
    let films: Vec<Film> = (1..=5)
        .map(|number| film(number, &[3].repeat(rounds[usize::from(number) - 1])))
        .collect();
    let length = encode(&films).len();
    assert!(length <= MAX_FILE && length + 4 > MAX_FILE);
    films
}

/// Films.bin of every kind: empty, refused, as long as may be and longer. The input is not read then.
pub fn files(script: &mut Script) {
    let commands = "OPEN 20 200000 60\nBOOK 1 1 1 6 1 0 0\nPLAY\n";
    for (_, file) in refused_files() {
        script.file(&file).session(commands);
    }
    let (file, _) = document();
    script.file(&file).session(commands).session("");
    // 65,534 bytes, then 65,535, 65,536, 65,537, and as many as the buffer has.
    let longest = encode(&longest_file());
    // Its sizes, the first at 26, are all the same.
    script
        .put(0, &longest[..30])
        .copy(26, 30, MAX_FILE + 1 - 30);
    script.len(longest.len()).session(commands);
    for length in longest.len() + 1..=MAX_FILE + 1 {
        script.len(length).session(commands);
    }
    script.len(1_048_839).session(commands);
}

#[cfg(test)]
mod tests {
    use super::*;
    use crate::film_file::verdict;

    #[test]
    fn each_file_has_its_refusal() {
        for (refusal, file) in refused_files() {
            assert_eq!(verdict(&file), Err(refusal));
        }
        assert_eq!(verdict(&encode(&longest_file())), Ok(()));
    }
}
