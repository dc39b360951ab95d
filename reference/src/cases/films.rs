//! The film file's cases: every refusal, every bound, damaged files.

use super::checksum::Checksum;
use super::file_buffer::{FileBuffer, BUFFER};
use super::random::Random;
use super::script::{Cursor, Output, Script};
use crate::bounds::{MAX_FILMS, MAX_FILM_ROUNDS, MAX_SIZE};
use crate::film_file::{encode, summary, verdict, Entry, Film, Reader};
use crate::refusal::Refusal;

const RUN: u8 = 5;
const SUMMARY: u8 = 6;
const CHECK: u8 = 7;
const PRINT: u8 = 8;

/// What the test program does with a script.
pub fn run(script: &[u8]) -> Vec<u8> {
    let mut script = Cursor::new(script);
    let mut buffer = FileBuffer::new();
    let mut checksum = Checksum::default();
    let mut output = Output::default();
    while let Some(opcode) = script.opcode() {
        match opcode {
            RUN => output.line(&everything(buffer.file(), &mut checksum)),
            SUMMARY => {
                let fields = summary_fields(buffer.file(), script.u64());
                checksum.add_all(&fields);
                output.line(&fields);
            }
            CHECK => {
                everything(buffer.file(), &mut checksum);
            }
            PRINT => output.line(&[checksum.0]),
            _ => assert!(buffer.carry_out(opcode, &mut script), "opcode {opcode}"),
        }
    }
    output.bytes
}

/// The verdict, and of an accepted file every film's number, rounds, total, largest and mean as the reader comes to it. All
/// of them go into the checksum, and after the last film two zeros, for two answers "no more" of the reader.
fn everything(file: &[u8], checksum: &mut Checksum) -> Vec<u64> {
    let mut fields = vec![verdict(file).map_or_else(Refusal::number, |()| 0)];
    if let Ok(mut reader) = Reader::start(file) {
        for Entry { number, rounds } in reader.by_ref() {
            let summary = summary(file, u64::from(number)).expect("the reader's film");
            fields.extend([u64::from(number), u64::from(rounds)]);
            fields.extend([summary.total, summary.largest, summary.mean]);
        }
        checksum.add_all(&fields);
        checksum.add(0);
        assert_eq!(reader.next(), None);
        checksum.add(0);
    } else {
        checksum.add_all(&fields);
    }
    fields
}

/// 0, total, largest and mean of a film, or the refusal.
fn summary_fields(file: &[u8], film: u64) -> Vec<u64> {
    match summary(file, film) {
        Ok(summary) => vec![0, summary.total, summary.largest, summary.mean],
        Err(refusal) => vec![refusal.number()],
    }
}

impl Script {
    fn run(&mut self) -> &mut Script {
        self.u8(RUN)
    }

    fn summary(&mut self, film: u64) -> &mut Script {
        self.u8(SUMMARY).u64(film)
    }

    fn check(&mut self) -> &mut Script {
        self.u8(CHECK)
    }

    fn print(&mut self) -> &mut Script {
        self.u8(PRINT)
    }
}

/// The script: the cases of each group below.
pub fn script() -> Vec<u8> {
    let mut script = Script::default();
    let mut random = Random::new(0x66_69_6C_6D);
    tiny_files(&mut script);
    bounds(&mut script);
    order_of_questions(&mut script);
    truncations(&mut script);
    largest_files(&mut script, &mut random);
    noise(&mut script, &mut random);
    damaged_files(&mut script, &mut random);
    script.bytes
}

fn film(number: u16, sizes: &[u32]) -> Film {
    Film {
        number,
        sizes: sizes.to_vec(),
    }
}

/// Position of byte `byte` of entry `index`.
fn entry(index: usize, byte: usize) -> usize {
    2 + 4 * index + byte
}

/// Films that are each given one round of 1 byte.
fn many(count: u16) -> Vec<Film> {
    (0..count).map(|number| film(number, &[1])).collect()
}

/// No byte, one byte, two; film 1 and its summary by every kind of number.
fn tiny_files(script: &mut Script) {
    for length in 0..4 {
        script.len(length).run().summary(0).summary(1);
    }
    script.file(&encode(&[film(1, &[8, 8, 8, 2, 6, 4])])).run();
    let wrapped = [1 + (1 << 16), 1 + (1 << 32), 1 + (1 << 48)];
    for film in [0, 1, 2, 65_535, u64::MAX].into_iter().chain(wrapped) {
        script.summary(film);
    }
}

/// Each bound of the layout, at it and one past it.
fn bounds(script: &mut Script) {
    for count in [0, 1, 2, 63, 64, 65, 255, 256] {
        script.file(&encode(&many(count))).run();
    }
    // F from its upper byte alone, with the bytes of a file that has them all.
    script.file(&encode(&many(64))).poke(1, 1).run();
    for numbers in [[0, 1], [0, 65_535], [65_534, 65_535], [255, 256]] {
        let films = [film(numbers[0], &[3, 4]), film(numbers[1], &[5])];
        script.file(&encode(&films)).run();
        script.summary(u64::from(numbers[0]));
        script.summary(u64::from(numbers[1]));
    }
    for numbers in [[5, 5], [5, 4], [256, 255], [65_535, 0], [0, 0]] {
        let films = [film(numbers[0], &[3, 4]), film(numbers[1], &[5])];
        script.file(&encode(&films)).run();
    }
    for rounds in [0, 1, 2, 255, 256] {
        script.file(&encode(&[film(7, &vec![9; rounds])])).run();
    }
    // The large round counts from a repeated size: 4,095, 4,096 and 4,097, and the largest that stands in 16 bits.
    script.put(2, &7_u16.to_le_bytes()).put(10, &[9, 0, 0, 0]);
    script.copy(10, 14, 4 * 65_534);
    for rounds in [4_095_u32, 4_096, 4_097, 65_535] {
        script.put(4, &(rounds as u16).to_le_bytes());
        script.put(6, &rounds.to_le_bytes());
        script.len(10 + 4 * rounds as usize).run();
    }
    for size in [
        0,
        1,
        MAX_SIZE - 1,
        MAX_SIZE,
        MAX_SIZE + 1,
        1 << 31,
        u32::MAX,
    ] {
        script.file(&encode(&[film(7, &[1, size, 2])])).run();
        script.file(&encode(&[film(7, &[size]), film(8, &[size])]));
        script.run().summary(7).summary(8);
    }
}

/// Files in which several questions would say no.
fn order_of_questions(script: &mut Script) {
    let three = encode(&[film(3, &[1]), film(4, &[2, 3]), film(5, &[4])]);
    // Each pair of an entry's breach: number not rising, round count 0, round count too large.
    for first in 0..3 {
        for second in 0..3 {
            for (number, rounds) in [(0, 1), (9, 0), (9, 255), (0, 0)] {
                script.file(&three);
                script.poke(entry(first, 0), if first == 0 { 9 } else { number });
                script.poke(entry(first, 3), rounds);
                script.poke(entry(second, 2), 0).run();
                script.poke(entry(second, 0), 0).run();
            }
        }
    }
    // Entries missing comes before what is wrong with those that are there.
    script.file(&three).poke(entry(0, 2), 0);
    script.len(entry(3, 0) - 1).run().len(entry(3, 0)).run();
    // The sum: one off, and off by what 8, 16 or 24 bits do not show; before the sizes that are missing.
    for count in [0_u32, 3, 5, 260, 65_540, 16_777_220, 4_294_967_295, 4] {
        script.file(&three);
        script.put(entry(3, 0), &count.to_le_bytes()).run();
        script.len(entry(3, 4)).run();
        script.len(entry(3, 3)).run();
        script.len(three.len() + 1).run();
    }
    // A size too large: before the byte that follows the last one, after a size that is missing.
    for size in 0..4 {
        script
            .file(&three)
            .poke(entry(3, 4) + 4 * size + 3, 1)
            .run();
        script.len(three.len() + 1).run();
        script.len(three.len() - 1).run();
    }
}

/// A small file cut at every byte, and one and more bytes too many.
fn truncations(script: &mut Script) {
    let file = encode(&[film(2, &[8, 300]), film(700, &[70_000])]);
    script.file(&file);
    for length in 0..file.len() + 6 {
        script.len(length).run();
    }
}

/// The largest legal file, and around it.
fn largest_files(script: &mut Script, random: &mut Random) {
    let sizes = entry(MAX_FILMS, 4);
    let end = sizes + 4 * MAX_FILMS * MAX_FILM_ROUNDS;
    let mut header = (MAX_FILMS as u16).to_le_bytes().to_vec();
    for number in 0..MAX_FILMS as u16 {
        header.extend((number * 1_040).to_le_bytes());
        header.extend((MAX_FILM_ROUNDS as u16).to_le_bytes());
    }
    header.extend(((MAX_FILMS * MAX_FILM_ROUNDS) as u32).to_le_bytes());
    // Every size 0, then every size the largest.
    script.put(0, &header).fill(sizes, BUFFER, 0);
    script.len(end).run().len(end - 1).run();
    script.len(end + 1).run();
    script.put(sizes, &MAX_SIZE.to_le_bytes());
    script.copy(sizes, sizes + 4, end - sizes - 4);
    script.len(end).run().summary(65_520).summary(65_521);
    // Drawn sizes, repeated after a number of them that divides no film.
    let drawn: Vec<u8> = (0..997)
        .flat_map(|_| ((random.bits() as u32) >> (8 + random.below(20))).to_le_bytes())
        .collect();
    script.put(sizes, &drawn);
    script.copy(sizes, sizes + 4 * 997, end - sizes - 4 * 997);
    script.run().len(end + 1).run().len(end);
    // The last size of all too large, by one bit of its last byte.
    script.poke(end - 1, 1).run().poke(end - 1, 0);
    // The last entry of all out of order, too long, and the sum then off.
    let last = entry(MAX_FILMS - 1, 0);
    script.poke(last + 1, 0).run();
    script.put(last, &65_520_u16.to_le_bytes());
    script.poke(last + 2, 1).run().poke(last + 3, 15).run();
}

/// A megabyte of noise, and the same behind ever more of a legal begin.
fn noise(script: &mut Script, random: &mut Random) {
    let drawn: Vec<u8> = (0..1_021).map(|_| random.bits() as u8).collect();
    script.put(0, &drawn).copy(0, 1_021, BUFFER - 1_021);
    script.len(BUFFER).run().summary(1);
    script.put(0, &[64, 0]).run();
    for index in 0..MAX_FILMS as u16 {
        script.put(entry(usize::from(index), 0), &index.to_le_bytes());
        script.put(entry(usize::from(index), 2), &4_096_u16.to_le_bytes());
    }
    script.run();
    script.put(entry(MAX_FILMS, 0), &(64 * 4_096_u32).to_le_bytes());
    script.run();
}

/// Drawn small files, each damaged many times by a byte or two, or cut or lengthened, and then repaired.
fn damaged_files(script: &mut Script, random: &mut Random) {
    for _ in 0..24 {
        let file = encode(&drawn_films(random));
        let begin = 2 + 4 * usize::from(file[0]) + 4;
        script.file(&file).poke(file.len(), 0).run();
        for _ in 0..170 {
            if random.once_in(8) {
                let length = random.below(file.len() as u64 + 2) as usize;
                script.len(length).check().len(file.len());
                continue;
            }
            let mut damaged = file.clone();
            for _ in 0..=random.below(2) {
                let part = if random.once_in(3) { file.len() } else { begin };
                let position = random.below(part as u64) as usize;
                let byte = damaged[position];
                let near = [byte.wrapping_add(1), byte.wrapping_sub(1), byte ^ 16];
                let values = [0, 1, 255, random.bits() as u8];
                damaged[position] = random.pick(&[near.as_slice(), &values].concat());
            }
            let changed: Vec<usize> = (0..file.len()).filter(|&i| damaged[i] != file[i]).collect();
            for &position in &changed {
                script.poke(position, damaged[position]);
            }
            script.check();
            for &position in &changed {
                script.poke(position, file[position]);
            }
        }
        script.print();
    }
}

/// One to six films with few rounds and sizes of every magnitude.
fn drawn_films(random: &mut Random) -> Vec<Film> {
    let mut number = random.below(300) as u16;
    let mut films = Vec::new();
    for _ in 0..=random.below(6) {
        let rounds = 1 + random.below(9);
        let sizes = (0..rounds)
            .map(|_| (random.bits() as u32 & MAX_SIZE) >> random.below(25))
            .collect();
        films.push(Film { number, sizes });
        number += 1 + random.below(400) as u16;
    }
    films
}
