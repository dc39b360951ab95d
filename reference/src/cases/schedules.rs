//! The schedules' cases: totals, least reserves and what is held, small films at every cap, the largest film, every refusal.

use super::checksum::Checksum;
use super::file_buffer::FileBuffer;
use super::random::Random;
use super::script::{Cursor, Output, Script};
use crate::bounds::{MAX_PREFETCH, MAX_RESERVE, MAX_SIZE};
use crate::exhaustive::{self, every_schedule};
use crate::film_file::{encode, Film};
use crate::refusal::Refusal;
use crate::schedule::{exists, held, just_in_time, least_reserve, peak, rounds, schedule, sends};

const PRINT: u8 = 8;
const SCHEDULE: u8 = 10;
const RESERVE: u8 = 11;
const PEAK: u8 = 12;

/// Places of the longest output list that a script lends.
pub const MAX_ROOM: u32 = 4_400;
/// Places of the output list that are printed.
const SHOWN: usize = 8;
/// What place i of the output list holds before a call is this plus i, more than any total.
const FILLER: u64 = 1_000_000_000_000;

/// What the test program does with a script.
pub fn run(script: &[u8]) -> Vec<u8> {
    let mut script = Cursor::new(script);
    let mut buffer = FileBuffer::new();
    let mut checksum = Checksum::default();
    let mut output = Output::default();
    while let Some(opcode) = script.opcode() {
        let fields = match opcode {
            SCHEDULE => {
                let (film, prefetch, reserve) = (script.u64(), script.u64(), script.u64());
                let room = script.u32();
                schedule_fields(buffer.file(), film, prefetch, reserve, room)
            }
            RESERVE => {
                let (film, prefetch, cap) = (script.u64(), script.u64(), script.u64());
                match least_reserve(buffer.file(), film, prefetch, cap) {
                    Ok(reserve) => vec![0, reserve],
                    Err(refusal) => vec![refusal.number()],
                }
            }
            PEAK => {
                let (film, prefetch, reserve) = (script.u64(), script.u64(), script.u64());
                peak_fields(buffer.file(), film, prefetch, reserve)
            }
            PRINT => {
                output.line(&[checksum.0]);
                continue;
            }
            _ => {
                assert!(buffer.carry_out(opcode, &mut script), "opcode {opcode}");
                continue;
            }
        };
        checksum.add_all(&fields);
        output.line(&fields);
    }
    output.bytes
}

/// The answer, the first places of the output list and the checksum of all of them.
fn schedule_fields(file: &[u8], film: u64, prefetch: u64, reserve: u64, room: u32) -> Vec<u64> {
    let mut places: Vec<u64> = (0..u64::from(room)).map(|place| FILLER + place).collect();
    let answer = schedule(file, film, prefetch, reserve, &mut places);
    let mut fields = vec![answer.map_or_else(Refusal::number, |()| 0)];
    fields.extend(places.iter().take(SHOWN));
    let mut checksum = Checksum::default();
    checksum.add_all(&places);
    fields.push(checksum.0);
    fields
}

/// The refusal; or 0, the peak and the checksum of what each round reads, sends and holds.
fn peak_fields(file: &[u8], film: u64, prefetch: u64, reserve: u64) -> Vec<u64> {
    let rounds = match rounds(file, film, prefetch, reserve) {
        Ok(rounds) => rounds,
        Err(refusal) => return vec![refusal.number()],
    };
    let held: Vec<u64> = rounds.iter().map(|round| round.held).collect();
    let mut checksum = Checksum::default();
    for round in &rounds {
        checksum.add_all(&[round.read, round.send, round.held]);
    }
    vec![0, peak(&held), checksum.0]
}

impl Script {
    fn schedule(&mut self, film: u64, prefetch: u64, reserve: u64, room: u32) -> &mut Script {
        assert!(room <= MAX_ROOM);
        self.u8(SCHEDULE).u64(film).u64(prefetch);
        self.u64(reserve).u32(room)
    }

    fn peak(&mut self, film: u64, prefetch: u64, reserve: u64) -> &mut Script {
        self.u8(PEAK).u64(film).u64(prefetch).u64(reserve)
    }

    fn reserve(&mut self, film: u64, prefetch: u64, cap: u64) -> &mut Script {
        self.u8(RESERVE).u64(film).u64(prefetch).u64(cap)
    }
}

/// The script: the cases of each group below.
pub fn script() -> Vec<u8> {
    let mut script = Script::default();
    let mut random = Random::new(0x73_63_68_65);
    figures(&mut script);
    order_of_questions(&mut script);
    largest_film(&mut script);
    small_films(&mut script, &mut random);
    drawn_films(&mut script, &mut random);
    script.u8(PRINT);
    script.bytes
}

fn film(number: u16, sizes: &[u32]) -> Film {
    Film {
        number,
        sizes: sizes.to_vec(),
    }
}

/// "Figures for film 1", and films of one round or of no bytes.
fn figures(script: &mut Script) {
    script.file(&encode(&[film(1, &[8, 8, 8, 2, 6, 4])]));
    for (prefetch, reserve) in [(1, 6), (0, 7), (0, 8), (1, 5), (2, 5), (1, 7)] {
        script.schedule(1, prefetch, reserve, 6 + prefetch as u32);
        script.schedule(1, prefetch, reserve, 20);
        script.peak(1, prefetch, reserve);
    }
    for cap in [12, 11, 8, 7, 0, u64::MAX] {
        script.reserve(1, 1, cap);
    }
    script.file(&encode(&[film(0, &[0; 5]), film(9, &[5]), film(10, &[0])]));
    for prefetch in [0, 1, 256] {
        for reserve in [0, 1, 4, 5, MAX_RESERVE] {
            for film in [0, 9, 10] {
                script.schedule(film, prefetch, reserve, 300);
                script.peak(film, prefetch, reserve);
            }
        }
        for cap in [0, 1, 4, 5, 6] {
            for film in [0, 9, 10] {
                script.reserve(film, prefetch, cap);
            }
        }
    }
}

/// Requests to which several questions say no; each number at its bound, past it, and past 16 and 32 bits.
fn order_of_questions(script: &mut Script) {
    let file = encode(&[film(1, &[9, 7]), film(40, &[3, 3, 3])]);
    // The file's own questions come first, whatever is asked.
    script.file(&file).len(file.len() - 1);
    script
        .schedule(2, 257, MAX_RESERVE + 1, 0)
        .peak(2, 257, MAX_RESERVE + 1)
        .reserve(2, 257, 0);
    script.len(file.len() + 1);
    script
        .schedule(2, 257, MAX_RESERVE + 1, 0)
        .peak(2, 257, MAX_RESERVE + 1)
        .reserve(2, 257, 0);
    script.len(0).schedule(1, 0, 9, 2).reserve(1, 0, 9);
    script.len(file.len());
    let numbers = [1, 40, 0, 41, 65_537, (1 << 32) + 1, u64::MAX];
    let prefetches = [0, 256, 257, 65_536, 1 << 32, u64::MAX];
    let reserves = [9, 8, MAX_RESERVE, MAX_RESERVE + 1, (1 << 32) + 9, u64::MAX];
    for film in numbers {
        for prefetch in prefetches {
            script.reserve(film, prefetch, 9).reserve(film, prefetch, 8);
            for reserve in reserves {
                if film == 1 || prefetch == 257 || reserve == u64::MAX {
                    script.schedule(film, prefetch, reserve, 1);
                    script.peak(film, prefetch, reserve);
                }
            }
        }
    }
    // The output's length around p+n, with and without a schedule.
    for (prefetch, reserve) in [(0, 9), (0, 8), (1, 8), (1, 7), (3, 4), (3, 3)] {
        let places = prefetch as u32 + 2;
        for room in [0, places - 1, places, places + 1] {
            script.schedule(1, prefetch, reserve, room);
        }
    }
}

/// The largest film there can be, 4,096 rounds of 16,777,215 bytes, and films as long.
fn largest_film(script: &mut Script) {
    let rounds = 4_096_u16;
    let mut file = encode(&[film(65_535, &[MAX_SIZE])]);
    file[4..6].copy_from_slice(&rounds.to_le_bytes());
    file[6..10].copy_from_slice(&u32::from(rounds).to_le_bytes());
    script.file(&file);
    script.copy(10, 14, 4 * (usize::from(rounds) - 1));
    script.len(10 + 4 * usize::from(rounds));
    let long_requests = |script: &mut Script| {
        for prefetch in [0, 1, MAX_PREFETCH] {
            for reserve in [MAX_RESERVE, MAX_RESERVE - 1, 15_790_321, 15_790_320, 0] {
                script.schedule(65_535, prefetch, reserve, MAX_ROOM);
            }
            for reserve in [MAX_RESERVE, 15_790_321] {
                script.peak(65_535, prefetch, reserve);
            }
            script.schedule(65_535, prefetch, MAX_RESERVE, prefetch as u32 + 4_096);
            script.schedule(65_535, prefetch, MAX_RESERVE, prefetch as u32 + 4_095);
            for cap in [0, 1, 16_777_214, 16_777_215, 16_777_216, 100_000_000] {
                script.reserve(65_535, prefetch, cap);
            }
            for cap in [4_000_000_000, 68_719_476_736, 1 << 63, u64::MAX] {
                script.reserve(65_535, prefetch, cap);
            }
        }
    };
    long_requests(script);
    // The same length with one heavy round at the end, at the begin, and then with heavy and empty rounds in turn.
    let end = 10 + 4 * usize::from(rounds);
    script
        .fill(10, end, 0)
        .put(end - 4, &MAX_SIZE.to_le_bytes());
    long_requests(script);
    script.fill(10, end, 0).put(10, &MAX_SIZE.to_le_bytes());
    long_requests(script);
    script.copy(10, 18, end - 18);
    long_requests(script);
}

/// Drawn films so small that trying every schedule decides: every reserve and every cap. What the rule says is compared
/// with that here, before it becomes the expected output.
fn small_films(script: &mut Script, random: &mut Random) {
    for _ in 0..32 {
        let rounds = 1 + random.below(5);
        let largest = 1 + random.below(6);
        let sizes: Vec<u32> = (0..rounds).map(|_| random.below(largest) as u32).collect();
        let prefetch = random.below(3);
        script.file(&encode(&[film(1, &sizes)]));
        let sends = sends(prefetch, &sizes);
        for reserve in 0..=largest {
            script.schedule(1, prefetch, reserve, sends.len() as u32 + 2);
            script.peak(1, prefetch, reserve);
            decided_by_trying_all(&sends, reserve);
        }
        let highest = peak(&held(&sends, &just_in_time(&sends, 0)));
        for cap in 0..=highest + 1 {
            script.reserve(1, prefetch, cap);
            let found = least_reserve(&encode(&[film(1, &sizes)]), 1, prefetch, cap);
            assert_eq!(found.ok(), exhaustive::least_reserve(&sends, cap));
        }
    }
}

/// A schedule exists exactly if trying all finds one, and the just-in-time one is then among them and least in each round: so
/// no schedule has a smaller peak.
fn decided_by_trying_all(sends: &[u64], reserve: u64) {
    let all = every_schedule(sends, reserve);
    assert_eq!(exists(sends, reserve), !all.is_empty());
    if !all.is_empty() {
        let reads = just_in_time(sends, reserve);
        assert!(all.contains(&reads));
        assert!(all
            .iter()
            .all(|other| (0..reads.len()).all(|t| reads[t] <= other[t])));
        let least = all.iter().map(|other| peak(&held(sends, other))).min();
        assert_eq!(least, Some(peak(&held(sends, &reads))));
    }
}

/// Drawn films of some hundred rounds, quiet and heavy by turns.
fn drawn_films(script: &mut Script, random: &mut Random) {
    for _ in 0..12 {
        let rounds = 60 + random.below(120);
        let mut level = 10;
        let sizes: Vec<u32> = (0..rounds)
            .map(|_| {
                if random.once_in(9) {
                    level = random.pick(&[0, 1, 10, 1_000, 60_000, MAX_SIZE]);
                }
                random.below(u64::from(level) + 1) as u32
            })
            .collect();
        script.file(&encode(&[film(500, &sizes)]));
        let largest = sizes.iter().copied().max().map_or(0, u64::from);
        let total: u64 = sizes.iter().map(|&size| u64::from(size)).sum();
        for _ in 0..6 {
            let prefetch = random.pick(&[0, 1, 2, 10, 100, 256]);
            let cap = random.pick(&[largest, 2 * largest, total / 4, total]) + random.below(3);
            script.reserve(500, prefetch, cap);
            if cap < largest {
                continue;
            }
            // The least reserve of that cap and the one below it, and one somewhere between it and the largest size.
            let least = crate::schedule::smallest_reserve(&sends(prefetch, &sizes), cap);
            let between = least + random.below(largest - least + 1);
            for reserve in [least, least.saturating_sub(1), between] {
                let room = prefetch + rounds + random.below(3);
                script.schedule(500, prefetch, reserve, room as u32);
                script.peak(500, prefetch, reserve);
            }
        }
    }
}
