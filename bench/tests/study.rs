//! The study's film is the one that the documents name, and its trials keep their rules.

use bench::document::grouped;
use bench::study::film::{checksum, file_of, trace, SEED, SHAPE};
use bench::study::policy::{Disk, Memory, Policy};
use bench::study::trial::{run, Trial, TOGETHER};

const DOCUMENT: &str = include_str!("../../docs/BENCHMARKS.md");

#[test]
fn the_film_is_the_documents() {
    let sizes = trace();
    assert_eq!(sizes.len(), SHAPE.rounds);
    for figure in [SEED, checksum(&sizes)] {
        let cell = format!(" {} |", grouped(figure));
        assert!(DOCUMENT.contains(&cell), "the document has no {cell}");
    }
}

#[test]
fn peak_rate_takes_sixteen_streams() {
    // 16 × 875,000 + loss(16) ≤ 15,000,000 < 17 × 875,000 + loss(17).
    let sizes = trace();
    let file = file_of(sizes.clone());
    let policy = |disk, memory| {
        Policy::just_in_time(&file, &sizes, 0, SHAPE.peak, disk, memory).expect("a schedule")
    };
    let outcome = run(
        TOGETHER,
        &sizes,
        &policy(Disk::Reserve, Memory::Held),
        120_000_000,
    );
    assert_eq!((outcome.admitted, outcome.open), (16, 16));
    // Exact reads all at once meet the same peak in the same round: 16 × 875,000 ≤ 15,000,000 - 800,000.
    let outcome = run(
        TOGETHER,
        &sizes,
        &policy(Disk::Reads, Memory::Held),
        120_000_000,
    );
    assert_eq!(outcome.admitted, 16);
    // The peak charged in every round: 3 × 875,000 ≤ 3,000,000 < 4 × 875,000.
    let outcome = run(
        TOGETHER,
        &sizes,
        &policy(Disk::Reserve, Memory::Peak),
        3_000_000,
    );
    assert_eq!(outcome.admitted, 3);
}

#[test]
fn constant_rate_is_charged_its_whole_buffer() {
    let sizes = trace();
    let policy = Policy::constant_rate(&file_of(sizes.clone()), &sizes);
    assert!((49_900_000..=50_000_000).contains(&policy.peak));
    for (memory, streams) in [
        (49_000_000, 0),
        (60_000_000, 1),
        (120_000_000, 2),
        (150_000_000, 3),
    ] {
        assert_eq!(run(TOGETHER, &sizes, &policy, memory).admitted, streams);
    }
    let later = Trial {
        requests: 3,
        spacing: 24,
        window: 100,
        rounds: 1_700,
        ..TOGETHER
    };
    assert_eq!(run(later, &sizes, &policy, 60_000_000).admitted, 1);
}
