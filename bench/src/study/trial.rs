//! Requests for the film, one after the other, and how many are admitted.

use super::film::file_of;
use super::policy::{Disk, Memory, Policy};
use playback::limits::{MAX_DISK, MAX_MEMORY};
use playback::{Desk, FilmFile, Limits, Refusal, Request};

/// Bytes of the disk in a round of half a second: four disks of 60 Mbit/s (000's disk system 1).
pub const DISK: u64 = 15_000_000;
/// The loss of a round with 64 films open, which is charged in every round where what is read is charged exactly.
pub const LOSS_64: u64 = 800_000;
/// Cabs, so that no more films show at once.
pub const CABS: u32 = 64;

/// Requests that come every `spacing` rounds, each with a window of that many starts and a cab in turn.
#[derive(Clone, Copy, Debug, PartialEq, Eq)]
pub struct Trial {
    pub requests: u32,
    pub spacing: u64,
    pub window: u64,
    pub rounds: u64,
    /// The disk limit in bytes per round.
    pub disk: u64,
}

/// All in round 0.
pub const TOGETHER: Trial = Trial {
    requests: CABS,
    spacing: 0,
    window: 1,
    rounds: 1_500,
    disk: DISK,
};
/// One every 24 rounds.
pub const STAGGERED: Trial = Trial {
    requests: 200,
    spacing: 24,
    window: 100,
    rounds: 6_400,
    disk: DISK,
};
/// The same with a third less disk, so that exact reservation meets its limit too.
pub const SCARCE: Trial = Trial {
    disk: 10_000_000,
    ..STAGGERED
};

/// What became of a trial.
#[derive(Clone, Copy, Debug, Default, PartialEq)]
pub struct Outcome {
    pub admitted: u32,
    /// The most streams open in a round.
    pub open: u64,
    /// The rounds that admitted streams were put off, in the mean.
    pub wait: f64,
    /// The most bytes held in a round, by the schedules themselves.
    pub held: u64,
}

fn opened(file: &[u8], limits: Limits) -> Desk<'_> {
    let films = FilmFile::new(file).expect("the film file is accepted");
    Desk::open(films, limits).expect("the day is opened")
}

/// The start, or none where no start of the window fits.
fn start_of(desk: &mut Desk, request: Request) -> Option<u64> {
    match desk.book(request) {
        Ok(booked) => Some(booked.start),
        Err(Refusal::NoStart) => None,
        Err(refusal) => panic!("{refusal}"),
    }
}

/// Runs the requests under the policy. Where a charge goes beside the desk's own rule, a request is admitted at the first start that
/// both the desk and the desk of charges take.
pub fn run(trial: Trial, sizes: &[u32], policy: &Policy, memory: u64) -> Outcome {
    let own = Limits {
        rounds: trial.rounds,
        disk: match policy.disk {
            Disk::Reserve => trial.disk,
            Disk::Reads => MAX_DISK,
        },
        memory: match policy.memory {
            Memory::Held => memory,
            Memory::Peak => MAX_MEMORY,
        },
    };
    let file = file_of(sizes.to_vec());
    let mut desk = opened(&file, own);
    let charge = policy.charge();
    let mut charges = charge.as_ref().map(|charge| {
        let limit = match policy.disk {
            Disk::Reserve => memory / charge.unit,
            Disk::Reads => trial.disk - LOSS_64,
        };
        let limits = Limits {
            rounds: trial.rounds,
            disk: MAX_DISK,
            memory: limit,
        };
        opened(&charge.file, limits)
    });
    let mut outcome = Outcome::default();
    let mut waited = 0;
    for name in 0..trial.requests {
        let arrival = u64::from(name) * trial.spacing;
        let last = arrival + trial.window - 1;
        let cabs = 1 << (name % CABS);
        let mut first = arrival;
        let start = loop {
            let request = policy.request(name, cabs, first, last);
            let Some(start) = start_of(&mut desk, request) else {
                break None;
            };
            let (Some(charge), Some(charges)) = (&charge, &mut charges) else {
                break Some(start);
            };
            match start_of(charges, charge.request(name, cabs, start, last)) {
                Some(same) if same == start => break Some(start),
                Some(later) => {
                    charges.drop_booking(name).expect("it stands");
                    desk.drop_booking(name).expect("it stands");
                    first = later;
                }
                None => {
                    desk.drop_booking(name).expect("it stands");
                    break None;
                }
            }
        };
        match start {
            Some(start) => {
                outcome.admitted += 1;
                waited += start - arrival;
            }
            // Later ones would be refused too.
            None if trial.spacing == 0 => break,
            None => {}
        }
    }
    outcome.open = desk.sheet().opens.iter().copied().max().unwrap_or(0);
    outcome.held = desk.sheet().helds.iter().copied().max().unwrap_or(0);
    outcome.wait = waited as f64 / f64::from(outcome.admitted.max(1));
    outcome
}

/// The policy of the reserve under which most are admitted, the smallest such, of the reserves given; with its outcome.
pub fn best(
    trial: Trial,
    sizes: &[u32],
    memory: u64,
    policies: impl Iterator<Item = Policy>,
) -> Option<(Policy, Outcome)> {
    let mut best: Option<(Policy, Outcome)> = None;
    for policy in policies {
        let outcome = run(trial, sizes, &policy, memory);
        if best
            .as_ref()
            .is_none_or(|(_, before)| before.admitted < outcome.admitted)
        {
            best = Some((policy, outcome));
        }
    }
    best
}
