//! One call measured in every version, on the same input.

use crate::days::{opening, Fixture};
use crate::fast::Fast;
use crate::measure::{measure, ratio, thread_time, Effort, Timed, Times};
use crate::obvious::Obvious;
use crate::scheduler::{Library, Scheduler, Sheet};
use playback::{Booking, Line, Refusal};
use std::hint::black_box;
use std::time::Duration;

/// A call that is measured.
#[derive(Clone, Copy, Debug, PartialEq, Eq)]
pub enum Call {
    Verdict,
    Schedule {
        film: u64,
        reserve: u64,
    },
    LeastReserve {
        film: u64,
        cap: u64,
    },
    Book,
    Drop,
    /// A drop of a name that no booking bears.
    DropUnknown,
    Play,
    Replay,
}

/// Everything that a call is given and lent.
#[derive(Clone)]
pub struct State {
    pub fixture: Fixture,
    pub totals: Vec<u64>,
    pub report: Vec<Line>,
    pub journal: Vec<u64>,
    pub log: Vec<u64>,
}

impl State {
    pub fn new(fixture: Fixture) -> State {
        State {
            fixture,
            totals: vec![0; 4_400],
            report: vec![Line::default(); 256],
            journal: Vec::new(),
            log: Vec::new(),
        }
    }
}

/// What a call writes to, a version its own.
#[derive(Clone, Debug, PartialEq, Eq)]
struct Lent {
    records: Vec<Booking>,
    sheet: Sheet,
    totals: Vec<u64>,
    report: Vec<Line>,
    log: Vec<u64>,
}

impl Lent {
    fn of(state: &State) -> Lent {
        Lent {
            records: state.fixture.records.clone(),
            sheet: state.fixture.sheet.clone(),
            totals: state.totals.clone(),
            report: state.report.clone(),
            log: state.log.clone(),
        }
    }

    /// The day's lists alone.
    fn day_of(state: &State) -> Lent {
        Lent {
            records: state.fixture.records.clone(),
            sheet: state.fixture.sheet.clone(),
            totals: Vec::new(),
            report: Vec::new(),
            log: Vec::new(),
        }
    }

    /// The day's lists as they stand in the state.
    fn restore_day(&mut self, state: &State) {
        let sheet = &state.fixture.sheet;
        self.records.copy_from_slice(&state.fixture.records);
        self.sheet.opens.copy_from_slice(&sheet.opens);
        self.sheet.reserves.copy_from_slice(&sheet.reserves);
        self.sheet.helds.copy_from_slice(&sheet.helds);
    }
}

/// A call of a version again and again. Where a call changes what it is lent, each is lent lists of its own, as they stood before it.
struct Repeated<'a> {
    version: &'a dyn Scheduler,
    call: Call,
    changes: bool,
    state: &'a State,
    lent: Vec<Lent>,
    next: usize,
}

impl<'a> Repeated<'a> {
    fn new(
        version: &'a dyn Scheduler,
        call: Call,
        changes: bool,
        state: &'a State,
    ) -> Repeated<'a> {
        Repeated {
            version,
            call,
            changes,
            state,
            lent: vec![Lent::of(state)],
            next: 0,
        }
    }
}

impl Timed for Repeated<'_> {
    fn prepare(&mut self, calls: usize) {
        if self.changes {
            while self.lent.len() < calls {
                self.lent.push(Lent::day_of(self.state));
            }
            for lent in &mut self.lent[..calls] {
                lent.restore_day(self.state);
            }
        }
        self.next = 0;
    }

    fn call(&mut self) {
        let state = black_box(self.state);
        black_box(carry_out(
            self.version,
            self.call,
            state,
            &mut self.lent[self.next],
        ));
        if self.changes {
            self.next += 1;
        }
    }
}

/// Makes the call. What it gives is enough to tell whether two versions agree.
fn carry_out(version: &dyn Scheduler, call: Call, state: &State, lent: &mut Lent) -> [u64; 4] {
    let Fixture {
        file,
        day,
        records,
        request,
        ..
    } = &state.fixture;
    let prefetch = request.prefetch;
    let reply = match call {
        Call::Verdict => return [version.verdict(file).into(), 0, 0, 0],
        Call::Schedule { film, reserve } => {
            let refusal = version.schedule(file, film, prefetch, reserve, &mut lent.totals);
            return [refusal.into(), 0, 0, 0];
        }
        Call::LeastReserve { film, cap } => {
            let answer = version.least_reserve(file, film, prefetch, cap);
            return [answer.refusal.into(), answer.bytes, 0, 0];
        }
        Call::Replay => {
            let Lent {
                records,
                sheet,
                log,
                ..
            } = lent;
            let opening = opening(&state.fixture);
            let answer = version.replay(file, opening, records, &state.journal, log, sheet);
            return [
                answer.refusal.into(),
                answer.entries,
                answer.words,
                answer.day.count,
            ];
        }
        Call::Book => version.book(file, *day, &mut lent.records, *request, &mut lent.sheet),
        Call::Drop => {
            let name = records[day.count as usize / 2].name;
            version.drop_booking(file, *day, &mut lent.records, name, &mut lent.sheet)
        }
        Call::DropUnknown => {
            version.drop_booking(file, *day, &mut lent.records, 0, &mut lent.sheet)
        }
        Call::Play => version.play(file, *day, records, &mut lent.report),
    };
    [
        reply.refusal.into(),
        reply.start,
        reply.films,
        reply.cabs + 1_000 * reply.day.count,
    ]
}

/// Whether a call with that refusal, or 0, changes the day's lists: a refused one does not, but that 22 works the sheet out.
fn changes_lists(call: Call, refusal: u64) -> bool {
    let answered = refusal == 0 || refusal == u64::from(Refusal::NoStart.number());
    matches!(call, Call::Book | Call::Drop) && answered
}

/// How long the obvious version takes.
#[derive(Clone, Copy, Debug, PartialEq)]
pub enum Slow {
    NotTried,
    Takes(f64),
    /// It was stopped after this many seconds.
    Over(f64),
}

/// The result of a contest.
pub struct Contest {
    pub library: Times,
    pub fast: Times,
    pub slow: Slow,
    /// The refusal that all gave; 0 where the call was accepted.
    pub refusal: u64,
}

impl Contest {
    /// The library's time by the fast version's, the median over runs that followed each other.
    pub fn ratio(&self) -> f64 {
        if self.library.runs() == 1 {
            return self.library.median() / self.fast.median();
        }
        ratio(&self.library, &self.fast)
    }
}

/// Seconds after which the obvious version is stopped.
const PATIENCE: f64 = 4.0;
/// A call that takes more seconds than this is measured once.
const LONG: f64 = 3.0;

/// Measures the call in every version, after seeing that they agree on the answer and on everything lent.
pub fn contest(call: Call, state: &State, effort: Effort, try_obvious: bool) -> Contest {
    let mut by_library = Lent::of(state);
    let mut by_fast = by_library.clone();
    let begin = thread_time();
    let answer = carry_out(&Library, call, state, &mut by_library);
    let once = thread_time() - begin;
    let other = carry_out(&Fast, call, state, &mut by_fast);
    assert_eq!(answer, other, "{call:?}");
    assert!(by_library == by_fast, "{call:?}: what is lent differs");
    let slow = if try_obvious {
        obvious(call, state, answer, &by_library)
    } else {
        Slow::NotTried
    };
    let changes = changes_lists(call, answer[0]);
    let mut library = Repeated::new(&Library, call, changes, state);
    let mut fast = Repeated::new(&Fast, call, changes, state);
    let (library, fast) = if once > LONG {
        let mut times = measure(thread_time, effort, &mut [&mut fast]);
        (Times::once(once), times.swap_remove(0))
    } else {
        let mut times = measure(thread_time, effort, &mut [&mut library, &mut fast]);
        (times.remove(0), times.remove(0))
    };
    Contest {
        library,
        fast,
        slow,
        refusal: answer[0],
    }
}

/// The library's time alone.
pub fn library_time(call: Call, state: &State, effort: Effort) -> f64 {
    let mut lent = Lent::of(state);
    let begin = thread_time();
    let answer = carry_out(&Library, call, state, &mut lent);
    let once = thread_time() - begin;
    if once > LONG {
        return once;
    }
    let changes = changes_lists(call, answer[0]);
    let mut library = Repeated::new(&Library, call, changes, state);
    measure(thread_time, effort, &mut [&mut library])[0].median()
}

/// The obvious version's median over a few runs, which must agree too.
fn obvious(call: Call, state: &State, answer: [u64; 4], expected: &Lent) -> Slow {
    let version = Obvious::default();
    let mut lent = Lent::of(state);
    let begin = thread_time();
    version.until.set(Some(begin + PATIENCE));
    let given = carry_out(&version, call, state, &mut lent);
    let first = thread_time() - begin;
    if version.gave_up.get() {
        return Slow::Over(first);
    }
    assert_eq!(answer, given, "{call:?}");
    assert!(lent == *expected, "{call:?}: what is lent differs");
    if first > 0.5 {
        return Slow::Takes(first);
    }
    version.until.set(None);
    let effort = Effort {
        runs: 5,
        time: Duration::from_millis(60),
        run: Duration::from_micros(1),
    };
    let changes = changes_lists(call, answer[0]);
    let mut again = Repeated::new(&version, call, changes, state);
    Slow::Takes(measure(thread_time, effort, &mut [&mut again])[0].median())
}

/// One call of a version, for counting its instructions or its stack.
pub fn once(version: &dyn Scheduler, call: Call, state: &State) -> impl FnMut() {
    let state = state.clone();
    let mut lent = Lent::of(&state);
    let version: Box<dyn Scheduler> = match version.name() {
        "library" => Box::new(Library),
        _ => Box::new(Fast),
    };
    move || {
        black_box(carry_out(version.as_ref(), call, &state, &mut lent));
    }
}
