//! Times of calls: medians of repeated runs with their spread, and ratios within one run. Times are processor time, which on a
//! quiet machine is the time that passes, and on a busy one leaves out what other programs take.

use std::ffi::{c_int, c_long};
use std::time::{Duration, Instant};

/// C's timespec and timeval on x86-64: seconds, and a part of one.
#[repr(C)]
#[derive(Default)]
struct Moment {
    seconds: c_long,
    part: c_long,
}

/// C's rusage: time in the program, time in the system, and what is not looked at.
#[repr(C)]
#[derive(Default)]
struct Usage {
    program: Moment,
    system: Moment,
    rest: [c_long; 14],
}

extern "C" {
    fn clock_gettime(clock: c_int, moment: *mut Moment) -> c_int;
    fn getrusage(whose: c_int, usage: *mut Usage) -> c_int;
}

const CLOCK_THREAD_CPUTIME_ID: c_int = 3;
const RUSAGE_CHILDREN: c_int = -1;

/// Seconds of processor time that this thread has taken.
pub fn thread_time() -> f64 {
    let mut moment = Moment::default();
    // SAFETY: the moment is ours, and laid out as C's.
    let answer = unsafe { clock_gettime(CLOCK_THREAD_CPUTIME_ID, &mut moment) };
    assert_eq!(answer, 0);
    moment.seconds as f64 + moment.part as f64 * 1e-9
}

/// Seconds of processor time that programs have taken which this one started and which have ended.
pub fn children_time() -> f64 {
    let mut usage = Usage::default();
    // SAFETY: the record is ours, and laid out as C's.
    let answer = unsafe { getrusage(RUSAGE_CHILDREN, &mut usage) };
    assert_eq!(answer, 0);
    let of = |moment: &Moment| moment.seconds as f64 + moment.part as f64 * 1e-6;
    of(&usage.program) + of(&usage.system)
}

/// Seconds of one call over repeated runs.
#[derive(Clone, Debug, Default)]
pub struct Times(Vec<f64>);

/// The value below which that part of the values lies.
fn quantile(values: &[f64], part: f64) -> f64 {
    let mut sorted = values.to_vec();
    sorted.sort_by(f64::total_cmp);
    sorted[((sorted.len() - 1) as f64 * part).round() as usize]
}

impl Times {
    /// A single run.
    pub fn once(time: f64) -> Times {
        Times(vec![time])
    }

    pub fn median(&self) -> f64 {
        quantile(&self.0, 0.5)
    }

    /// Half of what lies between the quartiles, in percent of the median.
    pub fn spread(&self) -> f64 {
        let between = quantile(&self.0, 0.75) - quantile(&self.0, 0.25);
        50.0 * between / self.median()
    }

    pub fn runs(&self) -> usize {
        self.0.len()
    }
}

/// The median of the ratios of runs that followed each other.
pub fn ratio(of: &Times, to: &Times) -> f64 {
    let ratios: Vec<f64> = of.0.iter().zip(&to.0).map(|(of, to)| of / to).collect();
    quantile(&ratios, 0.5)
}

/// How long a case is measured.
#[derive(Clone, Copy, Debug)]
pub struct Effort {
    /// Runs of each call, at least.
    pub runs: usize,
    /// No further run begins after this time.
    pub time: Duration,
    /// A run repeats its call until it takes this long.
    pub run: Duration,
}

impl Default for Effort {
    fn default() -> Effort {
        Effort {
            runs: 9,
            time: Duration::from_millis(500),
            run: Duration::from_micros(400),
        }
    }
}

/// A call that is timed.
pub trait Timed {
    /// Makes ready for a run of that many calls, outside its time.
    fn prepare(&mut self, calls: usize);
    fn call(&mut self);
}

/// A call that needs nothing before it.
impl<F: FnMut()> Timed for F {
    fn prepare(&mut self, _calls: usize) {}

    fn call(&mut self) {
        self();
    }
}

fn timed(clock: fn() -> f64, timed: &mut dyn Timed, calls: usize) -> f64 {
    timed.prepare(calls);
    let begin = clock();
    for _ in 0..calls {
        timed.call();
    }
    (clock() - begin) / calls as f64
}

/// Measures calls in turn: one run of each, again and again, so that what slows the machine down slows all of them. The first run
/// of each is not counted.
pub fn measure(clock: fn() -> f64, effort: Effort, calls: &mut [&mut dyn Timed]) -> Vec<Times> {
    let mut repeats = Vec::new();
    for call in calls.iter_mut() {
        let once = timed(clock, *call, 1).max(1e-9);
        repeats.push((effort.run.as_secs_f64() / once).ceil().clamp(1.0, 1e6) as usize);
    }
    let mut times = vec![Times::default(); calls.len()];
    let begin = Instant::now();
    while times[0].runs() < effort.runs || begin.elapsed() < effort.time {
        for ((call, times), &repeats) in calls.iter_mut().zip(&mut times).zip(&repeats) {
            times.0.push(timed(clock, *call, repeats));
        }
        if times[0].runs() >= 201 {
            break;
        }
    }
    times
}

/// A time in a unit that fits.
pub fn seconds(time: f64) -> String {
    let (value, unit) = match time {
        time if time < 1e-6 => (time * 1e9, "ns"),
        time if time < 1e-3 => (time * 1e6, "µs"),
        time if time < 1.0 => (time * 1e3, "ms"),
        time => (time, "s"),
    };
    let digits = match value {
        value if value < 10.0 => 2,
        value if value < 100.0 => 1,
        _ => 0,
    };
    format!("{value:.digits$} {unit}")
}

/// The slope of a line through the points on logarithmic axes: by which power the second grows with the first.
pub fn slope(points: &[(f64, f64)]) -> f64 {
    let logs: Vec<(f64, f64)> = points.iter().map(|(x, y)| (x.ln(), y.ln())).collect();
    let count = logs.len() as f64;
    let mean_x = logs.iter().map(|point| point.0).sum::<f64>() / count;
    let mean_y = logs.iter().map(|point| point.1).sum::<f64>() / count;
    let across: f64 = logs.iter().map(|point| (point.0 - mean_x).powi(2)).sum();
    let both: f64 = logs
        .iter()
        .map(|point| (point.0 - mean_x) * (point.1 - mean_y))
        .sum();
    both / across
}

#[cfg(test)]
mod tests {
    use super::*;

    #[test]
    fn slopes_are_powers() {
        let square: Vec<(f64, f64)> = (1..9).map(f64::from).map(|x| (x, 3.0 * x * x)).collect();
        assert!((slope(&square) - 2.0).abs() < 1e-9);
    }

    #[test]
    fn medians_and_ratios() {
        let one = Times(vec![2.0, 4.0, 6.0]);
        let other = Times(vec![1.0, 4.0, 2.0]);
        assert_eq!(one.median(), 4.0);
        assert_eq!(ratio(&one, &other), 2.0);
    }

    #[test]
    fn units_fit() {
        assert_eq!(seconds(0.000_012_34), "12.3 µs");
        assert_eq!(seconds(0.345), "345 ms");
        assert_eq!(seconds(2.0), "2.00 s");
    }
}
