//! One call of both implementations, and the comparison.

use crate::stack::Stack;
use crate::tally::{Function, Tally};
use std::fmt::Debug;
use std::time::Instant;

/// A difference between the two implementations, in words.
#[derive(Clone, Debug)]
pub struct Difference(pub String);

pub type Compared<T = ()> = Result<T, Difference>;

/// Runs calls and keeps the tally.
pub struct Harness {
    stack: Stack,
    pub tally: Tally,
    pub calls: u64,
}

impl Harness {
    pub fn new() -> Harness {
        Harness {
            stack: Stack::new(),
            tally: Tally::default(),
            calls: 0,
        }
    }

    /// Runs the second implementation here and the library on the small stack. Answers what each gave, in this order.
    pub fn call<R, L: Send>(
        &mut self,
        function: Function,
        reference: impl FnOnce() -> R,
        library: impl FnOnce() -> L + Send,
    ) -> (R, L) {
        let begin = Instant::now();
        let expected = reference();
        let reference_time = begin.elapsed();
        let ((found, library_time), used) = self.stack.run(|| {
            let begin = Instant::now();
            let found = library();
            (found, begin.elapsed())
        });
        self.tally
            .cost(function, library_time, reference_time, used);
        self.calls += 1;
        (expected, found)
    }
}

impl Harness {
    /// Runs anything on the small stack.
    pub fn on_stack<T: Send>(&mut self, call: impl FnOnce() -> T + Send) -> T {
        self.stack.run(call).0
    }
}

/// The two values must be the same.
pub fn same<T: PartialEq + Debug>(what: &str, expected: &T, found: &T) -> Compared {
    if expected == found {
        return Ok(());
    }
    Err(Difference(format!(
        "{what}: expected {expected:?}, found {found:?}"
    )))
}

/// Places on each side of a lent list that no call may touch.
const AROUND: usize = 5;

/// A list that is lent from the middle of a longer one.
#[derive(Clone, Debug)]
pub struct Lent<T> {
    places: Vec<T>,
}

impl<T: Copy + PartialEq + Debug> Lent<T> {
    pub fn new(list: &[T], around: T) -> Lent<T> {
        let mut places = vec![around; AROUND];
        places.extend_from_slice(list);
        places.extend([around; AROUND]);
        Lent { places }
    }

    /// The lent part.
    pub fn list(&mut self) -> &mut [T] {
        let end = self.places.len() - AROUND;
        &mut self.places[AROUND..end]
    }

    /// The lent places must be those expected, the ones around it as they were.
    pub fn compare(&self, what: &str, expected: &[T], around: T) -> Compared {
        let wanted = Lent::new(expected, around).places;
        if wanted == self.places {
            return Ok(());
        }
        let place = (0..wanted.len()).find(|&i| wanted[i] != self.places[i]);
        let place = place.expect("the lists are of one length");
        Err(Difference(format!(
            "{what}, place {} of {}: expected {:?}, found {:?}",
            place as i64 - AROUND as i64,
            expected.len(),
            wanted[place],
            self.places[place]
        )))
    }
}
