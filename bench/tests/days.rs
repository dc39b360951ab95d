//! The days that are measured are what the documents say of them.

use bench::days::{day_at_once, taken_last, Size};
use bench::scheduler::{Library, Scheduler};

/// The start at which the library takes the request; 0 and a refusal where it does not.
fn booked(starts: u64, fewer: u64) -> (u32, u64) {
    let mut fixture = taken_last(starts);
    fixture.request.last -= fewer;
    let reply = Library.book(
        &fixture.file,
        fixture.day,
        &mut fixture.records,
        fixture.request,
        &mut fixture.sheet,
    );
    (reply.refusal, reply.start)
}

#[test]
fn the_last_start_alone_is_taken() {
    for starts in [1, 10, 100, 1_000] {
        let last = taken_last(starts).request.last;
        assert_eq!(booked(starts, 0), (0, last), "{starts} starts");
        if starts > 1 {
            assert_eq!(booked(starts, 1), (22, 0), "all but the last of {starts}");
        }
    }
}

#[test]
fn at_once_64_are_open_and_a_place_is_left() {
    let size = Size {
        rounds: 86_400,
        bookings: 256,
        film: 512,
    };
    let full = day_at_once(size);
    assert_eq!(full.sheet.opens.iter().max(), Some(&64));
    assert_eq!(full.sheet.opens[full.day.now as usize], 64);
    let mut fixture = day_at_once(Size {
        bookings: 255,
        ..size
    });
    let reply = Library.book(
        &fixture.file,
        fixture.day,
        &mut fixture.records,
        fixture.request,
        &mut fixture.sheet,
    );
    assert_eq!((reply.refusal, reply.start), (0, 64_800));
}
