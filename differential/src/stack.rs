//! A thread whose stack is 256 KiB, and how much of it a call uses.

use std::ffi::{c_int, c_void};
use std::panic::{catch_unwind, resume_unwind, AssertUnwindSafe};
use std::ptr::null_mut;
use std::thread;

/// Bytes of the stack, with all that the thread itself needs.
pub const STACK: usize = 256 * 1024;
/// Bytes before it that nobody may touch: a call that needs more ends the program.
const GUARD: usize = 4096;
/// What an untouched word of the stack holds.
const PAINT: u64 = 0xA5C3_96E1_5A3C_691E;

/// glibc's pthread_attr_t on x86-64.
#[repr(C, align(8))]
struct Attributes([u8; 56]);

extern "C" {
    fn mmap(
        at: *mut c_void,
        n: usize,
        access: c_int,
        kind: c_int,
        fd: c_int,
        from: i64,
    ) -> *mut c_void;
    fn mprotect(at: *mut c_void, n: usize, access: c_int) -> c_int;
    fn pthread_attr_init(attributes: *mut Attributes) -> c_int;
    fn pthread_attr_setstack(attributes: *mut Attributes, at: *mut c_void, n: usize) -> c_int;
    fn pthread_attr_destroy(attributes: *mut Attributes) -> c_int;
    fn pthread_create(
        thread: *mut usize,
        attributes: *const Attributes,
        start: extern "C" fn(*mut c_void) -> *mut c_void,
        argument: *mut c_void,
    ) -> c_int;
    fn pthread_join(thread: usize, result: *mut *mut c_void) -> c_int;
}

const NO_ACCESS: c_int = 0;
const READ_WRITE: c_int = 3;
const PRIVATE_ANONYMOUS: c_int = 0x22;

/// The memory of the stack, used by one thread after another.
pub struct Stack {
    words: *mut u64,
}

/// Bytes of stack: of a call, and of its thread before it.
#[derive(Clone, Copy, Debug, Default)]
pub struct Used {
    pub call: usize,
    pub thread: usize,
}

/// What a thread is given and gives back.
struct Job<F, T> {
    call: Option<F>,
    result: Option<thread::Result<T>>,
    entry: usize,
}

extern "C" fn start<F: FnOnce() -> T, T>(argument: *mut c_void) -> *mut c_void {
    // SAFETY: `Stack::run` passes its own job and does not touch it before the thread has ended.
    let job = unsafe { &mut *argument.cast::<Job<F, T>>() };
    let here = 0u64;
    job.entry = std::hint::black_box(&raw const here).addr();
    let call = job.call.take().expect("a job is started once");
    job.result = Some(catch_unwind(AssertUnwindSafe(call)));
    null_mut()
}

impl Stack {
    /// Maps the memory. It is kept until the program ends.
    pub fn new() -> Stack {
        // SAFETY: a new mapping of its own; its first bytes are closed and never used.
        let memory = unsafe {
            mmap(
                null_mut(),
                GUARD + STACK,
                READ_WRITE,
                PRIVATE_ANONYMOUS,
                -1,
                0,
            )
        };
        assert_ne!(memory.addr(), usize::MAX, "no memory for the stack");
        assert_eq!(unsafe { mprotect(memory, GUARD, NO_ACCESS) }, 0);
        Stack {
            words: memory.wrapping_byte_add(GUARD).cast(),
        }
    }

    /// Runs the call on a thread of its own, on this stack. Answers what it gave and what it used of the stack.
    pub fn run<T: Send, F: FnOnce() -> T + Send>(&mut self, call: F) -> (T, Used) {
        // SAFETY: no thread runs on the stack now.
        unsafe { std::slice::from_raw_parts_mut(self.words, STACK / 8) }.fill(PAINT);
        let mut job = Job {
            call: Some(call),
            result: None,
            entry: 0,
        };
        let mut attributes = Attributes([0; 56]);
        let mut thread = 0;
        // SAFETY: the stack and the job outlive the thread, which is joined here.
        unsafe {
            assert_eq!(pthread_attr_init(&mut attributes), 0);
            let set = pthread_attr_setstack(&mut attributes, self.words.cast(), STACK);
            assert_eq!(set, 0);
            let argument = (&raw mut job).cast();
            let created = pthread_create(&mut thread, &attributes, start::<F, T>, argument);
            assert_eq!(created, 0, "no thread");
            assert_eq!(pthread_join(thread, null_mut()), 0);
            pthread_attr_destroy(&mut attributes);
        }
        let used = Used {
            call: job.entry - self.lowest_touched(),
            thread: self.words.addr() + STACK - job.entry,
        };
        match job.result.expect("the thread has ended") {
            Ok(result) => (result, used),
            Err(panic) => resume_unwind(panic),
        }
    }

    /// The address of the lowest word that was written.
    fn lowest_touched(&self) -> usize {
        // SAFETY: no thread runs on the stack now.
        let words = unsafe { std::slice::from_raw_parts(self.words, STACK / 8) };
        let untouched = words.iter().take_while(|&&word| word == PAINT).count();
        self.words.addr() + 8 * untouched
    }
}
