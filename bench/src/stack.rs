//! The stack that a call takes, by running it on a thread whose stack is ours and was filled with a pattern before.

use std::ffi::{c_int, c_void};
use std::mem::MaybeUninit;
use std::ptr::null_mut;

/// Bytes of the stack that calls are measured on.
const STACK: usize = 4 << 20;
/// Stacks begin at multiples of a page.
const PAGE: usize = 4096;
const PATTERN: u8 = 0xa5;

/// glibc's pthread_attr_t on x86-64.
#[repr(C, align(8))]
struct Attributes([u8; 56]);

extern "C" {
    fn pthread_attr_init(attributes: *mut Attributes) -> c_int;
    fn pthread_attr_setstack(attributes: *mut Attributes, stack: *mut c_void, size: usize)
        -> c_int;
    fn pthread_attr_destroy(attributes: *mut Attributes) -> c_int;
    fn pthread_create(
        thread: *mut usize,
        attributes: *const Attributes,
        start: extern "C" fn(*mut c_void) -> *mut c_void,
        argument: *mut c_void,
    ) -> c_int;
    fn pthread_join(thread: usize, result: *mut *mut c_void) -> c_int;
}

/// A call, and where on the stack it is made from.
struct Errand<'a> {
    call: &'a mut dyn FnMut(),
    from: usize,
}

extern "C" fn run(errand: *mut c_void) -> *mut c_void {
    let here = 0_u8;
    // SAFETY: `stack_of` gives a pointer to an errand that outlives the thread and is used by nobody else meanwhile.
    let errand = unsafe { &mut *errand.cast::<Errand>() };
    errand.from = (&raw const here) as usize;
    (errand.call)();
    null_mut()
}

/// Bytes of stack that the call takes: from where it is made down to the lowest byte that the thread changes. A thread's own end
/// takes some hundred bytes, so that a call which takes less is not seen.
pub fn stack_of(call: &mut dyn FnMut()) -> usize {
    let mut errand = Errand { call, from: 0 };
    let mut memory = vec![PATTERN; STACK + PAGE];
    let offset = memory.as_ptr().align_offset(PAGE);
    let stack = &mut memory[offset..offset + STACK];
    // SAFETY: the stack is aligned, is ours alone and outlives the thread, which is joined below.
    unsafe {
        let mut attributes = MaybeUninit::<Attributes>::uninit();
        assert_eq!(pthread_attr_init(attributes.as_mut_ptr()), 0);
        let base = stack.as_mut_ptr().cast();
        let set = pthread_attr_setstack(attributes.as_mut_ptr(), base, STACK);
        assert_eq!(set, 0);
        let mut thread = 0;
        let argument = (&raw mut errand).cast();
        let made = pthread_create(&mut thread, attributes.as_ptr(), run, argument);
        assert_eq!(made, 0);
        assert_eq!(pthread_join(thread, null_mut()), 0);
        pthread_attr_destroy(attributes.as_mut_ptr());
    }
    let lowest = stack.iter().take_while(|&&byte| byte == PATTERN).count();
    errand.from - (stack.as_ptr() as usize + lowest)
}

#[cfg(test)]
mod tests {
    use super::*;
    use std::hint::black_box;

    #[test]
    fn a_local_array_is_seen() {
        let bytes = stack_of(&mut || {
            let array = black_box([1_u8; 50_000]);
            black_box(array.iter().map(|&byte| u64::from(byte)).sum::<u64>());
        });
        assert!((50_000..160_000).contains(&bytes), "{bytes}");
        let nothing = stack_of(&mut || {});
        assert!(nothing < 4_096, "{nothing}");
    }
}
