//! How deep a call goes: a thread makes it on a stack that the program owns and has painted, and
//! then looks how much of the paint is left.

use std::ffi::{c_int, c_void};
use std::ptr::null_mut;

pub type Call<'a> = dyn FnMut() + Send + 'a;

/// Far more than any call should use, so that too deep ones can be measured too.
const WORDS: usize = (1 << 20) / size_of::<u64>();
/// Each stack ends at such an address, so that equal calls use equally much.
const ALIGNMENT: usize = 4096;
/// Neither a length nor an address nor equal bytes.
const PAINT: u64 = 0x9E37_79B9_7F4A_7C15;

/// The bytes of stack that a call uses, without those of the thread that makes it. A panic in the
/// call ends the program.
pub fn stack_used(call: &mut Call) -> usize {
    let words = words_left(&mut || ()) - words_left(call);
    words * size_of::<u64>()
}

struct Job<'a> {
    call: &'a mut Call<'a>,
    /// The far end of the stack.
    lowest: *mut u64,
    /// How many words from there on are still painted after the call.
    left: usize,
}

fn words_left(call: &mut Call) -> usize {
    let mut painted = vec![PAINT; WORDS + ALIGNMENT / size_of::<u64>()];
    let start = painted.as_ptr().align_offset(ALIGNMENT);
    let stack = &mut painted[start..start + WORDS];
    let mut job = Job {
        call,
        lowest: stack.as_mut_ptr(),
        left: 0,
    };
    make(&mut job);
    assert!(job.left > 0, "a call used up its stack");
    job.left
}

/// Has a thread make the call.
fn make(job: &mut Job) {
    let (lowest, bytes) = (job.lowest.cast(), WORDS * size_of::<u64>());
    let job: *mut Job = job;
    let mut attributes = Attributes([0; 16]);
    let mut thread = 0;
    // Sound, since the thread is waited for: until then stack and job stay where they are, and
    // nobody else touches them.
    unsafe {
        done(pthread_attr_init(&mut attributes));
        done(pthread_attr_setstack(&mut attributes, lowest, bytes));
        done(pthread_create(&mut thread, &attributes, run, job.cast()));
        done(pthread_join(thread, null_mut()));
        done(pthread_attr_destroy(&mut attributes));
    }
}

fn done(error: c_int) {
    assert_eq!(error, 0, "no thread for a call");
}

extern "C" fn run(job: *mut c_void) -> *mut c_void {
    // Sound, since `make` waits and lends stack and job meanwhile.
    unsafe {
        let job = &mut *job.cast::<Job>();
        (job.call)();
        // Looked at here, since a thread that ends uses its stack once more.
        while job.lowest.add(job.left).read_volatile() == PAINT {
            job.left += 1;
        }
    }
    null_mut()
}

/// Room for a pthread_attr_t, which is smaller everywhere.
#[repr(C, align(16))]
struct Attributes([u64; 16]);

extern "C" {
    fn pthread_attr_init(attributes: *mut Attributes) -> c_int;
    fn pthread_attr_setstack(
        attributes: *mut Attributes,
        lowest: *mut c_void,
        bytes: usize,
    ) -> c_int;
    fn pthread_attr_destroy(attributes: *mut Attributes) -> c_int;
    fn pthread_create(
        thread: *mut usize,
        attributes: *const Attributes,
        run: extern "C" fn(*mut c_void) -> *mut c_void,
        job: *mut c_void,
    ) -> c_int;
    fn pthread_join(thread: usize, result: *mut *mut c_void) -> c_int;
}

#[cfg(test)]
mod tests {
    use super::*;
    use std::hint::black_box;

    #[inline(never)]
    fn fill<const BYTES: usize>() {
        black_box(&mut [1_u8; BYTES]);
    }

    #[test]
    fn an_empty_call_uses_nothing() {
        assert_eq!(stack_used(&mut || ()), 0);
    }

    #[test]
    fn arrays_are_seen() {
        let used = [
            stack_used(&mut fill::<4_096>),
            stack_used(&mut fill::<8_192>),
            stack_used(&mut fill::<512_000>),
        ];
        let steps = [used[1] - used[0], used[2] - used[1]];
        assert_eq!(steps, [4_096, 503_808], "{used:?}");
    }
}
