//! The stack that the board's functions take. A thread gets a stack that is painted before, and
//! runs them on many inputs; the lowest byte that has lost its paint tells how deep they went.
//! A thread that does all the same but calls nothing is subtracted.

use crate::queues::deepest;
use crate::streams::streams;
use beside::board::{self, ANSWER};
use beside::generate::Profile;
use beside::line::Event;
use beside::report::{Next, Reader};
use beside::sheet::PICTURE;
use std::alloc::{alloc, dealloc, Layout};
use std::ffi::{c_int, c_void};
use std::hint::black_box;

const STACK: usize = 1 << 18;
const PAINT: u8 = 0xa5;

pub fn print() {
    let inputs: Vec<Vec<u8>> = Profile::ALL.into_iter().flat_map(streams).collect();
    let mut work = Work::new(&inputs);
    let nothing = depth(|| work.judge_all(|_, _, _| 0));
    let judge = depth(|| work.judge_all(board::judge_into)) - nothing;
    let nothing = depth(|| work.report_all(|_, _| 0));
    let report = depth(|| work.report_all(board::report_into)) - nothing;
    let [tick, join] = deepest().map(|(policy, queue, event)| {
        let nothing = depth(|| happens(|_, _, _| 0, &policy, queue, event));
        depth(|| happens(board::happen_into, &policy, queue, event)) - nothing
    });
    println!("## Stack\n");
    println!("| Function | Bytes of stack |");
    println!("|---|---|");
    println!("| `selkaum_judge` | {judge} |");
    println!("| `selkaum_report` | {report} |");
    println!("| `selkaum_queue_tick` | {tick} |");
    println!("| `selkaum_queue_join` | {join} |");
}

/// One event on a copy of a waiting line.
fn happens(
    happen: fn(&mut [u8], &[u8], Event) -> u8,
    policy: &[u8; PICTURE],
    mut queue: [u8; 16],
    event: Event,
) {
    black_box(happen)(&mut queue, policy, event);
}

/// What the threads work on. All of it is there before they start, so that what they do besides
/// the calls needs next to no stack.
struct Work<'a> {
    inputs: &'a [Vec<u8>],
    founding: [u8; PICTURE],
    picture: [u8; PICTURE],
    answer: [u8; ANSWER],
    text: Vec<u8>,
}

impl Work<'_> {
    fn new(inputs: &[Vec<u8>]) -> Work<'_> {
        let longest = inputs.iter().map(Vec::len).max().expect("inputs");
        Work {
            inputs,
            founding: board::founding(),
            picture: [0; PICTURE],
            answer: [0; ANSWER],
            text: vec![0; board::room(longest)],
        }
    }

    /// Each record of each stream on the picture that the one before left.
    fn judge_all(&mut self, judge: fn(&[u8], &[u8], &mut [u8]) -> usize) {
        for input in self.inputs {
            self.picture.copy_from_slice(&self.founding);
            let mut reader = Reader::new(input);
            while let Next::Record(record) = reader.next_record() {
                black_box(judge)(&self.picture, record, &mut self.answer);
                self.picture.copy_from_slice(&self.answer[..PICTURE]);
            }
        }
    }

    fn report_all(&mut self, report: fn(&[u8], &mut [u8]) -> usize) {
        for input in self.inputs {
            black_box(report)(input, &mut self.text);
        }
    }
}

/// How many bytes from the top of its stack a thread comes that runs this.
fn depth<F: FnMut()>(mut run: F) -> usize {
    let layout = Layout::from_size_align(STACK, 4096).expect("a page's alignment");
    // SAFETY: the memory is this function's until it is freed. The thread that has it as its
    // stack has ended before it is read, and `run` outlives the thread.
    unsafe {
        let stack = alloc(layout);
        assert!(!stack.is_null());
        stack.write_bytes(PAINT, STACK);
        run_on_stack(&mut run, stack);
        let bytes = std::slice::from_raw_parts(stack, STACK);
        let untouched = bytes.iter().take_while(|&&byte| byte == PAINT).count();
        dealloc(stack, layout);
        STACK - untouched
    }
}

/// Runs the function in a thread with this stack, and waits for its end.
///
/// SAFETY: `stack` has `STACK` bytes that nothing else uses meanwhile.
unsafe fn run_on_stack<F: FnMut()>(run: &mut F, stack: *mut u8) {
    extern "C" fn start<F: FnMut()>(run: *mut c_void) -> *mut c_void {
        // SAFETY: it is the pointer that was handed to `pthread_create`.
        unsafe { (*(run as *mut F))() };
        std::ptr::null_mut()
    }
    let mut attributes = Attributes([0; 16]);
    let mut thread = 0;
    let run = run as *mut F as *mut c_void;
    assert_eq!(pthread_attr_init(&mut attributes), 0);
    assert_eq!(
        pthread_attr_setstack(&mut attributes, stack.cast(), STACK),
        0
    );
    assert_eq!(pthread_create(&mut thread, &attributes, start::<F>, run), 0);
    assert_eq!(pthread_join(thread, std::ptr::null_mut()), 0);
    assert_eq!(pthread_attr_destroy(&mut attributes), 0);
}

/// Room for a `pthread_attr_t`, of which Linux's libraries need 56 bytes or fewer.
#[repr(C)]
struct Attributes([u64; 16]);

extern "C" {
    fn pthread_attr_init(attributes: *mut Attributes) -> c_int;
    fn pthread_attr_destroy(attributes: *mut Attributes) -> c_int;
    fn pthread_attr_setstack(attributes: *mut Attributes, at: *mut c_void, size: usize) -> c_int;
    fn pthread_create(
        thread: *mut usize,
        attributes: *const Attributes,
        start: extern "C" fn(*mut c_void) -> *mut c_void,
        argument: *mut c_void,
    ) -> c_int;
    fn pthread_join(thread: usize, result: *mut *mut c_void) -> c_int;
}
