//! Prints peak stack and peak heap of each call, as lines: CALL SIDE STACK HEAP, in bytes.
//!
//! Stack: the call runs on a thread whose stack is memory that was painted before; the lowest byte that differs afterwards
//! shows how deep it went. What a thread needs for an empty call is subtracted. Heap: an allocator that counts.

use std::alloc::{GlobalAlloc, Layout, System};
use std::ffi::c_void;
use std::ptr;
use std::sync::atomic::{AtomicUsize, Ordering::Relaxed};

use bench::{seeds, Call, Input, Side, CALLS, SIDES};

const STACK: usize = 8 << 20;
const PAINT: u8 = 0xA5;

/// Counts the bytes allocated now, and the most so far.
struct Counting;

static NOW: AtomicUsize = AtomicUsize::new(0);
static MOST: AtomicUsize = AtomicUsize::new(0);

// SAFETY: the system's allocator does all the work.
unsafe impl GlobalAlloc for Counting {
    unsafe fn alloc(&self, layout: Layout) -> *mut u8 {
        let now = NOW.fetch_add(layout.size(), Relaxed) + layout.size();
        MOST.fetch_max(now, Relaxed);
        System.alloc(layout)
    }

    unsafe fn dealloc(&self, pointer: *mut u8, layout: Layout) {
        NOW.fetch_sub(layout.size(), Relaxed);
        System.dealloc(pointer, layout);
    }
}

#[global_allocator]
static ALLOCATOR: Counting = Counting;

/// glibc's thread attributes are 56 bytes on x86-64.
type Attributes = [u64; 8];

extern "C" {
    fn pthread_attr_init(attributes: *mut Attributes) -> i32;
    fn pthread_attr_setstack(attributes: *mut Attributes, stack: *mut u8, size: usize) -> i32;
    fn pthread_create(
        thread: *mut usize,
        attributes: *const Attributes,
        start: extern "C" fn(*mut c_void) -> *mut c_void,
        argument: *mut c_void,
    ) -> i32;
    fn pthread_join(thread: usize, result: *mut *mut c_void) -> i32;
}

/// What the thread does: one call, or nothing.
struct Job {
    input: Input,
    call: Option<(Call, Side)>,
}

extern "C" fn start(argument: *mut c_void) -> *mut c_void {
    // SAFETY: `on_painted_stack` passes its job and waits for the thread.
    let job = unsafe { &mut *argument.cast::<Job>() };
    if let Some((call, side)) = job.call {
        job.input.call(call, side);
    }
    ptr::null_mut()
}

/// How many bytes of a painted stack a job changes.
fn on_painted_stack(job: &mut Job) -> usize {
    let layout = Layout::from_size_align(STACK, 4096).expect("a stack's layout");
    // SAFETY: the memory is as large as the layout says and is freed after the thread has ended.
    unsafe {
        let stack = System.alloc(layout);
        ptr::write_bytes(stack, PAINT, STACK);
        let mut attributes: Attributes = [0; 8];
        let mut thread = 0;
        assert_eq!(pthread_attr_init(&mut attributes), 0);
        assert_eq!(pthread_attr_setstack(&mut attributes, stack, STACK), 0);
        let argument = (job as *mut Job).cast();
        assert_eq!(pthread_create(&mut thread, &attributes, start, argument), 0);
        assert_eq!(pthread_join(thread, ptr::null_mut()), 0);
        let bytes = std::slice::from_raw_parts(stack, STACK);
        let untouched = bytes.iter().take_while(|&&byte| byte == PAINT).count();
        System.dealloc(stack, layout);
        STACK - untouched
    }
}

fn heap(input: &mut Input, call: Call, side: Side) -> usize {
    let before = NOW.load(Relaxed);
    MOST.store(before, Relaxed);
    input.call(call, side);
    MOST.load(Relaxed) - before
}

fn main() {
    for call in CALLS {
        for side in SIDES {
            let (mut most_stack, mut most_heap) = (0, 0);
            for seed in seeds(20) {
                let input = Input::of_seed(seed, 8, 8, 16, call.vectors());
                let mut job = Job { input, call: None };
                // The first call finds its functions; only the second one is measured.
                most_heap = most_heap.max(heap(&mut job.input, call, side));
                let empty = on_painted_stack(&mut job);
                job.call = Some((call, side));
                most_stack = most_stack.max(on_painted_stack(&mut job) - empty);
            }
            let (call, side) = (call.name(), side.name());
            println!("{call} {side} {most_stack} {most_heap}");
        }
    }
}
