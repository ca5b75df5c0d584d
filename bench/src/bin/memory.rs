//! `memory INPUT`: what each reader asks of the heap, and how deep its stack goes, as
//! `allocations, bytes at the peak, bytes of stack` of this project and then of the original. Of an
//! input with a trace, the same of this project's replay alone.

#[allow(dead_code)]
#[path = "replay/setup.rs"]
mod setup;
#[path = "replay/traces.rs"]
mod traces;

use bench::{inputs::Plan, original, Tables};
use setup::Replay;
use std::alloc::{GlobalAlloc, Layout, System};
use std::ffi::c_void;
use std::hint::black_box;
use std::sync::atomic::{AtomicUsize, Ordering::Relaxed};

static COUNT: AtomicUsize = AtomicUsize::new(0);
static HELD: AtomicUsize = AtomicUsize::new(0);
static PEAK: AtomicUsize = AtomicUsize::new(0);

/// The system's allocator, with a count of what is asked of it.
struct Counted;

// SAFETY: every call is handed on to the system's allocator as it is.
unsafe impl GlobalAlloc for Counted {
    unsafe fn alloc(&self, layout: Layout) -> *mut u8 {
        COUNT.fetch_add(1, Relaxed);
        PEAK.fetch_max(HELD.fetch_add(layout.size(), Relaxed) + layout.size(), Relaxed);
        System.alloc(layout)
    }

    unsafe fn dealloc(&self, at: *mut u8, layout: Layout) {
        HELD.fetch_sub(layout.size(), Relaxed);
        System.dealloc(at, layout)
    }
}

#[global_allocator]
static HEAP: Counted = Counted;

/// A thread's attributes, of the size that they have on x86-64 Linux.
#[repr(C)]
struct Attributes([u64; 7]);

extern "C" {
    fn pthread_attr_init(attributes: *mut Attributes) -> i32;
    fn pthread_attr_setstack(attributes: *mut Attributes, lowest: *mut c_void, size: usize) -> i32;
    fn pthread_create(
        thread: *mut u64,
        attributes: *const Attributes,
        run: extern "C" fn(*mut c_void) -> *mut c_void,
        job: *mut c_void,
    ) -> i32;
    fn pthread_join(thread: u64, answer: *mut *mut c_void) -> i32;
}

const STACK: usize = 1 << 20;
const UNTOUCHED: u64 = 0x5A5A_5A5A_5A5A_5A5A;

struct Job<'a> {
    run: &'a mut dyn FnMut(),
}

extern "C" fn start(job: *mut c_void) -> *mut c_void {
    // SAFETY: the job outlives its thread, which is joined before the job is left.
    let job = unsafe { &mut *job.cast::<Job>() };
    (job.run)();
    std::ptr::null_mut()
}

/// The bytes of stack below the highest that a thread touches. The stack is painted first.
fn depth(run: &mut dyn FnMut()) -> usize {
    let mut stack = vec![UNTOUCHED; STACK / 8];
    let mut job = Job { run };
    let (mut attributes, mut thread) = (Attributes([0; 7]), 0);
    // SAFETY: the stack and the job stay where they are until the thread has ended.
    unsafe {
        assert_eq!(pthread_attr_init(&mut attributes), 0);
        assert_eq!(pthread_attr_setstack(&mut attributes, stack.as_mut_ptr().cast(), STACK), 0);
        assert_eq!(pthread_create(&mut thread, &attributes, start, (&raw mut job).cast()), 0);
        assert_eq!(pthread_join(thread, std::ptr::null_mut()), 0);
    }
    STACK - 8 * stack.iter().take_while(|word| **word == UNTOUCHED).count()
}

fn measured(run: &mut dyn FnMut()) -> String {
    let base = HELD.load(Relaxed);
    COUNT.store(0, Relaxed);
    PEAK.store(base, Relaxed);
    run();
    let (count, peak) = (COUNT.load(Relaxed), PEAK.load(Relaxed) - base);
    let idle = depth(&mut || {});
    format!("{count} {peak} {}", depth(run) - idle)
}

fn main() {
    let input = std::env::args().nth(1).expect("an input");
    if input.contains("records=") {
        let mut replay = Replay::named(&input);
        let replayed = measured(&mut || {
            black_box(black_box(&mut replay).lent());
        });
        println!("{replayed}");
        return;
    }
    let bytes: &'static [u8] = Plan::named(&input).bytes().leak();
    let mut tables = Tables::new();
    let ours = measured(&mut || {
        let _ = black_box(tables.read(black_box(bytes)));
    });
    println!("{ours} {}", measured(&mut || drop(black_box(original(black_box(bytes))))));
}
