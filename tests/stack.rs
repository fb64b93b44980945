//! The stack that one call takes, measured: the call is made by a thread whose stack is a painted buffer, and what is no longer painted
//! was used. What the thread itself takes, making no call, is taken off.

use crate::ledger::{differ, Ledger};
use outside::chance::Chance;
use outside::damage::{self, CONTENTS, MARKS};
use outside::oracle::answers::{BENCH_LENGTH, REPORT_LENGTH};
use outside::oracle::Plan;
use std::alloc::{alloc, dealloc, Layout};
use std::ffi::c_void;

/// Bytes of stack that one mending and one row step may take, whatever the plan.
const MENDING: usize = 5120;
const ROW_STEP: usize = 4096;
/// Calls of each kind of marks and of stripe.
const CALLS_OF_A_KIND: usize = 3;

const STACK: usize = 64 * 1024;
const PAINT: u8 = 0xa5;

pub fn calls(ledger: &mut Ledger) {
    let mut chance = Chance::seeded(131);
    let own = used(&mut || {});
    for plan in Plan::all() {
        let (mut mending, mut row_step) = (0, 0);
        for kind in MARKS {
            for content in CONTENTS {
                for _ in 0..CALLS_OF_A_KIND {
                    let stripe = damage::stripe(plan, content, &mut chance);
                    let marks = damage::marks(plan, kind, &mut chance);
                    mending = mending.max(by_mending(plan, &stripe, &marks) - own);
                    row_step = row_step.max(by_row_steps(plan, &stripe, &marks) - own);
                    ledger.count_run();
                }
            }
        }
        println!("stack, plan {}: one mending {mending} bytes, one row step {row_step} bytes", plan.number);
        if mending > MENDING || row_step > ROW_STEP {
            differ(&format!("a call takes more stack than {MENDING} bytes (mending) or {ROW_STEP} bytes (row step)"));
        }
    }
}

fn by_mending(plan: &Plan, stripe: &[u8], marks: &[u64]) -> usize {
    let (mut stripe, mut marks, mut report) = (stripe.to_vec(), marks.to_vec(), vec![0; REPORT_LENGTH]);
    used(&mut || {
        shelf::mend(plan.number, &mut stripe, &mut marks, &mut report);
    })
}

/// The most that a row step takes in rounds on a bench: all rows, at every level that is reached.
fn by_row_steps(plan: &Plan, stripe: &[u8], marks: &[u64]) -> usize {
    let mut bench = vec![0; BENCH_LENGTH];
    shelf::start(plan.number, stripe, marks, &mut bench);
    let mut most = 0;
    for _ in 0..plan.last() {
        for row in 0..plan.rows {
            most = most.max(used(&mut || {
                shelf::row_step(&mut bench, row);
            }));
        }
        shelf::level_step(&mut bench);
    }
    most
}

// ---- a thread on a painted stack

type Work<'a> = &'a mut dyn FnMut();

unsafe extern "C" {
    fn pthread_attr_init(attributes: *mut c_void) -> i32;
    fn pthread_attr_setstack(attributes: *mut c_void, stack: *mut c_void, size: usize) -> i32;
    fn pthread_attr_destroy(attributes: *mut c_void) -> i32;
    fn pthread_create(
        thread: *mut usize,
        attributes: *const c_void,
        start: extern "C" fn(*mut c_void) -> *mut c_void,
        argument: *mut c_void,
    ) -> i32;
    fn pthread_join(thread: usize, result: *mut *mut c_void) -> i32;
}

extern "C" fn run(work: *mut c_void) -> *mut c_void {
    // the caller of pthread_create keeps the work alive until the thread has ended
    unsafe { (*(work as *mut Work))() };
    std::ptr::null_mut()
}

/// How many bytes of a new thread's stack are not as they were painted once the work is done.
fn used(work: Work) -> usize {
    let layout = Layout::from_size_align(STACK, 4096).expect("a layout");
    // room for pthread_attr_t, which is smaller on every machine that the library is built for
    let mut attributes = [0u64; 32];
    let mut thread = 0;
    let mut work = work;
    unsafe {
        let stack = alloc(layout);
        stack.write_bytes(PAINT, STACK);
        let attributes = attributes.as_mut_ptr().cast::<c_void>();
        let started = pthread_attr_init(attributes) == 0
            && pthread_attr_setstack(attributes, stack.cast(), STACK) == 0
            && pthread_create(&mut thread, attributes, run, (&raw mut work).cast()) == 0;
        if !started || pthread_join(thread, std::ptr::null_mut()) != 0 {
            differ("no thread with a stack of its own can be had");
        }
        pthread_attr_destroy(attributes);
        let painted = (0..STACK).take_while(|&at| stack.add(at).read_volatile() == PAINT).count();
        dealloc(stack, layout);
        STACK - painted
    }
}
