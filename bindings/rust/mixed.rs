//! Two threads lock in C and two in Rust, by the same word at once, and count up a plain number.
use std::cell::UnsafeCell;
use std::ffi::c_void;
use std::thread::{scope, yield_now};
use ticket_word::{Caller, StampTable};

const TIMES: u32 = 20_000;

struct Counter(UnsafeCell<u64>);

// SAFETY: it is touched under the lock alone.
unsafe impl Sync for Counter {}

extern "C" {
    /// Counts so many times as this process, in C: how many calls told a fault.
    fn counts_in_c(table: *mut c_void, p: u32, times: u32, counter: *mut u64) -> u32;
}

fn counts_in_rust(caller: &mut Caller<'_, 4>, counter: &Counter) -> u32 {
    let mut faults = 0;
    for _ in 0..TIMES {
        faults += u32::from(caller.stamp().is_err());
        while caller.is_first() == Ok(false) {
            yield_now();
        }
        // SAFETY: this process is first.
        unsafe { *counter.0.get() += 1 };
        faults += u32::from(caller.clear().is_err());
    }
    faults
}

fn main() {
    let table = StampTable::<4>::new();
    let counter = Counter(UnsafeCell::new(0));
    let (table, counter) = (&table, &counter);
    let faults: u32 = scope(|threads| {
        let in_c = [0, 1].map(|p| {
            // SAFETY: processes 0 and 1 have no caller in Rust.
            threads.spawn(move || unsafe { counts_in_c(table.as_ptr(), p, TIMES, counter.0.get()) })
        });
        let in_rust = [2, 3].map(|p| {
            let mut caller = table.caller(p).expect("nobody has it yet");
            threads.spawn(move || counts_in_rust(&mut caller, counter))
        });
        in_c.into_iter().chain(in_rust).map(|thread| thread.join().expect("no thread panics")).sum()
    });
    // SAFETY: all threads have ended.
    let counted = unsafe { *counter.0.get() };
    println!("mixed: {faults} faults, {counted} of {}", 4 * TIMES);
    std::process::exit(i32::from(faults != 0 || counted != u64::from(4 * TIMES)));
}
