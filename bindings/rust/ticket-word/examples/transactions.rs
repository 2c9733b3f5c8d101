//! Timestamp order for a small table of transactions: of two that want one row the older gets it, and the younger
//! dies and tries again with its old ticket, so that each transaction comes to be the oldest.
use std::sync::atomic::{AtomicUsize, Ordering::SeqCst};
use std::thread::{scope, yield_now};
use ticket_word::{Caller, Fault, StampTable};

const TRANSACTIONS: usize = 3;
const FREE: usize = usize::MAX;

/// A row with the transaction that has it.
struct Row {
    owner: AtomicUsize,
    sum: AtomicUsize,
}

/// Takes a row, or answers false where a younger one has to die for it.
fn takes(row: &Row, caller: &Caller<'_, TRANSACTIONS>) -> Result<bool, Fault> {
    loop {
        match row.owner.compare_exchange(FREE, caller.process(), SeqCst, SeqCst) {
            Ok(_) => return Ok(true),
            Err(owner) if caller.scan().older(owner, caller.process())? => return Ok(false),
            Err(_) => yield_now(),
        }
    }
}

/// Adds one to both rows, in its own order of them.
fn transaction(rows: [&Row; 2], caller: &mut Caller<'_, TRANSACTIONS>) -> Result<(), Fault> {
    caller.stamp()?;
    loop {
        let mut taken = 0;
        while taken < 2 && takes(rows[taken], caller)? {
            taken += 1;
        }
        let commits = taken == 2;
        for row in &rows[..taken] {
            if commits {
                row.sum.fetch_add(1, SeqCst);
            }
            row.owner.store(FREE, SeqCst);
        }
        if commits {
            caller.clear()?;
            return Ok(());
        }
        yield_now();
    }
}

fn main() -> Result<(), Fault> {
    let table = StampTable::<TRANSACTIONS>::new();
    let rows = [0, 1].map(|_| Row { owner: AtomicUsize::new(FREE), sum: AtomicUsize::new(0) });
    let [zero, one] = [&rows[0], &rows[1]];
    let callers = table.callers().expect("nobody has one yet");
    let done = scope(|threads| {
        let started = callers.map(|mut caller| {
            let order = if caller.process() == 0 { [zero, one] } else { [one, zero] };
            threads.spawn(move || (0..1000).try_for_each(|_| transaction(order, &mut caller)))
        });
        started.map(|thread| thread.join().expect("no thread panics"))
    });
    done.into_iter().collect::<Result<(), Fault>>()?;
    println!("{} {}", rows[0].sum.load(SeqCst), rows[1].sum.load(SeqCst));
    Ok(())
}
