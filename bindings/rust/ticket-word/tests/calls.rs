//! What callers, orders, tables and locks answer.
use std::panic::{catch_unwind, AssertUnwindSafe};
use std::thread::{scope, yield_now};
use ticket_word::{FairMutex, Fault, NoSeat, StampTable, Tried};

#[test]
fn a_process_has_one_caller() {
    let table = StampTable::<2>::new();
    let zero = table.caller(0);
    assert_eq!(zero.as_ref().map(ticket_word::Caller::process), Some(0));
    assert!(table.caller(0).is_none());
    assert!(table.caller(2).is_none());
    assert!(table.callers().is_none());
    drop(zero);
    assert!(table.callers().is_some());
    assert!(table.callers().is_some());
}

#[test]
fn a_caller_is_dropped_without_its_ticket() -> Result<(), Fault> {
    let table = StampTable::<3>::new();
    let [mut zero, one, _two] = table.callers().expect("nobody has one yet");
    zero.stamp()?;
    drop(one);
    assert!(table.scan().held(0)?);
    drop(zero);
    assert!(!table.scan().held(0)?);
    Ok(())
}

#[test]
fn a_try_wins_only_the_order_it_saw() -> Result<(), Fault> {
    let table = StampTable::<2>::new();
    let [mut zero, mut one] = table.callers().expect("nobody has one yet");
    let seen = zero.scan();
    let after = one.stamp()?;
    assert_eq!(zero.try_stamp(seen)?, Tried::Lost(after));
    match zero.try_stamp(after)? {
        Tried::Won(order) => assert_eq!(order, table.scan()),
        Tried::Lost(_) => panic!("nobody stamped between"),
    }
    assert!(table.scan().older(1, 0)?);
    assert!(one.is_first()?);
    assert!(!zero.is_first()?);
    let left = one.clear()?;
    assert!(left.is_first(0)?);
    Ok(())
}

#[test]
fn a_process_that_is_none_is_told() {
    let order = StampTable::<4>::new().scan();
    assert_eq!(order.held(4), Err(Fault::Process));
    assert_eq!(order.older(0, 256), Err(Fault::Process));
    assert_eq!(order.older(usize::MAX, 0), Err(Fault::Process));
    assert_eq!(order.rank(4), Err(Fault::Process));
    assert_eq!(order.is_first(4), Err(Fault::Process));
    assert_eq!(order.ranks(), Ok([0; 4]));
}

fn counted<const N: usize>(times: u32) -> u32 {
    let counter = FairMutex::<u32, N>::new(0);
    let seats: Vec<_> = (0..N).map(|_| counter.seat().expect("a seat is free")).collect();
    assert_eq!(counter.seat().err(), Some(NoSeat));
    scope(|threads| {
        for mut seat in seats {
            threads.spawn(move || {
                for _ in 0..times {
                    *seat.lock_with(yield_now) += 1;
                }
            });
        }
    });
    assert!(counter.seat().is_ok());
    counter.into_inner()
}

#[test]
fn a_lock_counts() {
    assert_eq!(counted::<2>(5_000), 10_000);
    assert_eq!(counted::<4>(2_500), 10_000);
    assert_eq!(counted::<6>(1_000), 6_000);
}

#[test]
fn a_third_seat_of_two_is_told() {
    let lock = FairMutex::<(), 2>::new(());
    let (one, other) = (lock.seat(), lock.seat());
    assert_eq!(lock.seat().err().map(|it| it.to_string()).as_deref(), Some("all seats of the lock are taken"));
    drop(one);
    assert!(lock.seat().is_ok() && other.is_ok());
}

// Whoever asks next is first: nobody holds a ticket.
fn is_free(lock: &FairMutex<u32, 3>) -> bool {
    let mut seat = lock.seat().expect("a seat is free");
    catch_unwind(AssertUnwindSafe(|| drop(seat.lock_with(|| panic!("somebody is first"))))).is_ok()
}

#[test]
fn a_wait_that_panics_gives_the_ticket_up() {
    let lock = FairMutex::<u32, 3>::new(0);
    let mut one = lock.seat().expect("a seat is free");
    let mut other = lock.seat().expect("a seat is free");
    let guard = one.lock();
    for looks in 0..3 {
        let mut left = looks;
        let waits = || if left == 0 { panic!("no longer") } else { left -= 1 };
        assert!(catch_unwind(AssertUnwindSafe(|| drop(other.lock_with(waits)))).is_err());
    }
    assert!(!is_free(&lock));
    drop(guard);
    assert!(is_free(&lock));
    *other.lock_with(|| panic!("nobody is before")) += 1;
    assert_eq!(*one.lock_with(|| panic!("nobody is before")), 1);
}

#[test]
fn a_panic_under_the_lock_leaves_it() {
    let lock = FairMutex::<u32, 3>::new(0);
    let mut one = lock.seat().expect("a seat is free");
    let fails = || {
        let _guard = one.lock();
        panic!("under the lock")
    };
    assert!(catch_unwind(AssertUnwindSafe(fails)).is_err());
    assert!(is_free(&lock));
}
