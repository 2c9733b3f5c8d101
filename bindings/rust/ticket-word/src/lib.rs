//! First come, first served for one to six threads, in one 64-bit word. Who wins the exchange that takes a ticket comes
//! first, however long another has tried.
//!
//! A process takes a ticket ([`Caller::stamp`]), asks who came first ([`Order::is_first`], [`Order::older`]), and
//! gives its ticket up ([`Caller::clear`]). A ticket counter grows without end; here labels come back, and one
//! word holds all of them. The functions of the word are proved; this crate, which keeps it in an atomic, is tested.
//!
//! The first lock is a [`FairMutex`]:
//!
//! ```
//! use ticket_word::{FairMutex, NoSeat};
//!
//! let counter = FairMutex::<u32, 2>::new(0);
//! let seats = [counter.seat()?, counter.seat()?];
//! std::thread::scope(|scope| {
//!     for mut seat in seats {
//!         scope.spawn(move || *seat.lock_with(std::thread::yield_now) += 1);
//!     }
//! });
//! assert_eq!(counter.into_inner(), 2);
//! # Ok::<(), NoSeat>(())
//! ```
//!
//! All accesses are sequentially consistent. No call takes memory. Only [`Caller::stamp`] and a lock may try again
//! and again.
#![no_std]
#![deny(missing_docs, unsafe_op_in_unsafe_fn)]

mod mutex;
mod order;
mod raw;
mod table;

pub use mutex::{FairMutex, Guard, NoSeat, Seat};
pub use order::{Fault, Order};
pub use table::{Caller, StampTable, Tried};
