use crate::order::Fault;
use crate::table::{Caller, StampTable};
use core::cell::UnsafeCell;
use core::fmt;
use core::ops::{Deref, DerefMut};

/// A lock of at most `N` threads, which enter in the order of their tickets. A thread takes a seat once, and locks by
/// it.
///
/// ```
/// use ticket_word::FairMutex;
///
/// let log = FairMutex::<Vec<&str>, 2>::new(Vec::new());
/// let mut seat = log.seat().expect("a seat is free");
/// seat.lock().push("first");
/// assert_eq!(*seat.lock(), ["first"]);
/// ```
pub struct FairMutex<T, const N: usize> {
    table: StampTable<N>,
    value: UnsafeCell<T>,
}

// SAFETY: a guard stands for the one thread whose ticket is first, and no other reaches the value.
unsafe impl<T: Send, const N: usize> Sync for FairMutex<T, N> {}

impl<T, const N: usize> FairMutex<T, N> {
    /// A lock around this value, with all seats free.
    pub const fn new(value: T) -> Self {
        FairMutex { table: StampTable::new(), value: UnsafeCell::new(value) }
    }

    /// A seat, unless all `N` are taken.
    pub fn seat(&self) -> Result<Seat<'_, T, N>, NoSeat> {
        let caller = (0..N).find_map(|p| self.table.caller(p)).ok_or(NoSeat)?;
        Ok(Seat { mutex: self, caller })
    }

    /// The value.
    pub fn into_inner(self) -> T {
        self.value.into_inner()
    }

    /// The value, which nobody else can reach meanwhile.
    pub fn get_mut(&mut self) -> &mut T {
        self.value.get_mut()
    }
}

impl<T, const N: usize> fmt::Debug for FairMutex<T, N> {
    fn fmt(&self, to: &mut fmt::Formatter<'_>) -> fmt::Result {
        to.debug_struct("FairMutex").field("table", &self.table).finish_non_exhaustive()
    }
}

/// All `N` seats of a lock are taken.
#[derive(Clone, Copy, PartialEq, Eq, Debug)]
pub struct NoSeat;

impl fmt::Display for NoSeat {
    fn fmt(&self, to: &mut fmt::Formatter<'_>) -> fmt::Result {
        to.write_str("all seats of the lock are taken")
    }
}

impl core::error::Error for NoSeat {}

/// A place at a lock. It is free again when it is dropped.
pub struct Seat<'a, T, const N: usize> {
    mutex: &'a FairMutex<T, N>,
    caller: Caller<'a, N>,
}

impl<T, const N: usize> Seat<'_, T, N> {
    /// Waits its turn, spinning.
    pub fn lock(&mut self) -> Guard<'_, T, N> {
        self.lock_with(core::hint::spin_loop)
    }

    /// Waits its turn, with this between one look and the next, as `std::thread::yield_now`.
    ///
    /// # Panics
    ///
    /// Where `wait` does, or the lock's word was written from outside, which safe code can't do. The ticket is given up.
    pub fn lock_with(&mut self, mut wait: impl FnMut()) -> Guard<'_, T, N> {
        self.come(&mut wait).unwrap_or_else(|fault| panic!("{fault}"))
    }

    fn come(&mut self, wait: &mut impl FnMut()) -> Result<Guard<'_, T, N>, Fault> {
        self.caller.stamp()?;
        // It gives the ticket up when it is dropped, also where `wait` panics.
        let guard = Guard { table: &self.mutex.table, process: self.caller.process(), value: self.mutex.value.get() };
        while !self.caller.is_first()? {
            wait();
        }
        Ok(guard)
    }
}

/// The value under its lock, which is left when this is dropped.
pub struct Guard<'a, T, const N: usize> {
    table: &'a StampTable<N>,
    process: usize,
    // A pointer, since another thread may have the value while this is being dropped.
    value: *mut T,
}

// SAFETY: a shared guard gives out shared references to the value alone.
unsafe impl<T: Sync, const N: usize> Sync for Guard<'_, T, N> {}

impl<T, const N: usize> Deref for Guard<'_, T, N> {
    type Target = T;

    fn deref(&self) -> &T {
        // SAFETY: its process holds a ticket and was first, and stays so until the guard is dropped.
        unsafe { &*self.value }
    }
}

impl<T, const N: usize> DerefMut for Guard<'_, T, N> {
    fn deref_mut(&mut self) -> &mut T {
        // SAFETY: as above, and the guard is borrowed by one alone.
        unsafe { &mut *self.value }
    }
}

impl<T, const N: usize> Drop for Guard<'_, T, N> {
    fn drop(&mut self) {
        // A word that stands for no tickets is told to whoever locks next.
        let _ = self.table.clear(self.process);
    }
}

impl<T: fmt::Debug, const N: usize> fmt::Debug for Guard<'_, T, N> {
    fn fmt(&self, to: &mut fmt::Formatter<'_>) -> fmt::Result {
        (**self).fmt(to)
    }
}
