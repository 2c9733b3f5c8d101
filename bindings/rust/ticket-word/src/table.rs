use crate::order::{number, Fault, Order};
use crate::raw;
use core::ffi::c_void;
use core::sync::atomic::Ordering::SeqCst;
use core::sync::atomic::{AtomicU64, AtomicU8};

/// The tickets of `N` processes, one to six. A table of another `N` can't be made:
///
/// ```compile_fail
/// let table = ticket_word::StampTable::<7>::new();
/// ```
///
/// ```compile_fail
/// let table = ticket_word::StampTable::<258>::new();
/// ```
// The first two members are those of the C header's table.
#[repr(C)]
#[derive(Debug)]
pub struct StampTable<const N: usize> {
    word: AtomicU64,
    count: u8,
    // A bit for each process that has a caller.
    taken: AtomicU8,
}

impl<const N: usize> StampTable<N> {
    const COUNT: u8 = {
        assert!(1 <= N && N <= 6, "a table has one to six processes");
        N as u8
    };

    /// A table at the start, where nobody holds a ticket.
    #[must_use]
    pub const fn new() -> Self {
        StampTable { word: AtomicU64::new(0), count: Self::COUNT, taken: AtomicU8::new(0) }
    }

    /// The caller of process `p`; `None` where there is no such process, or it has one already.
    pub fn caller(&self, p: usize) -> Option<Caller<'_, N>> {
        if p >= N {
            return None;
        }
        let bit = 1 << p;
        if self.taken.fetch_or(bit, SeqCst) & bit != 0 {
            return None;
        }
        Some(Caller { table: self, process: p })
    }

    /// The callers of all processes; `None` where one of them has one already.
    pub fn callers(&self) -> Option<[Caller<'_, N>; N]> {
        let all = (1 << N) - 1;
        self.taken.compare_exchange(0, all, SeqCst, SeqCst).ok()?;
        Some(core::array::from_fn(|process| Caller { table: self, process }))
    }

    /// The order as it is: one load.
    pub fn scan(&self) -> Order<N> {
        Order { word: self.word.load(SeqCst) }
    }

    /// The table as the C header's `ticket_table *`, for calls in C. No process may be used there while it has a
    /// caller here.
    pub fn as_ptr(&self) -> *mut c_void {
        core::ptr::from_ref(self).cast_mut().cast()
    }
}

impl<const N: usize> StampTable<N> {
    /// Process `p` gives its ticket up.
    pub(crate) fn clear(&self, p: usize) -> Result<Order<N>, Fault> {
        let mask = raw::ticket_word_clear_mask(number(N), number(p));
        let keep = Fault::check(mask.fault, mask.word)?;
        let found = self.word.fetch_and(keep, SeqCst);
        let left = raw::ticket_word_cleared(number(N), found, number(p));
        Fault::check(left.fault, Order { word: left.word })
    }
}

impl<const N: usize> Default for StampTable<N> {
    fn default() -> Self {
        Self::new()
    }
}

/// What a try came to, each with an order.
#[derive(Clone, Copy, PartialEq, Eq, Debug)]
pub enum Tried<const N: usize> {
    /// The process has a new ticket: the order just after.
    Won(Order<N>),
    /// The order was another: the one that was found.
    Lost(Order<N>),
}

/// One process of a table. It is dropped with its ticket given up.
#[derive(Debug)]
pub struct Caller<'a, const N: usize> {
    table: &'a StampTable<N>,
    process: usize,
}

impl<const N: usize> Caller<'_, N> {
    /// The number of its process, from 0.
    #[must_use]
    pub fn process(&self) -> usize {
        self.process
    }

    /// The order as it is: one load.
    #[must_use]
    pub fn scan(&self) -> Order<N> {
        self.table.scan()
    }

    /// Takes a new ticket, above all others, if the order still is the one that was seen: one exchange.
    pub fn try_stamp(&mut self, seen: Order<N>) -> Result<Tried<N>, Fault> {
        let made = raw::ticket_word_stamped(number(N), seen.word, number(self.process));
        let next = Fault::check(made.fault, made.word)?;
        Ok(match self.table.word.compare_exchange(seen.word, next, SeqCst, SeqCst) {
            Ok(_) => Tried::Won(Order { word: next }),
            Err(found) => Tried::Lost(Order { word: found }),
        })
    }

    /// Takes a new ticket, above all others, and answers the order just after. Tries until it wins.
    pub fn stamp(&mut self) -> Result<Order<N>, Fault> {
        let mut seen = self.scan();
        loop {
            match self.try_stamp(seen)? {
                Tried::Won(after) => return Ok(after),
                Tried::Lost(found) => seen = found,
            }
        }
    }

    /// Gives the ticket up, if there is one, and answers the order just after: one `fetch_and`, which never fails.
    pub fn clear(&mut self) -> Result<Order<N>, Fault> {
        self.table.clear(self.process)
    }

    /// Whether its process holds a ticket, and nobody who holds one has a smaller one: one load.
    pub fn is_first(&self) -> Result<bool, Fault> {
        self.scan().is_first(self.process)
    }
}

impl<const N: usize> Drop for Caller<'_, N> {
    fn drop(&mut self) {
        // A word that stands for no tickets is left to whoever asks it next.
        let _ = self.clear();
        self.table.taken.fetch_and(!(1 << self.process), SeqCst);
    }
}
