use crate::raw;
use core::fmt;

/// What stands against a call.
#[derive(Clone, Copy, PartialEq, Eq, Debug)]
pub enum Fault {
    /// There are not one to six processes.
    Count,
    /// A process is none of them.
    Process,
    /// The word stands for no tickets: something else wrote it.
    Word,
}

impl Fault {
    pub(crate) fn check<T>(fault: u8, answer: T) -> Result<T, Fault> {
        match fault {
            0 => Ok(answer),
            1 => Err(Fault::Count),
            2 => Err(Fault::Process),
            _ => Err(Fault::Word),
        }
    }
}

impl fmt::Display for Fault {
    fn fmt(&self, to: &mut fmt::Formatter<'_>) -> fmt::Result {
        to.write_str(match self {
            Fault::Count => "there are not one to six processes",
            Fault::Process => "a process is none of those that there are",
            Fault::Word => "the word stands for no tickets",
        })
    }
}

impl core::error::Error for Fault {}

/// A process number as the proved functions take it; what is too large for them is no process there either.
pub(crate) fn number(p: usize) -> u8 {
    u8::try_from(p).unwrap_or(u8::MAX)
}

/// What a table of `N` processes was at one moment: plain data, to be kept and asked later.
///
/// ```
/// use ticket_word::{Fault, StampTable};
///
/// let table = StampTable::<3>::new();
/// let [mut zero, mut one, _two] = table.callers().expect("nobody has one yet");
/// one.stamp()?;
/// let order = zero.stamp()?;
/// assert!(order.older(1, 0)?);
/// assert_eq!(order.ranks()?, [2, 1, 0]);
/// assert_eq!(order.held(3), Err(Fault::Process));
/// # Ok::<(), Fault>(())
/// ```
#[derive(Clone, Copy, PartialEq, Eq, Debug)]
pub struct Order<const N: usize> {
    pub(crate) word: u64,
}

impl<const N: usize> Order<N> {
    /// Whether process `i` holds a ticket.
    pub fn held(self, i: usize) -> Result<bool, Fault> {
        let told = raw::ticket_word_held(number(N), self.word, number(i));
        Fault::check(told.fault, told.answer)
    }

    /// Whether the ticket of process `i` is smaller than that of `j`. Who holds none is older than who does.
    pub fn older(self, i: usize, j: usize) -> Result<bool, Fault> {
        let told = raw::ticket_word_older(number(N), self.word, number(i), number(j));
        Fault::check(told.fault, told.answer)
    }

    /// Whether process `p` holds a ticket, and nobody who holds one has a smaller one.
    pub fn is_first(self, p: usize) -> Result<bool, Fault> {
        let told = raw::ticket_word_is_first(number(N), self.word, number(p));
        Fault::check(told.fault, told.answer)
    }

    /// How many tickets are smaller than that of process `i`.
    pub fn rank(self, i: usize) -> Result<u8, Fault> {
        let told = raw::ticket_word_rank(number(N), self.word, number(i));
        Fault::check(told.fault, told.rank)
    }

    /// For each process how many tickets are smaller than its own.
    pub fn ranks(self) -> Result<[u8; N], Fault> {
        let told = raw::ticket_word_ranks(number(N), self.word);
        let ranks = core::array::from_fn(|i| told.of.get(i).copied().unwrap_or(0));
        Fault::check(told.fault, ranks)
    }
}
