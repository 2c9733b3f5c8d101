//! A million random stamps and clears of one to six processes: each answer is that of tickets of 128 bits.
use ticket_word::{Fault, Order, StampTable};

fn drawn(state: &mut u64, below: u64) -> usize {
    *state ^= *state << 13;
    *state ^= *state >> 7;
    *state ^= *state << 17;
    usize::try_from(*state % below).unwrap_or(0)
}

fn compare<const N: usize>(order: Order<N>, tickets: &[u128; N]) -> Result<(), Fault> {
    let ranks = order.ranks()?;
    for (i, &ticket) in tickets.iter().enumerate() {
        let rank = tickets.iter().filter(|&&other| other < ticket).count();
        let older_held = tickets.iter().any(|&other| other != 0 && other < ticket);
        assert_eq!(usize::from(order.rank(i)?), rank);
        assert_eq!(usize::from(ranks[i]), rank);
        assert_eq!(order.held(i)?, ticket != 0);
        assert_eq!(order.is_first(i)?, ticket != 0 && !older_held);
        for (j, &other) in tickets.iter().enumerate() {
            assert_eq!(order.older(i, j)?, ticket < other);
        }
    }
    Ok(())
}

fn moves<const N: usize>(count: usize) -> Result<(), Fault> {
    let table = StampTable::<N>::new();
    let mut callers = table.callers().expect("nobody has one yet");
    let mut tickets = [0_u128; N];
    let mut state = 88_172_645_463_325_252;
    for _ in 0..count {
        let p = drawn(&mut state, N as u64);
        let after = if drawn(&mut state, 3) == 0 {
            tickets[p] = 0;
            callers[p].clear()?
        } else {
            tickets[p] = 1 + tickets.iter().max().copied().unwrap_or(0);
            callers[p].stamp()?
        };
        compare(after, &tickets)?;
        assert_eq!(table.scan(), after);
    }
    Ok(())
}

#[test]
fn a_million_moves() -> Result<(), Fault> {
    moves::<1>(100_000)?;
    moves::<2>(180_000)?;
    moves::<3>(180_000)?;
    moves::<4>(180_000)?;
    moves::<5>(180_000)?;
    moves::<6>(180_000)
}
