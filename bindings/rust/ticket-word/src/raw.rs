// The proved functions, as the archive has them: of numbers alone, any numbers.

#[repr(C)]
pub struct Made {
    pub word: u64,
    pub fault: u8,
}

#[repr(C)]
pub struct Told {
    pub answer: bool,
    pub fault: u8,
}

#[repr(C)]
pub struct Counted {
    pub rank: u8,
    pub fault: u8,
}

#[repr(C)]
pub struct Ranked {
    pub of: [u8; 6],
    pub fault: u8,
}

// SAFETY: each is a function of its numbers, defined for all of them; none touches memory.
unsafe extern "C" {
    pub safe fn ticket_word_stamped(n: u8, word: u64, p: u8) -> Made;
    pub safe fn ticket_word_cleared(n: u8, word: u64, p: u8) -> Made;
    pub safe fn ticket_word_clear_mask(n: u8, p: u8) -> Made;
    pub safe fn ticket_word_held(n: u8, word: u64, i: u8) -> Told;
    pub safe fn ticket_word_older(n: u8, word: u64, i: u8, j: u8) -> Told;
    pub safe fn ticket_word_is_first(n: u8, word: u64, p: u8) -> Told;
    pub safe fn ticket_word_rank(n: u8, word: u64, i: u8) -> Counted;
    pub safe fn ticket_word_ranks(n: u8, word: u64) -> Ranked;
}
