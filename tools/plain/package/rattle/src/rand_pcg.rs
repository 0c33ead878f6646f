//! `rand_pcg`: PCG XSH RR 64/32, and of `rand_core` its next word.

/// A generator of words.
pub trait NextWord {
    /// The next word.
    fn next_word(&mut self) -> u32;
}

/// The generator PCG XSH RR 64/32 (O'Neill, 2014).
pub struct Lcg64Xsh32 {
    state: u64,
    increment: u64,
}

impl Lcg64Xsh32 {
    /// The generator of a seed and the number of a stream.
    pub fn new(state: u64, stream: u64) -> Lcg64Xsh32 {
        let increment = stream << 1 | 1;
        let state = state.wrapping_add(increment);
        let mut generator = Lcg64Xsh32 { state, increment };
        generator.next_word();
        generator
    }
}

impl NextWord for Lcg64Xsh32 {
    fn next_word(&mut self) -> u32 {
        let state = self.state;
        self.state = state
            .wrapping_mul(6_364_136_223_846_793_005)
            .wrapping_add(self.increment);
        ((((state >> 18) ^ state) >> 27) as u32).rotate_right((state >> 59) as u32)
    }
}
