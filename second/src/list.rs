//! Inputs that are a list and not at random.

/// A list of inputs, block after block: what a block is, and its length.
pub struct List<B>(Vec<(B, u64)>);

/// Steps of this width, which is a prime, come to every place once: a run with few inputs takes them from everywhere.
const STEP: u64 = 1_000_003;

impl<B: Copy> List<B> {
    pub fn of(blocks: impl Iterator<Item = (B, u64)>) -> List<B> {
        List(blocks.collect())
    }

    pub fn length(&self) -> u64 {
        self.0.iter().map(|(_, length)| length).sum()
    }

    /// The block of input number `index`, and its number there.
    pub fn at(&self, index: u64) -> (B, u64) {
        self.by_steps(index, STEP)
    }

    /// The same by steps of another prime.
    pub fn by_steps(&self, index: u64, step: u64) -> (B, u64) {
        assert!(!self.length().is_multiple_of(step), "not every place is met");
        let mut place = index * step % self.length();
        for &(block, length) in &self.0 {
            if place < length {
                return (block, place);
            }
            place -= length;
        }
        unreachable!("the place is below the length")
    }
}
