//! Memory lent to the desk: filled with garbage before the call, so that "writes nothing" is noticed, and fenced on
//! both sides, so that a word written outside it is noticed too.

use crate::random::Random;

/// Items on either side: whatever is lent keeps its alignment, without gaps between fence and field.
const FENCE: usize = 8;

/// A word that is no likely answer; in particular it is not zero, which is what a refusal has to write.
pub fn garbage(random: &mut Random) -> u32 {
    random.word() | 1
}

/// Items lent to the desk to write, as many as a caller pleases.
pub struct Lent<T> {
    // Fence, items, fence. On the heap and reached by pointer only: the desk's pointer is made from the whole, so
    // that the compiler may not take the fences for unchanged.
    whole: Box<[T]>,
    fence: Vec<T>,
}

impl Lent<u32> {
    pub fn words(words: &[u32], random: &mut Random) -> Lent<u32> {
        Lent::behind(vec![garbage(random); FENCE], words)
    }

    pub fn garbage(count: usize, random: &mut Random) -> Lent<u32> {
        let words: Vec<u32> = (0..count).map(|_| garbage(random)).collect();
        Lent::words(&words, random)
    }
}

impl Lent<usize> {
    /// Both halves of a count are garbage: a desk that writes 4 of its 8 bytes is noticed.
    pub fn counts(count: usize, random: &mut Random) -> Lent<usize> {
        let mut word = || (garbage(random) as usize) << 32 | garbage(random) as usize;
        let counts: Vec<usize> = (0..count).map(|_| word()).collect();
        Lent::behind(vec![word(); FENCE], &counts)
    }
}

impl Lent<u8> {
    /// The fences are not always of a whole number of words: bytes are not always aligned.
    pub fn bytes(bytes: &[u8], random: &mut Random) -> Lent<u8> {
        let fence = random.between(4 * FENCE - 3, 4 * FENCE);
        Lent::behind(random.bytes(fence), bytes)
    }
}

impl<T: Copy + PartialEq> Lent<T> {
    fn behind(fence: Vec<T>, items: &[T]) -> Lent<T> {
        Lent { whole: [&fence, items, &fence].concat().into_boxed_slice(), fence }
    }

    pub fn count(&self) -> usize {
        self.whole.len() - 2 * self.fence.len()
    }

    pub fn pointer(&mut self) -> *mut T {
        // SAFETY: the items begin after the first fence, which is there.
        unsafe { self.whole.as_mut_ptr().add(self.fence.len()) }
    }

    /// The items as the desk left them.
    pub fn give_back(self, name: &str) -> Result<Vec<T>, String> {
        let (before, rest) = self.whole.split_at(self.fence.len());
        let (items, after) = rest.split_at(rest.len() - self.fence.len());
        if before != self.fence || after != self.fence {
            return Err(format!("the desk wrote outside {name}"));
        }
        Ok(items.to_vec())
    }
}

/// Bytes or words lent to the desk to read. They stand at the very end of a heap allocation of exactly their size and
/// a few more in front: a memory checker notices a read past the end, and a record is not always aligned.
pub struct Given<T> {
    whole: Box<[T]>,
    copy: Box<[T]>,
    front: usize,
}

impl Given<u8> {
    pub fn bytes(bytes: &[u8], random: &mut Random) -> Given<u8> {
        let front = random.between(0, 7);
        Given::behind(random.bytes(front), bytes)
    }
}

impl Given<u32> {
    pub fn words(words: &[u32], random: &mut Random) -> Given<u32> {
        let front = random.between(0, 7);
        let garbage = (0..front).map(|_| garbage(random)).collect();
        Given::behind(garbage, words)
    }
}

impl<T: Copy + PartialEq> Given<T> {
    fn behind(front: Vec<T>, items: &[T]) -> Given<T> {
        let whole = [&front[..], items].concat().into_boxed_slice();
        Given { copy: whole.clone(), whole, front: front.len() }
    }

    pub fn count(&self) -> usize {
        self.whole.len() - self.front
    }

    pub fn pointer(&mut self) -> *const T {
        // SAFETY: `front` is at most the length of the allocation. A writing pointer is taken, so that the compiler
        // may not take the items for unchanged.
        unsafe { self.whole.as_mut_ptr().add(self.front) }
    }

    pub fn give_back(self, name: &str) -> Result<(), String> {
        if self.whole != self.copy {
            return Err(format!("the desk changed {name}, which it may only read"));
        }
        Ok(())
    }
}
