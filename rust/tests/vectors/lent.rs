//! Buffers that a call is lent.

/// What stands in every byte of a lent buffer before the call.
pub const LEFT: u8 = 0xa5;

/// How many elements stand behind what is lent, which no call may write.
pub const BEHIND: usize = 8;

/// A buffer to lend, and what stands behind it.
pub struct Lent<T> {
    left: T,
    room: usize,
    elements: Vec<T>,
}

impl<T: Copy + PartialEq> Lent<T> {
    pub fn new(room: usize, left: T) -> Lent<T> {
        Lent { left, room, elements: vec![left; room + BEHIND] }
    }

    pub fn part(&mut self) -> &mut [T] {
        &mut self.elements[..self.room]
    }

    /// The first so many elements; everything behind them is as it was before the call.
    pub fn written(&self, count: usize) -> Result<&[T], String> {
        match self.elements.split_at_checked(count) {
            Some((written, rest)) if rest.iter().all(|element| *element == self.left) => Ok(written),
            _ => Err(format!("a lent buffer of {} is written past element {count}", self.room)),
        }
    }
}
