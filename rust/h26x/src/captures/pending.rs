//! Bytes of a stream that came and are still wanted, by their places in it.

/// The front of what is kept is dropped once it is as long as the rest, so that each byte is moved once.
#[derive(Default)]
pub struct Pending {
    bytes: Vec<u8>,
    /// How many of them are passed.
    passed: usize,
    /// Where in the stream the first of them stands.
    place: u64,
}

impl Pending {
    pub fn push(&mut self, bytes: &[u8]) {
        if self.passed >= self.bytes.len() - self.passed {
            self.bytes.drain(..self.passed);
            self.place += self.passed as u64;
            self.passed = 0;
        }
        self.bytes.extend_from_slice(bytes);
    }

    /// Where the first byte stands that isn't passed.
    pub fn front(&self) -> u64 {
        self.place + self.passed as u64
    }

    /// Where the next byte comes that is pushed.
    pub fn end(&self) -> u64 {
        self.place + self.bytes.len() as u64
    }

    /// The bytes from a place on that isn't passed.
    pub fn from(&self, place: u64) -> &[u8] {
        &self.bytes[(place - self.place) as usize..]
    }

    /// All bytes that aren't passed.
    pub fn rest(&self) -> &[u8] {
        &self.bytes[self.passed..]
    }

    pub fn pass(&mut self, count: usize) {
        self.passed += count;
    }

    /// Passes over what stands before a place.
    pub fn pass_to(&mut self, place: u64) {
        self.passed += place.saturating_sub(self.front()) as usize;
    }
}
