//! A lent buffer between guards, all of it random before the call.

use crate::random::Random;

const GUARD: usize = 64;

pub struct Lent {
    before: Vec<u8>,
    now: Vec<u8>,
}

impl Lent {
    pub fn new(random: &mut Random, room: usize) -> Self {
        let before = random.bytes(GUARD + room + GUARD);
        Lent { now: before.clone(), before }
    }

    pub fn part(&mut self) -> &mut [u8] {
        let end = self.now.len() - GUARD;
        &mut self.now[GUARD..end]
    }

    /// Whether the lent part starts with these bytes, and every other byte, the guards' too, is as it was.
    pub fn holds(&self, bytes: &[u8]) -> bool {
        let end = GUARD + bytes.len();
        self.now[..GUARD] == self.before[..GUARD] && &self.now[GUARD..end] == bytes && self.now[end..] == self.before[end..]
    }
}
