//! Calls with a strip and an answer, both lent in guarded memory, and what they left.

use strips::Refusal;

use crate::guarded::{Lender, Place};

/// What a call left: its number, the words of the answer that are its own, and whether the
/// answer's other words, the strip and what lies around both are as they were.
pub type Left = (u32, Vec<u64>, bool);

/// What a call must leave, by its values or its refusal.
pub fn expected<const N: usize>(judged: Result<[u64; N], Refusal>) -> Left {
    match judged {
        Ok(values) => {
            let mut answer = values.to_vec();
            answer.resize(8, 0);
            (0, answer, true)
        }
        Err(refusal) => (refusal.number, vec![refusal.place as u64], true),
    }
}

/// What is lent.
#[derive(Default)]
pub struct Memory {
    strip: Lender<u32>,
    answer: Lender<u64>,
}

impl Memory {
    /// Lends a strip to the calls that follow.
    pub fn hold(&mut self, place: Place, strip: &[u32]) {
        self.strip.holding(place, strip);
    }

    /// A call with the strip that is held and a dirty answer.
    pub fn called(&mut self, place: Place, strip: &[u32], call: impl FnOnce(&[u32], &mut [u64; 8]) -> u32) -> Left {
        self.answer.dirty(place, 8);
        let number = call(self.strip.lent(), self.answer.lent().try_into().unwrap());
        let own = if number == 0 { 8 } else { 1 };
        let stays = self.answer.stays_from(own) && self.strip.stays_as(strip);
        (number, self.answer.items()[..own].to_vec(), stays)
    }
}
