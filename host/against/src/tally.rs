//! How many calls were made, and how often each answer was given: a run that never meets an answer has not tried it.

/// The count so far.
#[derive(Default)]
pub struct Tally {
    pub calls: u64,
    pub answers: [u64; 19],
}

impl Tally {
    /// One more call that both sides answered alike.
    pub fn count(&mut self, told: Result<u8, String>) -> Result<(), String> {
        let number = told?;
        self.calls += 1;
        self.answers[usize::from(number)] += 1;
        Ok(())
    }

    /// The answers that no call was given.
    pub fn missing(&self) -> Vec<usize> {
        (0..19).filter(|n| self.answers[*n] == 0).collect()
    }
}
