//! What has been seen so far.

use hailtrellis::Refusal;
use std::fmt;
use std::ops::AddAssign;

/// The numbers that a call can answer: 0, and each up to the last refusal.
pub const ANSWERS: usize = 1 + Refusal::ALL[Refusal::ALL.len() - 1] as usize;

/// How many cases and calls there were, and with which answers.
#[derive(Clone, Copy, Debug, Default, PartialEq, Eq)]
pub struct Tally {
    /// The cases.
    pub cases: u64,
    /// The calls, openings among them, by the number answered.
    pub answers: [u64; ANSWERS],
    /// The vans listed.
    pub listed: u64,
    /// The microseconds of the processor that the slowest call took.
    pub slowest: u64,
}

impl Tally {
    /// All calls.
    pub fn calls(&self) -> u64 {
        self.answers.iter().sum()
    }

    /// Counts an answer; one that is no refusal's number was told as a difference.
    pub fn count(&mut self, code: u32) {
        if let Some(seen) = self.answers.get_mut(code as usize) {
            *seen += 1;
        }
    }

    /// The answers that never came up.
    pub fn unseen(&self) -> Vec<u32> {
        let all = Refusal::ALL.map(Refusal::number);
        let unseen = |number: &u32| self.answers[*number as usize] == 0;
        [0].into_iter().chain(all).filter(unseen).collect()
    }

    /// The tally as numbers in a line, to be read by another process.
    pub fn line(&self) -> String {
        let mut words = vec![self.cases, self.listed, self.slowest];
        words.extend(self.answers);
        words
            .iter()
            .map(u64::to_string)
            .collect::<Vec<_>>()
            .join(" ")
    }

    /// Reads a line of numbers.
    pub fn read(line: &str) -> Option<Tally> {
        let words: Vec<u64> = line
            .split_whitespace()
            .map(|word| word.parse().ok())
            .collect::<Option<_>>()?;
        let (first, answers) = words.split_at_checked(3)?;
        Some(Tally {
            cases: first[0],
            listed: first[1],
            slowest: first[2],
            answers: answers.try_into().ok()?,
        })
    }
}

impl AddAssign for Tally {
    fn add_assign(&mut self, other: Tally) {
        self.cases += other.cases;
        self.listed += other.listed;
        self.slowest = self.slowest.max(other.slowest);
        for (mine, theirs) in self.answers.iter_mut().zip(other.answers) {
            *mine += theirs;
        }
    }
}

impl fmt::Display for Tally {
    fn fmt(&self, f: &mut fmt::Formatter<'_>) -> fmt::Result {
        write!(
            f,
            "{} cases, {} calls, {} accepted, {} vans listed, slowest call {:.1} ms; refused",
            self.cases,
            self.calls(),
            self.answers[0],
            self.listed,
            self.slowest as f64 / 1_000.0
        )?;
        for (number, seen) in self.answers.iter().enumerate().skip(1) {
            if *seen > 0 {
                write!(f, " {number}:{seen}")?;
            }
        }
        Ok(())
    }
}
