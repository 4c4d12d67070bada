//! How many calls of each kind were made.
use butrask_calls::{Call, Refusal, CALLS, TABLE};
use std::fmt::{self, Display, Formatter};

/// How many calls were accepted, by call, and refused, by refusal.
#[derive(Clone, Debug, Default, PartialEq, Eq)]
pub struct Counts {
    /// In the order of the table.
    accepted: [u64; CALLS],
    /// In the order of [`Refusal::ALL`].
    refused: [u64; Refusal::ALL.len()],
}

impl Counts {
    /// Counts a call that was accepted, or refused with this.
    pub fn add(&mut self, call: &Call, refusal: Option<Refusal>) {
        match refusal {
            None => self.accepted[call.index()] += 1,
            Some(refusal) => self.refused[refusal as usize] += 1,
        }
    }

    pub fn calls(&self) -> u64 {
        self.accepted() + self.refused()
    }

    pub fn accepted(&self) -> u64 {
        self.accepted.iter().sum()
    }

    pub fn refused(&self) -> u64 {
        self.refused.iter().sum()
    }

    /// The name of each call and how many of it were accepted.
    pub fn by_call(&self) -> impl Iterator<Item = (&'static str, u64)> + '_ {
        TABLE.iter().map(|row| row.name).zip(self.accepted)
    }

    /// Each refusal and how many calls had it.
    pub fn by_refusal(&self) -> impl Iterator<Item = (Refusal, u64)> + '_ {
        Refusal::ALL.into_iter().zip(self.refused)
    }

    /// How many calls were refused with this.
    pub fn with(&self, refusal: Refusal) -> u64 {
        self.refused[refusal as usize]
    }
}

impl Display for Counts {
    fn fmt(&self, f: &mut Formatter<'_>) -> fmt::Result {
        write!(f, "{} calls: accepted", self.calls())?;
        for (name, count) in self.by_call() {
            write!(f, " {name} {count}")?;
        }
        write!(f, "; refused")?;
        for (refusal, count) in self.by_refusal() {
            write!(f, " {}: {count}", refusal.number())?;
        }
        Ok(())
    }
}
