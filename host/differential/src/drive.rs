//! Case after case through a comparison.
use crate::{damage, generate, say, shrink, Case, Difference, Random};
use std::fmt::{self, Display, Formatter};
use std::time::{Duration, Instant};

/// A difference, at the smallest case found. Shown with the case's text.
#[derive(Clone, Debug)]
pub struct Failure {
    pub case: Case,
    pub difference: Difference,
}

impl Display for Failure {
    fn fmt(&self, f: &mut Formatter<'_>) -> fmt::Result {
        writeln!(f, "DIFFERENCE in {}", self.difference)?;
        writeln!(
            f,
            "differential --replay FILE takes it through the model and the reference, BUTRASK_CASE=FILE cargo test --test library \
             through the proved library, where the file has:"
        )?;
        write!(f, "{}", self.case)
    }
}

/// Compares on every case, up to the first that differs, which is made small.
pub fn drive(
    cases: impl IntoIterator<Item = Case>,
    mut compare: impl FnMut(&Case) -> Result<(), Difference>,
) -> Result<(), Box<Failure>> {
    for case in cases {
        if let Err(difference) = compare(&case) {
            let (case, difference) = shrink::shrink(&case, compare).unwrap_or((case, difference));
            return Err(Box::new(Failure { case, difference }));
        }
    }
    Ok(())
}

/// Says on standard error, every two seconds, how far a comparison is.
pub struct Progress {
    name: String,
    start: Instant,
    said: Duration,
}

impl Progress {
    /// The name stands in every line: comparisons may run side by side.
    pub fn new(name: &str) -> Progress {
        Progress {
            name: name.to_string(),
            start: Instant::now(),
            said: Duration::ZERO,
        }
    }

    pub fn elapsed(&self) -> Duration {
        self.start.elapsed()
    }

    /// So many calls were compared.
    pub fn at(&mut self, calls: u64) {
        let since = self.elapsed();
        if since - self.said > Duration::from_secs(2) {
            self.said = since;
            say(&format!(
                "{}: {calls} calls, {} s",
                self.name,
                since.as_secs()
            ));
        }
    }
}

/// Random cases with that many calls in all, or a few more, by [`generate::case`].
pub fn sound_cases(seed: u64, calls: u64) -> impl Iterator<Item = Case> {
    until(seed, calls, generate::case)
}

/// The same at one width.
pub fn sound_cases_of_width(seed: u64, calls: u64, width: u64) -> impl Iterator<Item = Case> {
    until(seed, calls, move |r| generate::case_of_width(r, width))
}

/// Random cases, a third of them sound, a third with a bad call or state, a third broken in any
/// way.
pub fn all_cases(seed: u64, calls: u64) -> impl Iterator<Item = Case> {
    until(seed, calls, |r| match r.below(3) {
        0 => generate::case(r),
        1 => damage::damaged(r).case,
        _ => damage::broken(r),
    })
}

fn until(seed: u64, calls: u64, next: impl Fn(&mut Random) -> Case) -> impl Iterator<Item = Case> {
    let mut r = Random::new(seed);
    let mut made = 0;
    std::iter::from_fn(move || {
        (made < calls).then(|| {
            let case = next(&mut r);
            made += case.calls.len() as u64;
            case
        })
    })
}
