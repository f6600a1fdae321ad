//! The course of a comparison: recordings in order up to the first difference, and what it came to.

use std::fmt::Write;
use std::time::{Duration, Instant};

/// What the recordings of a comparison come to, counted.
pub trait Reaches: Default {
    /// A recording to be tried, with what goes with it.
    type Case;

    /// Counts a recording that is tried.
    fn count(&mut self, case: &Self::Case);

    /// How many were tried.
    fn recordings(&self) -> u64;

    /// The counts in words.
    fn text(&self) -> String;

    /// What was never reached, in words; what random recordings are for is asked for only where there are some.
    fn missing_text(&self, random: bool) -> String;
}

/// A recording over which another program differs from the library.
pub struct Found {
    /// As it was tried, or made short.
    pub file: Vec<u8>,
    pub text: String,
}

/// What a comparison came to.
pub struct Conclusion {
    /// Whether all was equal and all was reached.
    pub is_right: bool,
    pub text: String,
}

/// The seed and the number of random recordings.
#[derive(Clone, Copy, Debug)]
pub struct Draw {
    pub seed: u64,
    pub recordings: u64,
}

/// Runs a comparison that finds differences by `find`: the directed recordings, then random ones.
pub fn run_through<Reached: Reaches>(
    directed: Vec<Reached::Case>,
    mut random: impl FnMut() -> Reached::Case,
    draw: Draw,
    find: &dyn Fn(&Reached::Case) -> Option<Found>,
) -> Conclusion {
    let mut course = Course { reached: Reached::default(), find, failure: None };
    let start = Instant::now();
    for case in directed {
        course.take(&case);
    }
    let directed = course.reached.recordings();
    for _ in 0..draw.recordings {
        course.take(&random());
    }
    course.conclude(draw, directed, start.elapsed())
}

/// A comparison under way.
struct Course<'parts, Reached: Reaches> {
    reached: Reached,
    find: &'parts dyn Fn(&Reached::Case) -> Option<Found>,
    failure: Option<String>,
}

impl<Reached: Reaches> Course<'_, Reached> {
    /// Compares a recording; after a difference recordings are let go.
    fn take(&mut self, case: &Reached::Case) {
        if self.failure.is_some() {
            return;
        }
        self.reached.count(case);
        self.failure = (self.find)(case).map(|found| found.text);
    }

    /// The counts, or the failure.
    fn conclude(&self, draw: Draw, directed: u64, time: Duration) -> Conclusion {
        let Draw { seed, recordings: random } = draw;
        let recordings = self.reached.recordings();
        if let Some(failure) = &self.failure {
            let text = format!("{failure}seed {seed}, {recordings} recordings: FAILED\n");
            return Conclusion { is_right: false, text };
        }
        let mut text = self.reached.text();
        let seconds = time.as_secs_f64();
        let _ = writeln!(text, "{directed} directed and {random} random recordings in {seconds:.1} s");
        let missing = self.reached.missing_text(random > 0);
        let is_right = missing.is_empty();
        let reached = if is_right { "all reached" } else { "but NOT ALL REACHED" };
        let _ = writeln!(text, "{missing}seed {seed}: all equal, {reached}");
        Conclusion { is_right, text }
    }
}
