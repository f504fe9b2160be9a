//! The clock.

use crate::library::Outcome;
use crate::texts::Text;
use crate::told::{self, Side};
use crate::work::Way;
use std::hint::black_box;
use std::time::{Duration, Instant};

/// How many medians a program takes of each job.
const ROUNDS: usize = 3;
/// The shortest stretch that the clock is read around.
const SAMPLE: Duration = Duration::from_micros(400);
/// About how long one median may take.
const MEDIAN: Duration = Duration::from_millis(10);

/// A side of a case, and what it is called on.
pub struct Job<'a> {
    pub case: &'a str,
    pub side: Side,
    pub text: &'a Text,
    pub way: &'a Way,
}

/// Times jobs whose ratios are wanted, and tells the medians. They take turns, so that a slow while
/// of the machine falls on each of them.
pub fn measure(jobs: &[Job]) {
    let repeats: Vec<u32> = jobs.iter().map(Job::repeats).collect();
    for _ in 0..ROUNDS {
        for (job, &repeats) in jobs.iter().zip(&repeats) {
            told::time(job.case, job.side, job.median(repeats));
        }
    }
}

/// Does the work of each job once, for a tool that counts instructions, and names the jobs.
pub fn run_once(jobs: &[Job]) {
    for job in jobs {
        black_box(once(job.way, job.text));
        println!("once\t{}\t{}\t{}", job.case, job.side.name(), job.text.bytes.len());
    }
}

/// What such a tool counts in.
#[inline(never)]
#[no_mangle]
fn once(way: &Way, text: &Text) -> Outcome {
    way(text)
}

impl Job<'_> {
    /// How often the side is called for one sample.
    fn repeats(&self) -> u32 {
        let call = self.sample(1).min(self.sample(1)).max(1.0);
        (SAMPLE.as_nanos() as f64 / call).ceil() as u32
    }

    /// The median of some samples, in nanoseconds for each byte of the text.
    fn median(&self, repeats: u32) -> f64 {
        let start = Instant::now();
        let mut samples = Vec::new();
        while samples.len() < 3 || start.elapsed() < MEDIAN {
            samples.push(self.sample(repeats));
        }
        samples.sort_by(f64::total_cmp);
        samples[samples.len() / 2] / f64::from(repeats) / self.text.bytes.len() as f64
    }

    /// The nanoseconds of so many calls.
    fn sample(&self, repeats: u32) -> f64 {
        let start = Instant::now();
        for _ in 0..repeats {
            black_box((self.way)(black_box(self.text)));
        }
        start.elapsed().as_nanos() as f64
    }
}
