//! Tells how a run gets on, and ends one that takes too long.

use std::time::{Duration, Instant};

/// Between two lines.
const STEP: Duration = Duration::from_secs(2);

pub struct Progress {
    started: Instant,
    told: Instant,
    limit: Duration,
}

impl Progress {
    /// A run of so many seconds at most.
    pub fn new(seconds: u64) -> Progress {
        let now = Instant::now();
        Progress { started: now, told: now, limit: Duration::from_secs(seconds) }
    }

    /// The most that it may take.
    pub fn seconds(&self) -> u64 {
        self.limit.as_secs()
    }

    /// Prints where the run is, now and then; an error if its time is over.
    pub fn at(&mut self, place: impl Fn() -> String) -> Result<(), String> {
        let passed = self.started.elapsed();
        if passed > self.limit {
            let seconds = self.seconds();
            return Err(format!(
                "{}: stopped after {seconds} s; `--seconds S` lets it run for longer",
                place()
            ));
        }
        if self.told.elapsed() > STEP {
            eprintln!("availability: {:.0} s, {}", passed.as_secs_f64(), place());
            self.told = Instant::now();
        }
        Ok(())
    }

    /// Time passed, and the most memory that the process had, where the system tells.
    pub fn spent(&self) -> String {
        let status = std::fs::read_to_string("/proc/self/status").unwrap_or_default();
        let peak = status
            .lines()
            .find_map(|line| line.strip_prefix("VmHWM:")?.trim().strip_suffix(" kB")?.parse::<f64>().ok());
        let memory = peak.map_or(String::new(), |peak| format!(", {:.0} MB", peak / 1024.0));
        format!("{:.1} s{memory}", self.started.elapsed().as_secs_f64())
    }
}
