//! A line on standard error that says how far a run is: rewritten often on a terminal, elsewhere one now and then.
use std::io::{IsTerminal, Write, stderr};
use std::time::{Duration, Instant};

pub struct Progress {
    start: Instant,
    last: Instant,
    terminal: bool,
}

impl Default for Progress {
    fn default() -> Self {
        Progress {
            start: Instant::now(),
            last: Instant::now(),
            terminal: stderr().is_terminal(),
        }
    }
}

impl Progress {
    pub fn elapsed(&self) -> Duration {
        self.start.elapsed()
    }

    pub fn tell(&mut self, done: usize, of: usize) {
        let pause = Duration::from_millis(if self.terminal { 200 } else { 60_000 });
        if self.last.elapsed() < pause {
            return;
        }
        self.last = Instant::now();
        let (back, end) = if self.terminal {
            ("\r", "")
        } else {
            ("", "\n")
        };
        let seconds = self.start.elapsed().as_secs();
        eprint!("{back}{done} of {of} inputs, {seconds} s{end}");
        _ = stderr().flush();
    }

    /// Takes the line away.
    pub fn clear(&self) {
        if self.terminal {
            eprint!("\r\x1b[K");
        }
    }
}
