//! A progress bar on long work, only on a terminal.

use std::io::{self, IsTerminal, Write};
use std::sync::atomic::{AtomicUsize, Ordering};

/// How much of what was ordered is through: notes, or seconds.
pub struct Progress {
    is_shown: bool,
    ordered: usize,
    what: &'static str,
    through: AtomicUsize,
}

const WIDTH: usize = 30;

impl Progress {
    pub fn new(is_quiet: bool, ordered: usize, what: &'static str) -> Self {
        let is_shown = !is_quiet && io::stderr().is_terminal();
        Progress { is_shown, ordered, what, through: AtomicUsize::new(0) }
    }

    /// One more is through.
    pub fn one(&self) {
        self.show(self.through.fetch_add(1, Ordering::Relaxed) + 1);
    }

    /// So many are through.
    pub fn reach(&self, through: usize) {
        if self.through.swap(through, Ordering::Relaxed) != through {
            self.show(through);
        }
    }

    fn show(&self, through: usize) {
        if self.is_shown {
            let Progress { ordered, what, .. } = *self;
            let full = (through * WIDTH / ordered.max(1)).min(WIDTH);
            let bar = format!("{}{}", "#".repeat(full), ".".repeat(WIDTH - full));
            // A terminal that is gone stops no work.
            drop(write!(io::stderr(), "\r[{bar}] {through} of {ordered} {what}"));
        }
    }

    pub fn end(&self) {
        if self.is_shown {
            drop(writeln!(io::stderr()));
        }
    }
}
