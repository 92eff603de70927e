//! How far the work is.

use indicatif::{ProgressBar, ProgressDrawTarget, ProgressStyle};
use std::time::{Duration, Instant};

/// A line on standard error that says how far the work is, if that is a terminal, there are several files and they take long.
pub struct Progress {
    bar: ProgressBar,
    begun: Instant,
}

/// What takes no longer than this needs no such line.
const LONG: Duration = Duration::from_millis(500);

impl Progress {
    pub fn of(files: usize) -> Progress {
        let style = ProgressStyle::with_template("{pos} of {len} files judged").expect("a template");
        let bar = ProgressBar::with_draw_target(Some(files as u64), ProgressDrawTarget::hidden()).with_style(style);
        Progress { bar, begun: Instant::now() }
    }

    /// Shows what became of a file, while the line is not there.
    pub fn show<T>(&self, show: impl FnOnce() -> T) -> T {
        let shown = self.bar.suspend(show);
        let is_needed = self.bar.length() > Some(1) && self.begun.elapsed() > LONG;
        if self.bar.is_hidden() && is_needed {
            self.bar.set_draw_target(ProgressDrawTarget::stderr());
        }
        self.bar.inc(1);
        shown
    }
}

impl Drop for Progress {
    fn drop(&mut self) {
        self.bar.finish_and_clear();
    }
}
