//! A bar on the terminal while rows are worked. It is hidden where standard error is no terminal.

use indicatif::{ProgressBar, ProgressDrawTarget, ProgressStyle};

pub fn bar(shown: bool) -> ProgressBar {
    if !shown {
        return ProgressBar::hidden();
    }
    let bar = ProgressBar::with_draw_target(None, ProgressDrawTarget::stderr());
    // A style that can't be read leaves the plain bar.
    match ProgressStyle::with_template("{wide_bar} {pos} of {len} rows") {
        Ok(style) => bar.with_style(style),
        Err(_) => bar,
    }
}

pub fn tell(bar: &ProgressBar, done: u64, rows: u64) {
    bar.set_length(rows);
    bar.set_position(done);
}
