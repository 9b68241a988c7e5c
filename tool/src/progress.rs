//! A line on standard error that says what a long run is at: only if that is a terminal, and only after the first second.
//!
//! While a proof is checked in one call of the library, nobody knows how far it is: the line has the phase, the sizes and the
//! seconds. `Advance` is the place for bytes, percent and time left, for when a proof comes in pieces; nothing sets it on
//! the way through `check` today. Nothing here has an effect on an answer, and a line that can't be written is not missed.

use std::io::{self, IsTerminal, Write};
use std::sync::{Arc, Condvar, Mutex};
use std::thread::{self, JoinHandle};
use std::time::{Duration, Instant};

const FIRST: Duration = Duration::from_millis(1000);
const EVERY: Duration = Duration::from_millis(250);

/// How far a phase is, in bytes (or in whatever it goes by).
#[derive(Debug, Clone, Copy, PartialEq, Eq)]
pub struct Advance {
    pub done: u64,
    pub total: u64,
}

/// What the line shows.
#[derive(Debug, Clone, Default)]
struct Shown {
    phase: String,
    advance: Option<Advance>,
    since: Option<Instant>,
    over: bool,
}

/// The line, for as long as this lives; without a terminal it does nothing.
pub struct Progress {
    shared: Arc<(Mutex<Shown>, Condvar)>,
    drawer: Option<JoinHandle<()>>,
}

impl Progress {
    /// Starts the line if standard error is a terminal and it is wanted.
    pub fn start(wanted: bool) -> Progress {
        let shared = Arc::new((Mutex::new(Shown::default()), Condvar::new()));
        let drawer = (wanted && io::stderr().is_terminal()).then(|| {
            let shared = Arc::clone(&shared);
            thread::spawn(move || draw_until_over(&shared))
        });
        Progress { shared, drawer }
    }

    /// A new phase begins now.
    pub fn phase(&self, phase: impl Into<String>) {
        let mut shown = self.shared.0.lock().expect("nobody panics with the lock");
        *shown = Shown { phase: phase.into(), advance: None, since: Some(Instant::now()), over: false };
    }

    /// The phase is so far.
    pub fn advance(&self, done: u64, total: u64) {
        let mut shown = self.shared.0.lock().expect("nobody panics with the lock");
        shown.advance = Some(Advance { done, total });
    }
}

impl Drop for Progress {
    /// The line goes away before anything else is printed.
    fn drop(&mut self) {
        if let Some(drawer) = self.drawer.take() {
            if let Ok(mut shown) = self.shared.0.lock() {
                shown.over = true;
            }
            self.shared.1.notify_all();
            let _ = drawer.join();
        }
    }
}

/// Draws the line again and again, and clears it at the end.
fn draw_until_over(shared: &(Mutex<Shown>, Condvar)) {
    let mut wait = FIRST;
    let mut drawn = false;
    let mut shown = shared.0.lock().expect("nobody panics with the lock");
    loop {
        shown = shared.1.wait_timeout_while(shown, wait, |s| !s.over).expect("nobody panics with the lock").0;
        if shown.over {
            break;
        }
        wait = EVERY;
        if let Some(since) = shown.since {
            drawn = true;
            draw(&line(&shown.phase, since.elapsed().as_secs_f64(), shown.advance));
        }
    }
    if drawn {
        draw("");
    }
}

/// Puts the text in the place of the line before.
fn draw(text: &str) {
    let mut err = io::stderr().lock();
    let _ = write!(err, "\r\x1b[K{text}").and_then(|()| err.flush());
}

/// The text of the line.
fn line(phase: &str, seconds: f64, advance: Option<Advance>) -> String {
    match advance {
        Some(Advance { done, total }) if total > 0 => {
            let share = done as f64 / total as f64;
            let left = if done > 0 { format!(", {:.0} s left", seconds / share - seconds) } else { String::new() };
            format!("{phase}: {done} of {total}, {:.0} %, {seconds:.0} s{left}", share * 100.0)
        }
        _ => format!("{phase}, {seconds:.0} s"),
    }
}

#[cfg(test)]
mod tests {
    use super::*;

    #[test]
    fn the_line_has_a_place_for_how_far_it_is() {
        assert_eq!(line("checking", 3.2, None), "checking, 3 s");
        let half = Some(Advance { done: 5, total: 10 });
        assert_eq!(line("checking", 3.0, half), "checking: 5 of 10, 50 %, 3 s, 3 s left");
        assert_eq!(line("x", 3.0, Some(Advance { done: 0, total: 10 })), "x: 0 of 10, 0 %, 3 s");
        assert_eq!(line("x", 3.0, Some(Advance { done: 0, total: 0 })), "x, 3 s");
    }

    #[test]
    fn without_a_terminal_or_a_wish_nothing_is_started() {
        assert!(Progress::start(false).drawer.is_none());
    }
}
