//! What the program says: its lines on standard output, and on a terminal's standard error how far it is.
//!
//! How far it is stands in one line that is written over and that the next line of standard output replaces. Where standard error is no
//! terminal, nothing of it is written.

use std::fmt;
use std::io::{self, IsTerminal, Write};
use std::process::exit;
use std::sync::atomic::{AtomicU64, Ordering};
use std::sync::{LazyLock, Mutex, MutexGuard, PoisonError};
use std::time::{Duration, Instant};

/// The least time between two lines that tell how far it is.
const PAUSE: Duration = Duration::from_millis(200);

/// Goes to the start of the line and clears it.
const CLEAR: &str = "\r\x1b[K";

static IS_TERMINAL: LazyLock<bool> = LazyLock::new(|| io::stderr().is_terminal());

static SCREEN: Mutex<Screen> = Mutex::new(Screen {
    part: None,
    told: None,
    stands: false,
});

struct Screen {
    /// The part of a run that goes on, where it has parts.
    part: Option<&'static str>,
    /// When a line that tells how far it is was last written.
    told: Option<Instant>,
    /// Whether it still stands.
    stands: bool,
}

impl Screen {
    fn lock() -> MutexGuard<'static, Screen> {
        SCREEN.lock().unwrap_or_else(PoisonError::into_inner)
    }

    fn clear(&mut self) {
        if self.stands {
            self.stands = false;
            write_error(format_args!("{CLEAR}"));
        }
    }
}

/// Writes to standard error, of which nothing is lost that matters.
fn write_error(words: fmt::Arguments) {
    let _ = io::stderr().write_fmt(words);
}

/// Names the part of a run that begins.
pub fn begin(part: &'static str) {
    Screen::lock().part = Some(part);
}

/// Tells how far it is, by words that are made only if they are shown.
pub fn progress(words: impl FnOnce() -> String) {
    if !*IS_TERMINAL {
        return;
    }
    let mut screen = Screen::lock();
    if screen.told.is_some_and(|told| told.elapsed() < PAUSE) {
        return;
    }
    let part = screen.part.map(|part| format!("{part}: "));
    write_error(format_args!(
        "{CLEAR}{}{}",
        part.unwrap_or_default(),
        words()
    ));
    screen.told = Some(Instant::now());
    screen.stands = true;
}

/// Clears the line that tells how far it is.
pub fn clear() {
    Screen::lock().clear();
}

/// Writes a line to standard output. A program that cannot say what it found ends with status 1.
pub fn say(words: fmt::Arguments) {
    let mut screen = Screen::lock();
    screen.clear();
    if let Err(error) = writeln!(io::stdout(), "{words}") {
        write_error(format_args!(
            "differential: standard output was not written: {error}\n"
        ));
        exit(1);
    }
}

/// Writes a line to standard output.
macro_rules! say {
    ($($words:tt)*) => {
        $crate::screen::say(format_args!($($words)*))
    };
}

/// How many of some things are done.
pub struct Count {
    things: &'static str,
    total: u64,
    done: AtomicU64,
}

impl Count {
    pub fn of(things: &'static str, total: u64) -> Self {
        Count {
            things,
            total,
            done: AtomicU64::new(0),
        }
    }

    /// Counts so many more, and tells how far it is.
    pub fn add(&self, more: u64) {
        let done = self.done.fetch_add(more, Ordering::Relaxed) + more;
        progress(|| self.words(done));
    }

    fn words(&self, done: u64) -> String {
        let share = 100.0 * done as f64 / self.total as f64;
        format!("{done} of {} {}, {share:.0} %", self.total, self.things)
    }
}

#[cfg(test)]
mod tests {
    use super::*;

    #[test]
    fn a_count_tells_its_share() {
        let count = Count::of("blocks", 2000);
        assert_eq!(count.words(500), "500 of 2000 blocks, 25 %");
        assert_eq!(count.words(2000), "2000 of 2000 blocks, 100 %");
    }
}
