//! Standard error while a filter runs: notes, and on a terminal a line of progress.

use crate::style::Style;
use crate::words::{counted, grouped};
use std::io::Write;
use std::time::{Duration, Instant};

/// Progress is shown from here on.
const FIRST: Duration = Duration::from_secs(1);
/// How often it is shown.
const STEP: Duration = Duration::from_millis(200);

pub struct Log<'a> {
    out: &'a mut dyn Write,
    pub style: Style,
    began: Instant,
    /// When progress is shown next; never where it is not asked for.
    next: Option<Duration>,
    /// How many columns the line of progress has; none if there is no such line.
    columns: usize,
}

impl Log<'_> {
    pub fn new(out: &mut dyn Write, style: Style, progress: bool) -> Log<'_> {
        Log { out, style, began: Instant::now(), next: progress.then_some(FIRST), columns: 0 }
    }

    /// Writes lines, in place of the line of progress. A closed standard error ends nothing.
    pub fn say(&mut self, lines: &[u8]) {
        if !lines.is_empty() {
            self.clear();
            let _ = self.out.write_all(lines);
        }
    }

    /// Shows how many titles are folded, if it is time for that.
    pub fn progress(&mut self, titles: u64) {
        if self.next.is_some() {
            self.show(titles, self.began.elapsed());
        }
    }

    fn show(&mut self, titles: u64, elapsed: Duration) {
        if self.next.map_or(true, |next| elapsed < next) {
            return;
        }
        self.next = Some(elapsed + STEP);
        let rate = (titles as f64 / elapsed.as_secs_f64()) as u64;
        let line = format!("{}, {} a second", counted(titles, "title"), grouped(rate));
        self.clear();
        self.columns = line.len();
        let _ = write!(self.out, "{line}").and_then(|()| self.out.flush());
    }

    /// Takes the line of progress away.
    pub fn clear(&mut self) {
        if self.columns > 0 {
            let _ = write!(self.out, "\r{:1$}\r", "", self.columns).and_then(|()| self.out.flush());
            self.columns = 0;
        }
    }
}

#[cfg(test)]
mod tests {
    use super::*;

    fn shown(progress: bool, write: impl Fn(&mut Log)) -> String {
        let mut out = Vec::new();
        write(&mut Log::new(&mut out, Style::PLAIN, progress));
        String::from_utf8(out).unwrap()
    }

    #[test]
    fn progress() {
        let at = |log: &mut Log, millis| log.show(millis, Duration::from_millis(millis));
        let steps = |log: &mut Log| [0, 999, 1000, 1100, 1199, 2000].into_iter().for_each(|millis| at(log, millis));
        assert_eq!(
            shown(true, steps),
            format!("1,000 titles, 1,000 a second\r{:28}\r2,000 titles, 1,000 a second", "")
        );
        assert_eq!(shown(false, steps), "");
        assert_eq!(shown(true, |log| log.progress(7)), "");
    }

    #[test]
    fn notes_take_its_place() {
        let notes = |log: &mut Log| {
            log.show(5, Duration::from_secs(5));
            log.say(b"");
            log.say(b"a\n");
            log.say(b"b\n");
            log.clear();
        };
        assert_eq!(shown(true, notes), format!("5 titles, 1 a second\r{:20}\ra\nb\n", ""));
    }
}
