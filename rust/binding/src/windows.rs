//! Load windows: the weight that each worker finished in every run of neighbouring entries of the record.

use crate::ffi;
use crate::job::Job;
use crate::limits::MAX_WORKERS;
use crate::refusal::{Asked, Refusal};
use std::slice::ChunksExact;

/// The loads of one window.
#[derive(Clone, Copy, Debug, PartialEq, Eq, Hash)]
pub struct Window<'a> {
    /// The weight that each worker finished in it, workers 0 to P − 1; 0 of one that finished none.
    pub sums: &'a [u32],
    /// From the smallest to the largest of these.
    pub spread: u32,
}

/// The loads of all windows of one size, in the record's order: [`Job::windows`].
#[derive(Clone, Debug, PartialEq, Eq, Hash)]
pub struct Windows {
    /// P + 1 words for each window, the spread last.
    words: Vec<u32>,
    workers: usize,
}

impl Windows {
    /// How many windows there are: one for each entry that has m − 1 more behind it.
    pub fn len(&self) -> usize {
        self.iter().len()
    }

    /// Whether there are none, which isn't so of an accepted call.
    pub fn is_empty(&self) -> bool {
        self.words.is_empty()
    }

    /// The windows, that of the first entries first.
    pub fn iter(&self) -> WindowsIter<'_> {
        WindowsIter {
            parts: self.words.chunks_exact(self.workers + 1),
        }
    }

    /// The window of the last entries.
    pub fn last(&self) -> Option<Window<'_>> {
        self.iter().next_back()
    }
}

impl<'a> IntoIterator for &'a Windows {
    type Item = Window<'a>;
    type IntoIter = WindowsIter<'a>;

    fn into_iter(self) -> WindowsIter<'a> {
        self.iter()
    }
}

/// Goes through [`Windows`].
#[derive(Clone, Debug)]
pub struct WindowsIter<'a> {
    parts: ChunksExact<'a, u32>,
}

impl<'a> Iterator for WindowsIter<'a> {
    type Item = Window<'a>;

    fn next(&mut self) -> Option<Window<'a>> {
        self.parts.next().and_then(window)
    }

    fn size_hint(&self) -> (usize, Option<usize>) {
        self.parts.size_hint()
    }
}

impl DoubleEndedIterator for WindowsIter<'_> {
    fn next_back(&mut self) -> Option<Self::Item> {
        self.parts.next_back().and_then(window)
    }
}

impl ExactSizeIterator for WindowsIter<'_> {}

/// The P sums and the spread behind them.
fn window(words: &[u32]) -> Option<Window<'_>> {
    let (&spread, sums) = words.split_last()?;
    Some(Window { sums, spread })
}

/// Load windows, which a preview doesn't have.
impl Job {
    /// For every run of `m` neighbouring entries of the record, in order, the weight that each worker finished, and the
    /// spread from the smallest to the largest of these. It changes nothing, and may be asked during a run; the cost of a
    /// window doesn't depend on `m`.
    ///
    /// # Errors
    ///
    /// Refused with 2 for workers or tasks beyond the limits, with 15 if `m` is 0 or more than there are entries.
    ///
    /// ```
    /// use yolluvek::{Job, Refusal, WorkerId};
    ///
    /// let mut job = Job::from_text(b"2\n0 0 0\n1 5 1 0\n2 3 1 0\n3 0 2 1 2\n", 2, 4)?;
    /// job.begin()?;
    /// assert_eq!(job.windows(1), Err(Refusal::BadWindow { entries: 0 }));
    ///
    /// let mut workers = [0, 1].map(WorkerId::new).into_iter().cycle();
    /// while !job.is_finished() {
    ///     let worker = workers.next().expect("they take turns for ever");
    ///     let _taken = job.release(worker).is_ok()
    ///         || job.fetch(worker).is_ok()
    ///         || job.start(worker).is_ok()
    ///         || job.complete(worker).is_ok();
    /// }
    ///
    /// // the record: task 0 by worker 0, 2 by 1, 1 by 0, 3 by 0
    /// let windows = job.windows(2)?;
    /// let loads: Vec<(&[u32], u32)> = windows.iter().map(|window| (window.sums, window.spread)).collect();
    /// assert_eq!(loads, [(&[0, 3][..], 3), (&[5, 3], 2), (&[5, 0], 5)]);
    ///
    /// let refusal = job.windows(5).unwrap_err();
    /// assert_eq!((refusal.number(), refusal.detail()), (15, 0));
    /// assert_eq!(refusal.to_string(), "a load window has from 1 to 4 entries: so many are recorded");
    /// # Ok::<(), Refusal>(())
    /// ```
    pub fn windows(&self, m: usize) -> Result<Windows, Refusal> {
        let entries = self.record().len();
        // beyond its limit a number is refused before the results are judged, so that the product stays small
        let workers = self.workers.min(MAX_WORKERS);
        let mut words = vec![0; (entries + 1).saturating_sub(m) * (workers + 1)];
        let reply = ffi::windows(&self.memory, &mut words, self.workers, m);
        let asked = Asked::Windows {
            tables: &self.memory.tables,
            workers: self.workers,
            entries,
        };
        asked.answered(reply.number, reply.detail)?;
        Ok(Windows { words, workers })
    }
}
