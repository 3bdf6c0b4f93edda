//! Many rays at one mesh, in several threads.
use crate::answer::{Cast, MeshHit, Refusal};
use crate::{Drill, LargeMesh, Mesh, Ray, Scratch};
use std::io::{self, IsTerminal, Write};
use std::num::NonZeroUsize;
use std::sync::atomic::{AtomicUsize, Ordering};
use std::sync::mpsc::{self, RecvTimeoutError};
use std::thread;
use std::time::{Duration, Instant};

/// A thread takes at most this many items at a time.
const MOST_AT_ONCE: usize = 256;

/// Each thread takes items about this many times, so that none waits long for the last one.
const TURNS: usize = 16;

/// Work shorter than this shows no progress.
const PATIENCE: Duration = Duration::from_secs(1);

/// How often the line is updated.
const TICK: Duration = Duration::from_millis(200);

/// How a batch runs: in how many threads, and whether its progress is shown.
///
/// ```
/// use probe_rays::{Batch, Cast, Mesh, Ray, Refusal};
///
/// let square = [[0.0, 0.0, 0.0], [4.0, 0.0, 0.0], [4.0, 4.0, 0.0], [0.0, 4.0, 0.0]];
/// let mesh = Mesh::build(square, [[0, 1, 2], [0, 2, 3]])?;
/// let rays: Vec<Ray> = (0..1000)
///     .map(|n| Ray::new([f64::from(n) / 100.0, 0.5, 5.0], [0.0, 0.0, -1.0], 10.0))
///     .collect();
///
/// // the result of each ray, in the order of the rays
/// let casts = mesh.cast_many(&rays);
/// assert!(matches!(casts[399], Cast::Hit(hit) if hit.distance == 5.0));
/// assert_eq!(casts[401], Cast::None);
///
/// // any work that needs a scratch, here in two threads
/// let counts = Batch::new().threads(2).run(&rays, |ray, scratch| mesh.cast_all_with(ray, scratch).map(|hits| hits.len()));
/// assert_eq!((counts[399], counts[401]), (Ok(1), Ok(0)));
/// # Ok::<(), Refusal>(())
/// ```
#[derive(Clone, Debug, Default)]
pub struct Batch {
    threads: Option<NonZeroUsize>,
    label: Option<String>,
}

impl Batch {
    /// As many threads as the machine runs at the same time, and no progress line.
    pub fn new() -> Batch {
        Batch::default()
    }

    /// The number of threads; 0 means as many as the machine runs at the same time.
    pub fn threads(self, count: usize) -> Batch {
        Batch {
            threads: NonZeroUsize::new(count),
            ..self
        }
    }

    /// Work that takes longer than a second shows a line on standard error, if that is a terminal: the label, how many items
    /// of how many are done, and about how long the rest takes. The line is cleared at the end.
    pub fn progress(self, label: impl Into<String>) -> Batch {
        Batch {
            label: Some(label.into()),
            ..self
        }
    }

    /// What `answer` returns for each item, in the order of the items. Each thread has its own [`Scratch`].
    ///
    /// Panics if `answer` panics.
    pub fn run<T, A>(&self, items: &[T], answer: impl Fn(&T, &mut Scratch) -> A + Sync) -> Vec<A>
    where
        T: Sync,
        A: Send,
    {
        self.run_shares(items, |share, scratch| {
            share.iter().map(|item| answer(item, scratch)).collect()
        })
    }

    /// What `answer` returns for each share of the items, in order: one answer for each item of the share.
    fn run_shares<T, A>(
        &self,
        items: &[T],
        answer: impl Fn(&[T], &mut Scratch) -> Vec<A> + Sync,
    ) -> Vec<A>
    where
        T: Sync,
        A: Send,
    {
        let mut line = self
            .label
            .as_ref()
            .map(|label| Progress::new(label, Some(items.len())));
        let mut show = |done| {
            if let Some(line) = &mut line {
                line.show(done);
            }
        };
        let threads = self.thread_count().min(items.len());
        let at_once = (items.len() / (threads.max(1) * TURNS)).clamp(1, MOST_AT_ONCE);
        if threads <= 1 {
            let mut scratch = Scratch::new();
            let mut answers = Vec::with_capacity(items.len());
            for share in items.chunks(at_once) {
                answers.extend(answer(share, &mut scratch));
                show(answers.len());
            }
            return answers;
        }
        let next = AtomicUsize::new(0);
        let shares = items.len().div_ceil(at_once);
        let mut parts: Vec<Option<Vec<A>>> = (0..shares).map(|_| None).collect();
        thread::scope(|scope| {
            let (sender, receiver) = mpsc::channel();
            for _ in 0..threads {
                let (sender, next, answer) = (sender.clone(), &next, &answer);
                scope.spawn(move || {
                    let mut scratch = Scratch::new();
                    loop {
                        let number = next.fetch_add(1, Ordering::Relaxed);
                        let Some(share) = items.chunks(at_once).nth(number) else {
                            return;
                        };
                        if sender.send((number, answer(share, &mut scratch))).is_err() {
                            return;
                        }
                    }
                });
            }
            drop(sender);
            let mut done = 0;
            loop {
                match receiver.recv_timeout(TICK) {
                    Ok((number, answers)) => {
                        done += answers.len();
                        parts[number] = Some(answers);
                    }
                    Err(RecvTimeoutError::Timeout) => {}
                    // every thread has ended; one that panicked passes its panic on at the scope's end
                    Err(RecvTimeoutError::Disconnected) => return,
                }
                show(done);
            }
        });
        parts.into_iter().flatten().flatten().collect()
    }

    fn thread_count(&self) -> usize {
        self.threads
            .or_else(|| thread::available_parallelism().ok())
            .map_or(1, NonZeroUsize::get)
    }
}

/// A progress line on standard error, if that is a terminal and the work takes longer than a second. It is updated a few times
/// a second, and cleared when this is dropped.
///
/// ```
/// use probe_rays::Progress;
///
/// let mut line = Progress::new("casting", None);
/// for block in 1..=10 {
///     // cast at a thousand rays
///     line.show(1000 * block);
/// }
/// ```
#[derive(Debug)]
pub struct Progress {
    label: String,
    total: Option<usize>,
    start: Instant,
    shown: Option<Instant>,
    seen: bool,
}

impl Progress {
    /// The line of work that begins now, with its number of items, if that is known.
    pub fn new(label: impl Into<String>, total: Option<usize>) -> Progress {
        Progress {
            label: label.into(),
            total,
            start: Instant::now(),
            shown: None,
            seen: io::stderr().is_terminal(),
        }
    }

    /// Shows how many items are done, if the line is due.
    pub fn show(&mut self, done: usize) {
        let now = Instant::now();
        let spent = now - self.start;
        let due = self.shown.map_or(spent >= PATIENCE, |at| now - at >= TICK);
        if !self.seen || !due {
            return;
        }
        self.shown = Some(now);
        let words = told(&self.label, done, self.total, spent);
        // a terminal that is gone is no reason to stop casting
        let _ = write!(io::stderr(), "\r{words}\x1b[K");
    }
}

impl Drop for Progress {
    fn drop(&mut self) {
        if self.shown.is_some() {
            let _ = write!(io::stderr(), "\r\x1b[K");
        }
    }
}

/// The line's words. The time left is that of the rest at the speed so far.
fn told(label: &str, done: usize, total: Option<usize>, spent: Duration) -> String {
    let Some(total) = total else {
        return format!("{label}: {done} so far");
    };
    let share = (100 * done).checked_div(total).unwrap_or(100);
    let mut words = format!("{label}: {done} of {total} ({share} %)");
    if done > 0 {
        let left = spent.as_secs_f64() * (total - done) as f64 / done as f64;
        words += &format!(", about {left:.0} s left");
    }
    words
}

impl Mesh {
    /// The [`cast`](Mesh::cast) of each ray, in the order of the rays, in as many threads as the machine runs at the same
    /// time. [`Batch`] sets the number of threads and shows progress.
    pub fn cast_many(&self, rays: &[Ray]) -> Vec<Cast<MeshHit>> {
        Batch::new().run_shares(rays, |share, scratch| self.cast_many_with(share, scratch))
    }

    /// The [`cast_exact`](Mesh::cast_exact) of each ray, in the same way.
    pub fn cast_exact_many(&self, rays: &[Ray]) -> Vec<Cast<MeshHit>> {
        Batch::new().run_shares(rays, |share, scratch| {
            self.cast_exact_many_with(share, scratch)
        })
    }

    /// The [`drill`](Mesh::drill) of each, in the same way.
    pub fn drill_many(&self, drills: &[Drill]) -> Vec<Result<Option<u32>, Refusal>> {
        Batch::new().run_shares(drills, |share, scratch| {
            self.drill_many_with(share, scratch)
        })
    }

    /// The [`cast_all`](Mesh::cast_all) of each ray, in the same way.
    pub fn cast_all_many(&self, rays: &[Ray]) -> Vec<Result<Vec<MeshHit>, Refusal>> {
        Batch::new().run(rays, |ray, scratch| self.cast_all_with(ray, scratch))
    }

    /// The [`cast_exact_all`](Mesh::cast_exact_all) of each ray, in the same way.
    pub fn cast_exact_all_many(&self, rays: &[Ray]) -> Vec<Result<Vec<MeshHit>, Refusal>> {
        Batch::new().run(rays, |ray, scratch| self.cast_exact_all_with(ray, scratch))
    }
}

impl LargeMesh {
    /// The [`drill`](LargeMesh::drill) of each, in the order of the drills, in as many threads as the machine runs at the same
    /// time.
    pub fn drill_many(&self, drills: &[Drill]) -> Vec<Result<Option<u32>, Refusal>> {
        let one = |drill: &Drill, scratch: &mut Scratch| {
            self.drill_with(&drill.ray, drill.radius, scratch)
        };
        Batch::new().run(drills, one)
    }
}

#[cfg(test)]
mod tests {
    use super::*;

    #[test]
    fn the_line_says_how_long_the_rest_takes() {
        // 250 of 1,000 in 3 s: the other 750 take 9
        let words = |done, total| told("casting", done, total, Duration::from_secs(3));
        assert_eq!(
            words(250, Some(1000)),
            "casting: 250 of 1000 (25 %), about 9 s left"
        );
        assert_eq!(words(0, Some(1000)), "casting: 0 of 1000 (0 %)");
        assert_eq!(words(0, Some(0)), "casting: 0 of 0 (100 %)");
        assert_eq!(words(70, None), "casting: 70 so far");
    }
}
