//! Work that is done side by side by the machine's cores, and whose results are taken in order.
//!
//! One thread reads batches, some work on them, and the caller takes the results. So much at most is held at once: a batch is not read before the
//! results of others are taken, if these are many or large.

use std::any::Any;
use std::collections::{BTreeMap, VecDeque};
use std::io;
use std::panic::{catch_unwind, resume_unwind, AssertUnwindSafe};
use std::sync::{Arc, Condvar, Mutex, MutexGuard};
use std::thread::{self, JoinHandle};

/// The most jobs that can be asked for.
pub const MOST_JOBS: usize = 256;

/// For each job so many batches are held, but not above so many bytes, unless one batch is larger.
const BATCHES_A_JOB: u64 = 4;
const MOST_BYTES: usize = 4 << 20;

/// How many jobs there are where none are asked for: the machine's cores.
pub fn cores() -> usize {
    thread::available_parallelism().map_or(1, usize::from).min(MOST_JOBS)
}

/// What is worked on at once.
pub trait Batch: Send + 'static {
    /// About how many bytes it holds.
    fn size(&self) -> usize;
}

/// What was made of a batch, or a panic.
type Made<Done> = Result<Done, Box<dyn Any + Send>>;

/// What the threads share.
struct Shared<Input, Done> {
    state: Mutex<State<Input, Done>>,
    changed: Condvar,
}

/// Batches by their numbers: waiting, and done. What is neither and not taken is being worked on.
struct State<Input, Done> {
    waiting: VecDeque<(u64, Input)>,
    done: BTreeMap<u64, (usize, Made<Done>)>,
    read: u64,
    taken: u64,
    /// The bytes of all batches that are not taken.
    held: usize,
    /// There is no further batch.
    ended: bool,
    /// No further result is wanted.
    stopped: bool,
}

/// Works on the batches that `next` gives by so many jobs, and hands each result to `take`, in the order of the batches. A job has a worker of its
/// own. Where `take` fails, that is the failure, and nothing is waited for: a thread that is still reading ends with the program.
pub fn in_order<Input, Done, Worker, Error>(
    jobs: usize,
    mut next: impl FnMut() -> Option<Input> + Send + 'static,
    worker: impl Fn() -> Worker + Send + Sync + 'static,
    mut take: impl FnMut(Done) -> Result<(), Error>,
) -> Result<(), Error>
where
    Input: Batch,
    Done: Send + 'static,
    Worker: FnMut(Input) -> Done,
    Error: From<io::Error>,
{
    if jobs <= 1 {
        let mut work = worker();
        return std::iter::from_fn(next).try_for_each(|batch| take(work(batch)));
    }
    let shared = Arc::new(Shared::new());
    let most = BATCHES_A_JOB * jobs as u64;
    let reader = shared.clone();
    let mut threads = vec![spawn(move || reader.read(&mut next, most))?];
    let worker = Arc::new(worker);
    for _ in 0..jobs {
        let (shared, worker) = (shared.clone(), worker.clone());
        threads.push(spawn(move || shared.work(&*worker))?);
    }
    let stop = Stop(&shared);
    while let Some(made) = stop.0.take() {
        take(made.unwrap_or_else(|panic| resume_unwind(panic)))?;
    }
    drop(stop);
    // All batches are read and done, so each thread ends at once; else the program would end before its memory is given back.
    threads.into_iter().for_each(|thread| drop(thread.join()));
    Ok(())
}

fn spawn(work: impl FnOnce() + Send + 'static) -> io::Result<JoinHandle<()>> {
    let started = thread::Builder::new().spawn(work);
    started.map_err(|error| io::Error::other(format!("no thread can be started ({error}); call again with --jobs 1")))
}

/// Tells the threads that nothing more is wanted, however the taking ends.
struct Stop<'a, Input, Done>(&'a Shared<Input, Done>);

impl<Input, Done> Drop for Stop<'_, Input, Done> {
    fn drop(&mut self) {
        self.0.lock().stopped = true;
        self.0.changed.notify_all();
    }
}

impl<Input, Done> Shared<Input, Done> {
    fn new() -> Shared<Input, Done> {
        let state = State { waiting: VecDeque::new(), done: BTreeMap::new(), read: 0, taken: 0, held: 0, ended: false, stopped: false };
        Shared { state: Mutex::new(state), changed: Condvar::new() }
    }

    /// No thread panics while it holds the lock: what may panic is called without it.
    fn lock(&self) -> MutexGuard<'_, State<Input, Done>> {
        self.state.lock().unwrap_or_else(|poisoned| poisoned.into_inner())
    }

    /// Waits until it is so, or nothing more is wanted.
    fn wait(&self, until: impl Fn(&State<Input, Done>) -> bool) -> MutexGuard<'_, State<Input, Done>> {
        let waited = self.changed.wait_while(self.lock(), |state| !state.stopped && !until(state));
        waited.unwrap_or_else(|poisoned| poisoned.into_inner())
    }

    /// The next result; `None` if there is none.
    fn take(&self) -> Option<Made<Done>> {
        let mut state = self.wait(|state| state.done.contains_key(&state.taken) || state.ended && state.taken == state.read);
        let taken = state.taken;
        let (size, made) = state.done.remove(&taken)?;
        state.taken += 1;
        state.held -= size;
        self.changed.notify_all();
        Some(made)
    }
}

impl<Input: Batch, Done> Shared<Input, Done> {
    /// Reads batches, each when there is room for it, until there are no more or none is wanted. A panic is what the reading gives last.
    fn read(&self, next: &mut impl FnMut() -> Option<Input>, most: u64) {
        loop {
            let batch = catch_unwind(AssertUnwindSafe(&mut *next));
            let size = batch.as_ref().map_or(0, |batch| batch.as_ref().map_or(0, Input::size));
            let mut state = self.wait(|state| state.read - state.taken < most && (state.held == 0 || state.held + size <= MOST_BYTES));
            let number = state.read;
            match batch {
                Ok(Some(batch)) if !state.stopped => state.waiting.push_back((number, batch)),
                Ok(_) => return self.end(state),
                Err(panic) => {
                    state.done.insert(number, (0, Err(panic)));
                    state.read += 1;
                    return self.end(state);
                }
            }
            state.held += size;
            state.read += 1;
            self.changed.notify_all();
        }
    }

    fn end(&self, mut state: MutexGuard<'_, State<Input, Done>>) {
        state.ended = true;
        self.changed.notify_all();
    }

    /// Works on batches until there are no more, or no result is wanted.
    fn work<Worker: FnMut(Input) -> Done>(&self, worker: &impl Fn() -> Worker) {
        let mut work = worker();
        loop {
            let mut state = self.wait(|state| !state.waiting.is_empty() || state.ended);
            let Some((number, batch)) = state.waiting.pop_front().filter(|_| !state.stopped) else { return };
            drop(state);
            let size = batch.size();
            let made = catch_unwind(AssertUnwindSafe(|| work(batch)));
            self.lock().done.insert(number, (size, made));
            self.changed.notify_all();
        }
    }
}

#[cfg(test)]
mod tests {
    use std::sync::atomic::{AtomicUsize, Ordering};
    use std::sync::mpsc;
    use std::time::Duration;

    use super::*;

    impl Batch for usize {
        fn size(&self) -> usize {
            1000
        }
    }

    fn counted(count: usize) -> impl FnMut() -> Option<usize> {
        let mut numbers = 0..count;
        move || numbers.next()
    }

    #[test]
    fn results_come_in_order_whatever_takes_long() {
        for jobs in [1, 2, 7] {
            let mut taken = Vec::new();
            let late = || |number: usize| {
                thread::sleep(Duration::from_micros(if number % 5 == 0 { 900 } else { 10 }));
                number * 2
            };
            in_order(jobs, counted(300), late, |double| { taken.push(double); Ok::<(), io::Error>(()) }).unwrap();
            assert_eq!(taken, (0..300).map(|number| number * 2).collect::<Vec<_>>(), "{jobs} jobs");
        }
    }

    /// A batch is read before its result is taken, and not more of them than there is room for.
    #[test]
    fn only_so_much_is_held() {
        static READ: AtomicUsize = AtomicUsize::new(0);
        let mut next = counted(500);
        let counting = move || next().inspect(|_| { READ.fetch_add(1, Ordering::SeqCst); });
        let mut taken = 0;
        in_order(3, counting, || |number: usize| number, |_| {
            taken += 1;
            // One more is in the reader's hand.
            assert!(READ.load(Ordering::SeqCst) <= taken + 3 * BATCHES_A_JOB as usize + 1);
            thread::sleep(Duration::from_micros(50));
            Ok::<(), io::Error>(())
        }).unwrap();
        assert_eq!(taken, 500);
    }

    #[test]
    fn a_failure_ends_the_work_though_the_reading_waits() {
        let (open, wait) = mpsc::channel::<()>();
        let mut left = 20;
        // After twenty batches the reading waits for ever, as for a person who types nothing.
        let next = move || { if left == 0 { let _ = wait.recv(); } else { left -= 1; } Some(1usize) };
        let failed = in_order(2, next, || |number: usize| number, |_| Err(io::Error::other("closed")));
        assert_eq!(failed.unwrap_err().to_string(), "closed");
        drop(open);
    }

    #[test]
    fn a_panic_is_the_callers() {
        let work = || |number: usize| if number == 7 { panic!("seven") } else { number };
        let panicked = catch_unwind(|| in_order(2, counted(20), work, |_| Ok::<(), io::Error>(())));
        assert_eq!(panicked.unwrap_err().downcast_ref::<&str>(), Some(&"seven"));
        let reading = || -> Option<usize> { panic!("reading") };
        let panicked = catch_unwind(|| in_order(2, reading, || |number: usize| number, |_| Ok::<(), io::Error>(())));
        assert_eq!(panicked.unwrap_err().downcast_ref::<&str>(), Some(&"reading"));
    }

    #[test]
    fn no_batches_are_no_results() {
        in_order(4, counted(0), || |number: usize| number, |_| -> io::Result<()> { panic!("nothing was to be taken") }).unwrap();
        assert!((1..=MOST_JOBS).contains(&cores()));
    }
}
