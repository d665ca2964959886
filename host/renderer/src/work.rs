//! Items played side by side, and handed over in their order.

use crate::note::clipped;
use crate::stop::Stop;
use std::any::Any;
use std::collections::BTreeMap;
use std::io;
use std::panic::{self, AssertUnwindSafe};
use std::sync::mpsc::{self, Receiver, Sender};
use std::sync::{Condvar, Mutex, PoisonError};
use std::thread::{self, Scope};

/// The name of the threads that play.
pub const WORKER: &str = "worker";

/// The notes that a job may be ahead of the first that is not through, so that memory does not grow with the sheet.
const AHEAD: usize = 16;

/// The bytes of a worker's stack, and those that it is sure to have beside.
const STACK: usize = 1 << 19;
const MEMORY: usize = 4 << 20;

/// The bytes that are left beside those of all workers.
const SPARE: usize = 8 << 20;

/// The items that are left, and how many were taken and are through.
struct Queue<I> {
    items: I,
    /// The workers that have begun.
    workers: usize,
    taken: usize,
    through: usize,
    /// How far the taken may be ahead; 0 until all workers have begun.
    ahead: usize,
    is_closed: bool,
}

struct Shared<I> {
    queue: Mutex<Queue<I>>,
    moved: Condvar,
}

/// What is done with an item, and what becomes of one at which a worker halts.
pub struct Work<P, H> {
    pub play: P,
    pub halted: H,
}

impl<T: Send, I: Iterator<Item = T> + Send> Shared<I> {
    /// Takes the next item, once it is not too far ahead.
    fn take(&self, stop: &Stop) -> Option<(usize, T)> {
        let mut queue = self.queue.lock().unwrap_or_else(PoisonError::into_inner);
        while !queue.is_closed && queue.taken >= queue.through + queue.ahead {
            queue = self.moved.wait(queue).unwrap_or_else(PoisonError::into_inner);
        }
        if queue.is_closed || stop.is_asked() {
            return None;
        }
        let item = queue.items.next()?;
        queue.taken += 1;
        Some((queue.taken - 1, item))
    }

    fn change(&self, change: impl FnOnce(&mut Queue<I>)) {
        change(&mut self.queue.lock().unwrap_or_else(PoisonError::into_inner));
        self.moved.notify_all();
    }

    /// Plays items until none is left. One at which a worker halts has failed, and the worker goes on with the next.
    fn work<O>(
        &self,
        stop: &Stop,
        work: &Work<impl Fn(&T) -> O, impl Fn(String) -> O>,
        played: &Sender<(usize, T, O)>,
    ) {
        self.change(|queue| queue.workers += 1);
        while let Some((place, item)) = self.take(stop) {
            let outcome = panic::catch_unwind(AssertUnwindSafe(|| (work.play)(&item)));
            let outcome = outcome.unwrap_or_else(|panic| (work.halted)(halted(&*panic)));
            if played.send((place, item, outcome)).is_err() {
                return;
            }
        }
    }

    /// Begins as many workers as there is memory for, at most so many, and opens the queue to them.
    fn begin<'scope, O: Send + 'scope>(
        &'scope self,
        scope: &'scope Scope<'scope, '_>,
        jobs: usize,
        stop: &'scope Stop,
        work: &'scope Work<impl Fn(&T) -> O + Sync, impl Fn(String) -> O + Sync>,
    ) -> io::Result<Receiver<(usize, T, O)>>
    where
        T: 'scope,
    {
        one_heap();
        let (sender, played) = mpsc::channel();
        let mut held = vec![memory(SPARE)?];
        for job in 0..jobs {
            let sender = sender.clone();
            let worker = thread::Builder::new().name(WORKER.into()).stack_size(STACK);
            // What the thread takes as it begins is free, and held only once it has begun.
            let begun = memory(STACK + 2 * MEMORY).map(drop).and_then(|()| {
                worker.spawn_scoped(scope, move || self.work(stop, work, &sender))?;
                self.wait(job + 1);
                memory(MEMORY)
            });
            match begun {
                Ok(memory) => held.push(memory),
                Err(error) if job == 0 => return Err(error),
                Err(_) => break,
            }
        }
        drop(held);
        self.change(|queue| queue.ahead = AHEAD * jobs);
        Ok(played)
    }

    /// Waits until so many workers have begun.
    fn wait(&self, workers: usize) {
        let mut queue = self.queue.lock().unwrap_or_else(PoisonError::into_inner);
        while queue.workers < workers {
            queue = self.moved.wait(queue).unwrap_or_else(PoisonError::into_inner);
        }
    }
}

/// Lets all threads allocate from one heap: one of a thread's own begins with 64 MB of addresses, which a limit may leave others without.
#[allow(unsafe_code)]
fn one_heap() {
    #[cfg(target_env = "gnu")]
    // SAFETY: mallopt takes any numbers, and no other thread runs yet.
    unsafe {
        libc::mallopt(libc::M_ARENA_MAX, 1);
    }
}

/// Memory that is free.
fn memory(bytes: usize) -> io::Result<Vec<u8>> {
    let mut memory = Vec::new();
    memory.try_reserve_exact(bytes).map_err(|_| io::ErrorKind::OutOfMemory)?;
    Ok(memory)
}

/// What a worker that halted said.
fn halted(panic: &(dyn Any + Send)) -> String {
    let text = panic.downcast_ref::<&str>().copied();
    let text = text.or_else(|| panic.downcast_ref::<String>().map(|text| &text[..]));
    format!("the renderer halted at it: {}", clipped(text.unwrap_or("for no reason that it gave")))
}

/// Plays items in as many jobs as there is memory for, hands each over in its order, and gives those that a stop left.
pub fn in_order<T: Send, O: Send, I: Iterator<Item = T> + Send>(
    items: I,
    jobs: usize,
    stop: &Stop,
    work: &Work<impl Fn(&T) -> O + Sync, impl Fn(String) -> O + Sync>,
    mut hand_over: impl FnMut(T, O) -> io::Result<()>,
) -> io::Result<I> {
    let queue = Queue { items, workers: 0, taken: 0, through: 0, ahead: 0, is_closed: false };
    let shared = Shared { queue: Mutex::new(queue), moved: Condvar::new() };
    let played = thread::scope(|scope| {
        let played = shared.begin(scope, jobs, stop, work);
        let handed = played.and_then(|played| {
            let mut early = BTreeMap::new();
            let mut through = 0;
            for (place, item, outcome) in played {
                early.insert(place, (item, outcome));
                while let Some((item, outcome)) = early.remove(&through) {
                    hand_over(item, outcome)?;
                    through += 1;
                    shared.change(|queue| queue.through = through);
                }
            }
            Ok(())
        });
        // Whatever ended it, no worker waits for more.
        shared.change(|queue| queue.is_closed = true);
        handed
    });
    played?;
    Ok(shared.queue.into_inner().unwrap_or_else(PoisonError::into_inner).items)
}
