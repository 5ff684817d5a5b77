//! What a thread reads, and others hash.

use std::collections::VecDeque;
use std::io;
use std::num::NonZeroUsize;
use std::sync::{Condvar, Mutex, MutexGuard, PoisonError};
use std::thread;

// The name of the threads, as debuggers show it.
const NAME: &str = "yurewha";

// A buffer with more room isn't kept for further tasks. The chunks of a Xet client are shorter.
const MOST_KEPT: usize = 1 << 20;

/// The tasks between the thread that reads and those that hash. All is under one lock, and not in a channel, because threads that take
/// turns at a channel's end wake each other for each task.
pub(super) struct Queue<T> {
    waiting: Mutex<Waiting<T>>,
    has_come: Condvar,
}

struct Waiting<T> {
    tasks: VecDeque<T>,
    // Buffers that no task needs any more. The last one is the likeliest to be in a cache.
    spare: Vec<Vec<u8>>,
    is_closed: bool,
}

impl<T: Send> Queue<T> {
    pub(super) fn new() -> Self {
        let (tasks, spare, is_closed) = (VecDeque::new(), Vec::new(), false);
        Queue {
            waiting: Mutex::new(Waiting {
                tasks,
                spare,
                is_closed,
            }),
            has_come: Condvar::new(),
        }
    }

    /// Does tasks on the given number of threads, but on no more threads than there are tasks, and returns what they gave, in any
    /// order. The calling thread is one of them. It takes the tasks, and while as many wait as there are other threads, it does the next
    /// one itself.
    pub(super) fn on_threads<R: Send>(
        &self,
        tasks: impl Iterator<Item = io::Result<T>>,
        work: impl Fn(T) -> Option<R> + Sync,
        threads: NonZeroUsize,
    ) -> io::Result<Vec<R>> {
        let others = threads.get() - 1;
        thread::scope(|scope| {
            let closing = Closing(self);
            let named = || thread::Builder::new().name(NAME.to_owned());
            let (mut workers, mut done) = (Vec::new(), Vec::new());
            for (number, task) in tasks.enumerate() {
                let task = task?;
                if workers.len() < others.min(number) {
                    workers.push(named().spawn_scoped(scope, || self.do_each(&work))?);
                }
                let refused = self.put(task, workers.len());
                done.extend(refused.and_then(&work));
            }
            drop(closing);
            done.extend(self.do_each(&work));
            for worker in workers {
                done.extend(worker.join().expect("hashing panics nowhere"));
            }
            Ok(done)
        })
    }

    // Does tasks until the queue is closed.
    fn do_each<R>(&self, work: impl Fn(T) -> Option<R>) -> Vec<R> {
        let mut done = Vec::new();
        while let Some(task) = self.next() {
            done.extend(work(task));
        }
        done
    }

    // Puts a task in, or returns it if `most` tasks wait already.
    fn put(&self, task: T, most: usize) -> Option<T> {
        let mut waiting = self.locked();
        if waiting.tasks.len() >= most {
            return Some(task);
        }
        waiting.tasks.push_back(task);
        drop(waiting);
        self.has_come.notify_one();
        None
    }

    // Takes the next task out as soon as there is one, or returns `None` once the queue is closed.
    fn next(&self) -> Option<T> {
        let mut waiting = self.locked();
        loop {
            if let Some(task) = waiting.tasks.pop_front() {
                return Some(task);
            }
            if waiting.is_closed {
                return None;
            }
            waiting = unpoisoned(self.has_come.wait(waiting));
        }
    }

    /// Keeps a buffer for a later task, unless it is long or there is no memory for that.
    pub(super) fn keep(&self, buffer: Vec<u8>) {
        if buffer.capacity() <= MOST_KEPT {
            let spare = &mut self.locked().spare;
            if spare.try_reserve(1).is_ok() {
                spare.push(buffer);
            }
        }
    }

    /// A buffer that was kept, or a new one.
    pub(super) fn buffer(&self) -> Vec<u8> {
        self.locked().spare.pop().unwrap_or_default()
    }

    fn locked(&self) -> MutexGuard<'_, Waiting<T>> {
        unpoisoned(self.waiting.lock())
    }
}

// Closes a queue at its end, also after an error or a panic of the reader, so that no thread waits for ever.
struct Closing<'a, T: Send>(&'a Queue<T>);

impl<T: Send> Drop for Closing<'_, T> {
    fn drop(&mut self) {
        self.0.locked().is_closed = true;
        self.0.has_come.notify_all();
    }
}

/// What a lock or a wait returns. No thread leaves what is locked half changed.
pub(super) fn unpoisoned<T>(locked: Result<T, PoisonError<T>>) -> T {
    locked.unwrap_or_else(PoisonError::into_inner)
}

#[cfg(test)]
mod tests {
    use super::*;
    use std::sync::mpsc;
    use std::time::Duration;

    // Each task comes only after the one before it was done: the first by the reading thread, and the others by another one.
    #[test]
    fn a_thread_that_waits_is_woken_by_each_task() {
        let (sender, receiver) = mpsc::channel();
        let tasks = (0..1000).map(|number| {
            let last = Duration::from_secs(60);
            assert!(
                number == 0 || receiver.recv_timeout(last) == Ok(number - 1),
                "task {number} waits"
            );
            Ok(number)
        });
        let work = |number| {
            sender.send(number).unwrap();
            None::<()>
        };
        assert!(Queue::new()
            .on_threads(tasks, work, NonZeroUsize::new(2).unwrap())
            .is_ok());
    }
}
