//! Jobs on as many threads as there are cores.

use std::sync::Mutex;
use std::thread;

pub type Job<T> = Box<dyn FnOnce() -> T + Send>;

/// What the jobs return, in the order in which they end. Those in front are begun first.
pub fn run_all<T: Send>(jobs: Vec<Job<T>>) -> Vec<T> {
    let threads = thread::available_parallelism().map_or(1, |count| count.get());
    let waiting = Mutex::new(jobs.into_iter());
    let ended = Mutex::new(Vec::new());
    thread::scope(|scope| {
        for _ in 0..threads {
            scope.spawn(|| loop {
                let next = waiting.lock().unwrap().next();
                match next {
                    Some(job) => {
                        let result = job();
                        ended.lock().unwrap().push(result);
                    }
                    None => break,
                }
            });
        }
    });
    ended.into_inner().unwrap()
}
