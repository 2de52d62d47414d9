//! The work of `crates/pool_bench` in plain Rust: over a deque and an injector of the crate
//! `crossbeam_deque`, where the feature `stealing` is on, and over one locked queue of std.
use std::collections::VecDeque;
use std::hint;
use std::sync::Mutex;
use std::sync::atomic::{AtomicBool, Ordering};
use std::thread;
use std::time::Instant;

struct Task {
    number: u64,
}

enum Look {
    Task(Task),
    Empty,
    // Only the deque and the injector answer so.
    #[allow(dead_code)]
    Retry,
}

/// The numbers that each thief took, how many tasks are left, and how long it took in nanoseconds to make
/// the queues, to feed and take the tasks, and to settle.
struct Done {
    taken: Vec<Vec<u64>>,
    left: usize,
    times: [u128; 3],
}

/// Spins, each time for twice as long, and then yields the processor, as `Backoff` of `crossbeam_utils`.
fn snooze(tries: &mut u32) {
    if *tries <= 6 {
        for _ in 0..1 << *tries {
            hint::spin_loop();
        }
    } else {
        thread::yield_now();
    }
    *tries += 1;
}

/// Takes tasks until no more come.
fn take_all(shut: &AtomicBool, look: impl Fn() -> Look) -> Vec<u64> {
    let mut numbers = Vec::new();
    let mut knows_shut = false;
    let mut tries = 0;
    loop {
        match look() {
            Look::Task(task) => {
                numbers.push(task.number);
                tries = 0;
            }
            Look::Retry => snooze(&mut tries),
            Look::Empty if knows_shut => return numbers,
            Look::Empty => {
                knows_shut = shut.load(Ordering::SeqCst);
                if !knows_shut {
                    snooze(&mut tries);
                }
            }
        }
    }
}

/// Feeds so many tasks in this thread, while each thief takes them in one of its own.
fn feed_and_take<L: Fn() -> Look + Send>(
    tasks: u64,
    feed: impl Fn(Task),
    looks: Vec<L>,
) -> Vec<Vec<u64>> {
    let shut = &AtomicBool::new(false);
    thread::scope(|scope| {
        let thieves: Vec<_> = looks
            .into_iter()
            .map(|look| scope.spawn(move || take_all(shut, look)))
            .collect();
        for number in 0..tasks {
            feed(Task { number });
        }
        shut.store(true, Ordering::SeqCst);
        thieves
            .into_iter()
            .map(|thief| thief.join().unwrap())
            .collect()
    })
}

#[cfg(feature = "stealing")]
fn stealing(thieves: usize, tasks: u64) -> Done {
    use crossbeam_deque::{Injector, Steal, Worker};

    let start = Instant::now();
    let deque = Worker::new_fifo();
    let queue = Injector::new();
    let looks = (0..thieves)
        .map(|_| {
            let (stealer, queue) = (deque.stealer(), &queue);
            move || {
                let found = match stealer.steal() {
                    Steal::Empty => queue.steal(),
                    found => found,
                };
                match found {
                    Steal::Success(task) => Look::Task(task),
                    Steal::Empty => Look::Empty,
                    Steal::Retry => Look::Retry,
                }
            }
        })
        .collect();
    let make_time = start.elapsed().as_nanos();
    let start = Instant::now();
    let taken = feed_and_take(tasks, |task| deque.push(task), looks);
    let take_time = start.elapsed().as_nanos();
    let start = Instant::now();
    let left = deque.len() + queue.len();
    drop((deque, queue));
    let settle_time = start.elapsed().as_nanos();
    Done {
        taken,
        left,
        times: [make_time, take_time, settle_time],
    }
}

fn locked(thieves: usize, tasks: u64) -> Done {
    let start = Instant::now();
    let queue = Mutex::new(VecDeque::new());
    let looks = (0..thieves)
        .map(|_| {
            || match queue.lock().unwrap().pop_front() {
                Some(task) => Look::Task(task),
                None => Look::Empty,
            }
        })
        .collect();
    let make_time = start.elapsed().as_nanos();
    let start = Instant::now();
    let taken = feed_and_take(tasks, |task| queue.lock().unwrap().push_back(task), looks);
    let take_time = start.elapsed().as_nanos();
    let start = Instant::now();
    let left = queue.lock().unwrap().len();
    drop(queue);
    let settle_time = start.elapsed().as_nanos();
    Done {
        taken,
        left,
        times: [make_time, take_time, settle_time],
    }
}

fn main() {
    let words: Vec<String> = std::env::args().skip(1).collect();
    let [kind, thieves, tasks] = words.as_slice() else {
        panic!("words: stealing|locked THIEVES TASKS");
    };
    let (thieves, tasks) = (thieves.parse().unwrap(), tasks.parse().unwrap());
    let Done {
        taken,
        left,
        times: [make, take, settle],
    } = match kind.as_str() {
        #[cfg(feature = "stealing")]
        "stealing" => stealing(thieves, tasks),
        "locked" => locked(thieves, tasks),
        _ => panic!("words: stealing|locked THIEVES TASKS"),
    };
    let count: usize = taken.iter().map(Vec::len).sum();
    let sum: u64 = taken.iter().flatten().sum();
    println!("taken {count} sum {sum} left {left}");
    eprintln!("make {make} take {take} settle {settle}");
}
