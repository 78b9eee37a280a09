//! Times a queue that several threads fill and one empties: crossbeam_queue's SegQueue with `--cfg
//! segments`, or a channel of std::sync::mpsc.
//!
//! mailbox SENDERS LINES RUNS
//!
//! Each sender makes LINES / SENDERS numbers on a thread of its own, and the main thread takes all.
//! A line for each run: nanoseconds by the clock, from before the first thread is made until all is
//! taken and all threads are joined, and of the process's processor time.
use std::time::Instant;

#[repr(C)]
struct Timespec {
    seconds: i64,
    nanos: i64,
}

unsafe extern "C" {
    fn clock_gettime(clock: i32, time: *mut Timespec) -> i32;
}

const PROCESS: i32 = 2;

fn processor_nanos() -> i64 {
    let mut time = Timespec { seconds: 0, nanos: 0 };
    let answer = unsafe { clock_gettime(PROCESS, &mut time) };
    assert_eq!(answer, 0);
    time.seconds * 1_000_000_000 + time.nanos
}

type Item = (u64, u32, u64);

/// Gives the items that were taken.
#[cfg(segments)]
fn run(senders: u32, each: u64) -> Vec<Item> {
    let queue = crossbeam_queue::SegQueue::new();
    let mut items = Vec::new();
    std::thread::scope(|scope| {
        for sender in 1..=senders {
            let queue = &queue;
            scope.spawn(move || {
                for value in 0..each {
                    queue.push((sender, value));
                }
            });
        }
        let mut position = 0;
        while position < u64::from(senders) * each {
            match queue.pop() {
                Some((sender, value)) => {
                    position += 1;
                    items.push((position, sender, value));
                }
                None => std::thread::yield_now(),
            }
        }
    });
    items
}

#[cfg(not(segments))]
fn run(senders: u32, each: u64) -> Vec<Item> {
    let mut items = Vec::new();
    std::thread::scope(|scope| {
        let (to, from) = std::sync::mpsc::channel();
        for sender in 1..=senders {
            let to = to.clone();
            scope.spawn(move || {
                for value in 0..each {
                    to.send((sender, value)).unwrap();
                }
            });
        }
        drop(to);
        for (sender, value) in from {
            items.push((items.len() as u64 + 1, sender, value));
        }
    });
    items
}

fn main() {
    let numbers: Vec<u64> = std::env::args().skip(1).map(|word| word.parse().unwrap()).collect();
    let (senders, each) = (numbers[0] as u32, numbers[1] / numbers[0]);
    for _ in 0..numbers[2] {
        let (wall, own) = (Instant::now(), processor_nanos());
        let items = run(senders, each);
        let (wall, own) = (wall.elapsed().as_nanos(), processor_nanos() - own);
        assert_eq!(items.len() as u64, u64::from(senders) * each);
        println!("{wall} {own}");
    }
}
