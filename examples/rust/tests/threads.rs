//! Threads share a stack, and one of them blocks while cycles are made.

use heap::{Collector, Frame, Heap, Result, Setting, Value};
use std::sync::mpsc;
use std::thread;

const CELLS: u32 = 100_000;
const THREADS: u64 = 4;
const NUMBERS: u64 = 20_000;
const TOP: usize = 0;
const NUMBER: usize = 0;
const BELOW: usize = 1;

fn push(frame: &mut Frame<'_>, number: u64) -> Result<()> {
    while !frame.scope(|frame, _| {
        let anchor = frame.anchor();
        let top = frame.read(anchor, TOP)?;
        let new = frame.make(&[Value::Number(number), top])?;
        frame.swap(anchor, TOP, top, Value::Cell(new))
    })?? {}
    Ok(())
}

/// A number, or none if the stack is empty.
fn pop(frame: &mut Frame<'_>) -> Result<Option<u64>> {
    loop {
        let popped = frame.scope(|frame, _| {
            frame.answer()?;
            let anchor = frame.anchor();
            let top = frame.read(anchor, TOP)?;
            let Value::Cell(cell) = top else {
                return Ok(Some(None));
            };
            let number = frame.read(cell, NUMBER)?;
            let below = frame.read(cell, BELOW)?;
            let Value::Number(number) = number else {
                panic!("an entry has a number")
            };
            Ok(frame.swap(anchor, TOP, top, below)?.then_some(Some(number)))
        })??;
        if let Some(number) = popped {
            return Ok(number);
        }
    }
}

/// The sum of what it popped.
fn work(frame: &mut Frame<'_>, me: u64) -> Result<u64> {
    let mut sum = 0;
    for i in 0..NUMBERS {
        push(frame, me * NUMBERS + i)?;
        if i % 2 == 1 {
            sum += pop(frame)?.unwrap_or(0);
        }
    }
    Ok(sum)
}

#[test]
fn what_threads_push_on_a_stack_is_popped_once_and_a_blocked_one_keeps_what_it_holds() {
    let setting = Setting {
        cells: CELLS,
        mutators: THREADS as u32 + 1,
        stack: 1000,
    };
    let mut heap = Heap::open(setting).unwrap();
    let mutators: Vec<_> = (0..THREADS).map(|_| heap.mutator(64).unwrap()).collect();
    let mut blocked = heap.mutator(64).unwrap();
    let collector = Collector::new(heap).unwrap().run();
    let (wake, woken) = mpsc::channel();

    let sleeper = thread::spawn(move || {
        let number = blocked.enter(|frame| {
            let held = frame.make(&[Value::Number(77)]).unwrap();
            frame.parked(|| woken.recv().unwrap());
            frame
                .read(held, NUMBER)
                .map(|value| matches!(value, Value::Number(77)))
        });
        assert_eq!(number, Ok(Ok(true)));
    });
    let threads: Vec<_> = (0..)
        .zip(mutators)
        .map(|(me, mut m)| {
            thread::spawn(move || {
                let sum = m.enter(|frame| work(frame, me)).unwrap().unwrap();
                (m, sum)
            })
        })
        .collect();
    let mut done: Vec<_> = threads.into_iter().map(|t| t.join().unwrap()).collect();

    let mut sum: u64 = done.iter().map(|(_, sum)| sum).sum();
    let left = done[0].0.enter(|frame| {
        while let Some(number) = pop(frame).unwrap() {
            sum += number;
        }
    });
    assert_eq!(left, Ok(()));
    let pushed = THREADS * NUMBERS;
    assert_eq!(sum, pushed * (pushed - 1) / 2);
    wake.send(()).unwrap();
    sleeper.join().unwrap();

    let mut collector = collector.stop();
    for _ in 0..2 {
        while collector.step(500) != Ok(heap::Step::Ended) {}
    }
    let stats = collector.look().unwrap();
    assert!(stats.cycles > 0 && stats.stage <= 5);
    assert!(stats.freed >= THREADS * NUMBERS); // the stack is empty
    assert!(stats.free_about <= u64::from(CELLS) && stats.free_about > 0);
}
