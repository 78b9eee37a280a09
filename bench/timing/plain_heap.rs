//! The operations of the collected heap in plain Rust: the same words, the same atomic operations,
//! the same collector and the same queue of hints, with nothing proved and no index checked.
//!
//! plain_heap seats THREADS CELLS BATCHES
//! plain_heap work THREADS CELLS KEEP CLAIMS TIMED [HINTS]
//! plain_heap writes THREADS WRITES KIND TRACING
//!
//! The words and lines are those of heap_timing. In `seats` the words are used bare: no list of
//! held cells, and no state of the sweep, is kept beside them. HINTS is how many hints a claim
//! tries before it goes over all cells (1 is what mutator_seat does); with 0 it waits for hints, and
//! goes over all cells only where it would else be refused. `writes`: plain_writes.rs.
#![allow(clippy::missing_safety_doc)]
mod plain_writes;

use std::cell::UnsafeCell;
use std::mem::MaybeUninit;
use std::sync::atomic::{AtomicU64, AtomicUsize, Ordering::*};
use std::time::Instant;

const BLUE: u64 = 0;
const WHITE: u64 = 1;
const GRAY: u64 = 2;
const BLACK: u64 = 3;
const IDLE: u64 = 0;
const SYNC1: u64 = 1;
const CLEAR: u64 = 2;
const SYNC2: u64 = 3;
const TRACE: u64 = 4;
const SWEEP: u64 = 5;
const DUTY: u64 = 8;
const POSITION: u64 = 16;
const CYCLES: u64 = 1 << 28;
const INSIDE: u64 = 4;
const OVER: u64 = 8;

fn stage(control: u64) -> u64 {
    control & 7
}
fn position(control: u64) -> u64 {
    control / POSITION % (CYCLES / POSITION)
}
fn cycles(control: u64) -> u64 {
    control / CYCLES
}
fn requested(control: u64) -> u64 {
    match stage(control) {
        SYNC1 | CLEAR => 1,
        SYNC2 => 2,
        _ => 0,
    }
}
fn next_status(status: u64) -> u64 {
    if status == 2 { 0 } else { status + 1 }
}
fn claim_colour(status: u64, control: u64, cell: u64) -> u64 {
    match (status, stage(control)) {
        (0, TRACE) => BLACK,
        (0, SWEEP) if cell >= position(control) => BLACK,
        _ => WHITE,
    }
}

#[repr(C)]
struct Timespec {
    sec: i64,
    nsec: i64,
}
unsafe extern "C" {
    fn clock_gettime(clock: i32, time: *mut Timespec) -> i32;
    fn sched_yield() -> i32;
}
fn cpu(clock: i32) -> u64 {
    let mut t = Timespec { sec: 0, nsec: 0 };
    unsafe { clock_gettime(clock, &mut t) };
    t.sec as u64 * 1_000_000_000 + t.nsec as u64
}
fn own() -> u64 {
    cpu(3)
}
fn all() -> u64 {
    cpu(2)
}

/// The words: the control, one a mutator, and seven a cell.
struct Heap {
    words: Box<[AtomicU64]>,
    mutators: usize,
    cells: usize,
}

impl Heap {
    fn open(cells: usize, mutators: usize) -> Heap {
        let words: Box<[AtomicU64]> =
            (0..1 + mutators + 7 * cells).map(|_| AtomicU64::new(0)).collect();
        let heap = Heap { words, mutators, cells };
        heap.colour(0).store(WHITE, SeqCst);
        heap.field(0, 5).store(9, SeqCst);
        heap
    }
    #[inline(always)]
    fn control(&self) -> &AtomicU64 {
        unsafe { self.words.get_unchecked(0) }
    }
    #[inline(always)]
    fn status(&self, mutator: usize) -> &AtomicU64 {
        unsafe { self.words.get_unchecked(1 + mutator) }
    }
    #[inline(always)]
    fn colour(&self, cell: usize) -> &AtomicU64 {
        unsafe { self.words.get_unchecked(1 + self.mutators + 7 * cell) }
    }
    #[inline(always)]
    fn field(&self, cell: usize, field: usize) -> &AtomicU64 {
        unsafe { self.words.get_unchecked(1 + self.mutators + 7 * cell + 1 + field) }
    }
}

// Bare words.

fn fill_all(heap: &Heap) -> u64 {
    let mut made = 0;
    for cell in 1..heap.cells {
        let control = heap.control().load(SeqCst);
        let born = claim_colour(0, control, cell as u64);
        if heap.colour(cell).compare_exchange(BLUE, born, SeqCst, SeqCst).is_ok() {
            heap.field(cell, 0).store(4 * 7 + 1, SeqCst);
            heap.field(cell, 1).store(4 * 8 + 1, SeqCst);
            heap.field(cell, 2).store(4 * 9 + 1, SeqCst);
            heap.field(cell, 3).store(0, SeqCst);
            heap.field(cell, 4).store(0, SeqCst);
            heap.field(cell, 5).store(5, SeqCst);
            made += 1;
        }
    }
    made
}

fn sweep_all(heap: &Heap) -> u64 {
    let mut freed = 0;
    let mut control = SWEEP;
    for cell in 0..heap.cells {
        match heap.colour(cell).load(SeqCst) {
            WHITE => {
                for field in 0..6 {
                    heap.field(cell, field).store(0, SeqCst);
                }
                heap.colour(cell).store(BLUE, SeqCst);
                freed += 1;
            }
            BLACK => heap.colour(cell).store(WHITE, SeqCst),
            _ => (),
        }
        control += POSITION;
        heap.control().store(control, SeqCst);
    }
    freed
}

/// What a cycle does between the two, so that the caches are alike.
fn until_sweep(heap: &Heap) {
    for cell in 0..heap.cells {
        let _ = heap.colour(cell).compare_exchange(BLACK, WHITE, SeqCst, SeqCst);
    }
    heap.colour(0).store(BLACK, SeqCst);
    for _pass in 0..2 {
        for cell in 0..heap.cells {
            std::hint::black_box(heap.colour(cell).load(SeqCst));
        }
    }
    heap.control().store(SWEEP, SeqCst);
}

fn seats(cells: usize, batches: usize) -> Vec<[u64; 2]> {
    let heap = Heap::open(cells, 1);
    let (mut times, mut made, mut freed) = (Vec::new(), 0, 0);
    for _batch in 0..batches {
        let one = Instant::now();
        made += fill_all(&heap);
        let fill = one.elapsed().as_nanos() as u64;
        until_sweep(&heap);
        let two = Instant::now();
        freed += sweep_all(&heap);
        let sweep = two.elapsed().as_nanos() as u64;
        heap.control().store(IDLE, SeqCst);
        times.push([fill, sweep]);
    }
    times.push([made, freed]);
    times
}

// The queue of hints: a ring with a stamp a slot.

struct Slot {
    stamp: AtomicUsize,
    value: UnsafeCell<MaybeUninit<u32>>,
}
#[repr(align(128))]
struct Padded(AtomicUsize);
struct Queue {
    head: Padded,
    tail: Padded,
    slots: Box<[Slot]>,
    lap: usize,
}
unsafe impl Sync for Queue {}

impl Queue {
    fn new(room: usize) -> Queue {
        let slots = (0..room)
            .map(|k| Slot { stamp: AtomicUsize::new(k), value: UnsafeCell::new(MaybeUninit::uninit()) })
            .collect();
        let zero = || Padded(AtomicUsize::new(0));
        Queue { head: zero(), tail: zero(), slots, lap: (room + 1).next_power_of_two() }
    }
    fn push(&self, cell: u32) -> bool {
        let mut tail = self.tail.0.load(SeqCst);
        loop {
            let index = tail & (self.lap - 1);
            let new = if index + 1 < self.slots.len() { tail + 1 } else { (tail & !(self.lap - 1)) + self.lap };
            let slot = unsafe { self.slots.get_unchecked(index) };
            let stamp = slot.stamp.load(SeqCst);
            if stamp == tail {
                match self.tail.0.compare_exchange(tail, new, SeqCst, SeqCst) {
                    Ok(_) => {
                        unsafe { (*slot.value.get()).write(cell) };
                        slot.stamp.store(tail + 1, SeqCst);
                        return true;
                    }
                    Err(found) => tail = found,
                }
            } else if stamp + self.lap == tail + 1 {
                if self.head.0.load(SeqCst) + self.lap == tail {
                    return false;
                }
                tail = self.tail.0.load(SeqCst);
            } else {
                tail = self.tail.0.load(SeqCst);
            }
        }
    }
    fn pop(&self) -> Option<u32> {
        let mut head = self.head.0.load(SeqCst);
        loop {
            let index = head & (self.lap - 1);
            let slot = unsafe { self.slots.get_unchecked(index) };
            let stamp = slot.stamp.load(SeqCst);
            if stamp == head + 1 {
                let new = if index + 1 < self.slots.len() { head + 1 } else { (head & !(self.lap - 1)) + self.lap };
                match self.head.0.compare_exchange(head, new, SeqCst, SeqCst) {
                    Ok(_) => {
                        let cell = unsafe { (*slot.value.get()).assume_init_read() };
                        slot.stamp.store(head + self.lap, SeqCst);
                        return Some(cell);
                    }
                    Err(found) => head = found,
                }
            } else if stamp == head {
                if self.tail.0.load(SeqCst) == head {
                    return None;
                }
                head = self.head.0.load(SeqCst);
            } else {
                head = self.head.0.load(SeqCst);
            }
        }
    }
}

// A thread's operations.

struct Mutator<'a> {
    heap: &'a Heap,
    queue: &'a Queue,
    number: usize,
    held: Vec<u32>,
    mode: u64,
    status: u64,
    claims: u64,
    tries: u32,
}

impl Mutator<'_> {
    fn begin(&mut self) {
        self.status = self.heap.status(self.number).fetch_or(INSIDE, SeqCst) & 3;
        self.held.clear();
        self.held.push(0);
    }
    fn end(&mut self) {
        self.heap.status(self.number).fetch_and(11, SeqCst);
        self.heap.status(self.number).fetch_or(OVER, SeqCst);
    }
    fn look(&mut self) -> u64 {
        self.mode = self.heap.control().load(SeqCst);
        self.mode
    }
    fn mark(&self, cell: u32) {
        let _ = self.heap.colour(cell as usize).compare_exchange(WHITE, GRAY, SeqCst, SeqCst);
    }
    fn answer(&mut self) {
        let control = self.look();
        let next = next_status(self.status);
        if requested(control) == next {
            if self.status == 2 {
                for &cell in &self.held {
                    self.mark(cell);
                }
            }
            self.heap.status(self.number).store(next + INSIDE, SeqCst);
            self.status = next;
        }
    }
    fn try_cell(&mut self, cell: u32) -> bool {
        let born = claim_colour(self.status, self.mode, cell as u64);
        let got = self.heap.colour(cell as usize).compare_exchange(BLUE, born, SeqCst, SeqCst).is_ok();
        if got {
            self.held.push(cell);
            self.claims += 1;
        }
        got
    }
    fn try_hint(&mut self) -> bool {
        for _ in 0..self.tries.max(1) {
            match self.queue.pop() {
                Some(cell) => {
                    if self.try_cell(cell) {
                        return true;
                    }
                }
                None => return false,
            }
        }
        false
    }
    fn claim(&mut self) -> bool {
        let first = self.look();
        let began = cycles(first) + (stage(first) != IDLE) as u64;
        if self.try_hint() {
            return true;
        }
        let mut tried = self.tries == 0;
        loop {
            self.answer();
            let control = self.look();
            let last = control & DUTY == 0 || began + 2 <= cycles(control);
            if last || !tried {
                for cell in 0..self.heap.cells as u32 {
                    if self.try_cell(cell) {
                        return true;
                    }
                    if cell % 64 == 63 {
                        self.answer();
                        self.look();
                    }
                }
                if last {
                    return false;
                }
                tried = true;
            } else {
                for _ in 0..100 {
                    std::hint::spin_loop();
                }
                unsafe { sched_yield() };
                if self.try_hint() {
                    return true;
                }
            }
        }
    }
    fn fill(&self, place: usize, field: usize, value: u64) {
        let cell = unsafe { *self.held.get_unchecked(place) } as usize;
        self.heap.field(cell, field).store(value, SeqCst);
    }
    fn read(&mut self, place: usize, field: usize) -> bool {
        let cell = unsafe { *self.held.get_unchecked(place) } as usize;
        let found = self.heap.field(cell, field).load(SeqCst);
        if found & 3 == 2 {
            self.held.push((found >> 2) as u32);
            return true;
        }
        false
    }
    fn update(&mut self, place: usize, field: usize, new: usize) -> bool {
        let control = self.look();
        if self.status != 0 {
            self.mark(self.held[new]);
        }
        let _ = stage(control) == TRACE; // the old value is null here
        let cell = self.held[place] as usize;
        let value = 4 * self.held[new] as u64 + 2;
        self.heap.field(cell, field).compare_exchange(0, value, SeqCst, SeqCst).is_ok()
    }
    fn keep(&mut self, first: usize, place: usize, count: usize) {
        self.heap.status(self.number).load(SeqCst);
        if self.held.len() < first + count {
            self.held.resize(first + count, 0);
        }
        self.held.copy_within(place..place + count, first);
        self.held.truncate(first + count);
    }
    fn make(&mut self, number: u64) -> usize {
        if !self.claim() {
            return 0;
        }
        let place = self.held.len() - 1;
        self.fill(place, 0, 0);
        self.fill(place, 1, 4 * number + 1);
        self.fill(place, 2, 0);
        self.fill(place, 3, 0);
        self.fill(place, 4, 0);
        self.fill(place, 5, 9);
        place
    }
    fn work(&mut self, keep: u64, claims: u64, timed: bool) -> [u64; 6] {
        self.begin();
        let (wall, cpu) = (Instant::now(), own());
        let (mut long_claim, mut long_other, mut long_point) = (0, 0, 0);
        if self.make(1) == 1 {
            self.keep(2, 1, 1);
            let mut before = if timed { own() } else { 0 };
            let mut lap = |longest: &mut u64| {
                if timed {
                    let now = own();
                    *longest = (*longest).max(now - before);
                    before = now;
                }
            };
            for number in 1..claims {
                self.answer();
                lap(&mut long_point);
                let full = number >= keep;
                if full && !self.read(1, 0) {
                    break;
                }
                if !self.claim() {
                    break;
                }
                lap(&mut long_claim);
                let place = self.held.len() - 1;
                self.fill(place, 0, 0);
                self.fill(place, 1, 4 * (4 * number + 1) + 1);
                self.fill(place, 2, 0);
                self.fill(place, 3, 0);
                self.fill(place, 4, 0);
                self.fill(place, 5, 9);
                self.update(2, 0, place);
                if full {
                    self.keep(1, 3, 2);
                } else {
                    self.keep(2, 3, 1);
                }
                lap(&mut long_other);
            }
        }
        let figures =
            [wall.elapsed().as_nanos() as u64, own() - cpu, long_claim, long_other, long_point, self.claims];
        self.end();
        figures
    }
}

// The collector.

struct Collector<'a> {
    heap: &'a Heap,
    queue: &'a Queue,
    control: u64,
    stack: Vec<u32>,
    height: usize,
    freed: u64,
}

impl Collector<'_> {
    fn post(&mut self, stage: u64) {
        let mut control = (self.control & !7) + stage;
        if stage == IDLE || stage == SWEEP {
            control -= POSITION * position(control);
        }
        if stage == IDLE {
            control += CYCLES;
        }
        self.control = control;
        self.heap.control().store(control, SeqCst);
    }
    fn await_all(&self) -> bool {
        let (wanted, mut over) = (requested(self.control), true);
        for mutator in 0..self.heap.mutators {
            let word = self.heap.status(mutator);
            loop {
                let found = word.load(SeqCst);
                let was_over = found & OVER != 0;
                let before = if wanted == 0 { 2 } else { wanted - 1 };
                if found & 3 == wanted
                    || found & INSIDE == 0
                        && word
                            .compare_exchange(before + (found & OVER), wanted + (found & OVER), SeqCst, SeqCst)
                            .is_ok()
                {
                    over &= was_over;
                    break;
                }
                unsafe { sched_yield() };
            }
        }
        over
    }
    fn leave(&mut self, cell: u32) {
        while self.height > 0 && self.stack[self.height - 1] == cell {
            self.height -= 1;
        }
    }
    fn trace(&mut self) {
        let cells = self.heap.cells;
        let (mut cursor, mut clean) = (0, true);
        loop {
            if cursor == cells {
                if clean {
                    return;
                }
                cursor = 0;
                clean = true;
            }
            self.leave(cursor as u32);
            let cell = if self.height > 0 {
                let cell = self.stack[self.height - 1];
                self.leave(cell);
                cell as usize
            } else {
                cursor
            };
            if self.heap.colour(cell).load(SeqCst) == GRAY {
                clean = false;
                for field in 0..5 {
                    let found = self.heap.field(cell, field).load(SeqCst);
                    if found & 3 == 2 {
                        let child = (found >> 2) as usize;
                        let _ = self.heap.colour(child).compare_exchange(WHITE, GRAY, SeqCst, SeqCst);
                        if self.height < self.stack.len() {
                            self.stack[self.height] = child as u32;
                            self.height += 1;
                        }
                    }
                }
                self.heap.colour(cell).store(BLACK, SeqCst);
            } else if cell == cursor {
                cursor += 1;
            }
        }
    }
    fn sweep(&mut self) {
        for cell in 0..self.heap.cells {
            match self.heap.colour(cell).load(SeqCst) {
                WHITE => {
                    for field in 0..6 {
                        self.heap.field(cell, field).store(0, SeqCst);
                    }
                    self.heap.colour(cell).store(BLUE, SeqCst);
                    self.queue.push(cell as u32);
                    self.freed += 1;
                }
                BLACK => self.heap.colour(cell).store(WHITE, SeqCst),
                _ => (),
            }
            self.control += POSITION;
            self.heap.control().store(self.control, SeqCst);
        }
    }
    fn cycle(&mut self) -> bool {
        self.height = 0;
        self.post(SYNC1);
        let over = self.await_all();
        self.post(CLEAR);
        for cell in 0..self.heap.cells {
            let _ = self.heap.colour(cell).compare_exchange(BLACK, WHITE, SeqCst, SeqCst);
        }
        self.post(SYNC2);
        self.await_all();
        let _ = self.heap.colour(0).compare_exchange(WHITE, GRAY, SeqCst, SeqCst);
        self.post(TRACE);
        self.await_all();
        self.trace();
        self.post(SWEEP);
        self.sweep();
        self.post(IDLE);
        over
    }
    fn serve(&mut self) -> [u64; 6] {
        let (wall, cpu) = (Instant::now(), own());
        let (mut rest, mut made) = (2, 0);
        while rest > 0 {
            let over = self.cycle();
            made += 1;
            if over {
                rest -= 1;
            }
        }
        self.control &= !DUTY;
        self.heap.control().store(self.control, SeqCst);
        [wall.elapsed().as_nanos() as u64, own() - cpu, made, 0, 0, self.freed]
    }
}

fn work(threads: usize, cells: usize, keep: u64, claims: u64, timed: bool, tries: u32) {
    let (wall, cpu) = (Instant::now(), all());
    let cells = threads * cells;
    let queue = Queue::new(cells);
    for cell in 1..cells {
        queue.push(cell as u32);
    }
    let heap = Heap::open(cells, threads);
    heap.control().store(DUTY, SeqCst);
    let (heap, queue) = (&heap, &queue);
    let figures = std::thread::scope(|scope| {
        let mut running = Vec::new();
        for number in 0..threads {
            running.push(scope.spawn(move || {
                let held = Vec::with_capacity(8);
                Mutator { heap, queue, number, held, mode: 0, status: 0, claims: 0, tries }.work(keep, claims, timed)
            }));
        }
        running.push(scope.spawn(move || {
            Collector { heap, queue, control: DUTY, stack: vec![0; 1024], height: 0, freed: 0 }.serve()
        }));
        running.into_iter().map(|one| one.join().unwrap()).collect::<Vec<_>>()
    });
    let (wall, cpu) = (wall.elapsed().as_nanos(), all() - cpu);
    for f in figures {
        println!("{} {} {} {} {} {}", f[0], f[1], f[2], f[3], f[4], f[5]);
    }
    println!("{wall} {cpu}");
}

fn main() {
    let args: Vec<String> = std::env::args().collect();
    let n = |k: usize| args[k].parse::<u64>().unwrap();
    if args[1] == "seats" {
        let times = std::thread::scope(|scope| {
            let all: Vec<_> =
                (0..n(2)).map(|_| scope.spawn(|| seats(n(3) as usize, n(4) as usize))).collect();
            all.into_iter().map(|one| one.join().unwrap()).collect::<Vec<_>>()
        });
        for one in times.into_iter().flatten() {
            println!("{} {}", one[0], one[1]);
        }
    } else if args[1] == "writes" {
        plain_writes::run(n(2) as usize, n(3), &args[4], n(5) == 1);
    } else {
        work(n(2) as usize, n(3) as usize, n(4), n(5), n(6) == 1, if args.len() > 7 { n(7) as u32 } else { 1 });
    }
}
