//! The mode `writes` of plain_heap: what a write or a read of a field of a box costs on bare words.
//!
//! The words, the cells and the atomic operations are those of the mode of heap_timing, in its
//! order. `update` and `store` use the words bare: a thread has the numbers of its cells, and no
//! held list beside them. `held` is `store` with such a list: the cell that is loaded goes on it,
//! and off it behind the write. `load` reads the field, and does no more; `heldload` is a read with
//! such a list, and with the load of the own status that comes with what goes off it.
use super::*;
use std::sync::atomic::AtomicBool;
use std::time::Duration;

/// How many cells lie from one box to the next.
const APART: usize = 16;

/// Where the writers and the collector wait for each other.
struct Meeting {
    ready: AtomicU64,
    open: AtomicBool,
    done: AtomicU64,
}

fn named(cell: usize) -> u64 {
    4 * cell as u64 + 2
}

/// What a thread writes: field 0 of a box.
struct Writer<'a> {
    heap: &'a Heap,
    number: usize,
    status: u64,
    target: usize,
}

impl Writer<'_> {
    #[inline(always)]
    fn look(&self) -> u64 {
        self.heap.control().load(SeqCst)
    }
    #[inline(always)]
    fn mark(&self, value: u64) {
        if value & 3 == 2 {
            let colour = self.heap.colour((value >> 2) as usize);
            let _ = colour.compare_exchange(WHITE, GRAY, SeqCst, SeqCst);
        }
    }
    #[inline(always)]
    fn barrier(&self, control: u64, old: u64, new: u64) {
        if self.status != 0 {
            self.mark(old);
            self.mark(new);
        } else if stage(control) == TRACE {
            self.mark(old);
        }
    }
    /// Nothing is held, and so nothing is marked before the third answer.
    fn answer(&mut self) {
        let control = self.look();
        let next = next_status(self.status);
        if requested(control) == next {
            self.heap.status(self.number).store(next + INSIDE, SeqCst);
            self.status = next;
        }
    }
    #[inline(always)]
    fn update(&self, old: u64, new: u64) -> bool {
        self.barrier(self.look(), old, new);
        self.heap.field(self.target, 0).compare_exchange(old, new, SeqCst, SeqCst).is_ok()
    }
    #[inline(always)]
    fn load(&self) -> bool {
        self.heap.field(self.target, 0).load(SeqCst) & 3 == 2
    }
    #[inline(always)]
    fn store(&self, new: u64) -> bool {
        let control = self.look();
        let field = self.heap.field(self.target, 0);
        let found = field.load(SeqCst);
        self.barrier(control, found, new);
        let mut made = true;
        if self.status == 2 && stage(control) == SYNC2 {
            made = field.compare_exchange(found, new, SeqCst, SeqCst).is_ok();
        } else {
            field.store(new, SeqCst);
        }
        self.heap.status(self.number).load(SeqCst);
        made
    }
}

impl Mutator<'_> {
    fn store(&mut self, place: usize, new: usize) -> bool {
        let control = self.look();
        let many = self.held.len();
        let field = self.heap.field(self.held[place] as usize, 0);
        let found = field.load(SeqCst);
        if found & 3 == 2 {
            self.held.push((found >> 2) as u32);
            if self.status != 0 || stage(control) == TRACE {
                self.mark(self.held[many]);
            }
        }
        if self.status != 0 {
            self.mark(self.held[new]);
        }
        let value = named(self.held[new] as usize);
        let mut made = true;
        if self.status == 2 && stage(control) == SYNC2 {
            made = field.compare_exchange(found, value, SeqCst, SeqCst).is_ok();
        } else {
            field.store(value, SeqCst);
        }
        self.keep(many, 0, 0);
        made
    }
}

fn updates(w: &mut Writer, one: u64, other: u64, turns: u64) -> u64 {
    let mut made = 0;
    for _ in 0..turns {
        w.answer();
        for _ in 0..32 {
            made += w.update(one, other) as u64;
            made += w.update(other, one) as u64;
        }
    }
    made
}

fn stores(w: &mut Writer, one: u64, other: u64, turns: u64) -> u64 {
    let mut made = 0;
    for _ in 0..turns {
        w.answer();
        for _ in 0..32 {
            made += w.store(other) as u64;
            made += w.store(one) as u64;
        }
    }
    made
}

fn held_stores(m: &mut Mutator, turns: u64) -> u64 {
    let mut made = 0;
    for _ in 0..turns {
        m.answer();
        for _ in 0..32 {
            made += m.store(1, 3) as u64;
            made += m.store(1, 2) as u64;
        }
    }
    made
}

fn loads(w: &mut Writer, turns: u64) -> u64 {
    let mut found = 0;
    for _ in 0..turns {
        w.answer();
        for _ in 0..64 {
            found += w.load() as u64;
        }
    }
    found
}

fn held_loads(m: &mut Mutator, turns: u64) -> u64 {
    let mut found = 0;
    for _ in 0..turns {
        m.answer();
        for _ in 0..64 {
            found += m.read(1, 0) as u64;
            m.keep(4, 0, 0);
        }
    }
    found
}

/// Makes a box of a cell.
fn make_at(heap: &Heap, status: u64, cell: usize) -> bool {
    let born = claim_colour(status, heap.control().load(SeqCst), cell as u64);
    let got = heap.colour(cell).compare_exchange(BLUE, born, SeqCst, SeqCst).is_ok();
    heap.field(cell, 5).store(9, SeqCst);
    got
}

fn write(
    heap: &Heap,
    queue: &Queue,
    meeting: &Meeting,
    number: usize,
    turns: u64,
    kind: &str,
) -> [u64; 6] {
    let held = Vec::with_capacity(8);
    let mut m = Mutator { heap, queue, number, held, mode: 0, status: 0, claims: 0, tries: 1 };
    m.begin();
    let first = APART * (1 + 3 * number);
    let cells = [first, first + APART, first + 2 * APART];
    for cell in cells {
        assert!(make_at(heap, m.status, cell));
        m.held.push(cell as u32);
    }
    let (one, other) = (named(cells[1]), named(cells[2]));
    heap.field(first, 0).store(one, SeqCst);
    meeting.ready.fetch_add(1, SeqCst);
    while !meeting.open.load(SeqCst) || meeting.ready.load(SeqCst) < heap.mutators as u64 {
        m.answer();
        std::thread::yield_now();
    }
    let mut w = Writer { heap, number, status: m.status, target: first };
    let (wall, cpu) = (Instant::now(), own());
    let made = match kind {
        "store" => stores(&mut w, one, other, turns),
        "held" => held_stores(&mut m, turns),
        "load" => loads(&mut w, turns),
        "heldload" => held_loads(&mut m, turns),
        _ => updates(&mut w, one, other, turns),
    };
    let figures = [wall.elapsed().as_nanos() as u64, own() - cpu, 0, 0, 0, made];
    m.end();
    meeting.done.fetch_add(1, SeqCst);
    figures
}

/// Goes to the stage Trace, lets the writers begin, and stays there until they are done.
fn trace(heap: &Heap, queue: &Queue, meeting: &Meeting) -> [u64; 6] {
    let mut c = Collector { heap, queue, control: 0, stack: vec![0; 1024], height: 0, freed: 0 };
    let (wall, cpu) = (Instant::now(), own());
    while meeting.ready.load(SeqCst) < heap.mutators as u64 {
        std::thread::yield_now();
    }
    c.post(SYNC1);
    c.await_all();
    c.post(CLEAR);
    for cell in 0..heap.cells {
        let _ = heap.colour(cell).compare_exchange(BLACK, WHITE, SeqCst, SeqCst);
    }
    c.post(SYNC2);
    c.await_all();
    let _ = heap.colour(0).compare_exchange(WHITE, GRAY, SeqCst, SeqCst);
    c.post(TRACE);
    c.await_all();
    c.trace();
    meeting.open.store(true, SeqCst);
    while meeting.done.load(SeqCst) < heap.mutators as u64 {
        std::thread::sleep(Duration::from_millis(1));
    }
    [wall.elapsed().as_nanos() as u64, own() - cpu, 0, 0, 0, 0]
}

pub fn run(threads: usize, writes: u64, kind: &str, tracing: bool) {
    let (wall, cpu) = (Instant::now(), all());
    let (heap, queue) = (Heap::open(APART * (1 + 3 * threads), threads), Queue::new(1));
    let meeting = Meeting {
        ready: AtomicU64::new(0),
        open: AtomicBool::new(!tracing),
        done: AtomicU64::new(0),
    };
    let (heap, queue, meeting) = (&heap, &queue, &meeting);
    let figures = std::thread::scope(|scope| {
        let mut running = Vec::new();
        let turns = writes / 64;
        for number in 0..threads {
            running.push(scope.spawn(move || write(heap, queue, meeting, number, turns, kind)));
        }
        if tracing {
            running.push(scope.spawn(move || trace(heap, queue, meeting)));
        }
        running.into_iter().map(|one| one.join().unwrap()).collect::<Vec<_>>()
    });
    for f in figures {
        println!("{} {} {} {} {} {}", f[0], f[1], f[2], f[3], f[4], f[5]);
    }
    println!("{} {}", wall.elapsed().as_nanos(), all() - cpu);
}
