// Times the planner of this repository with its heap against a planner with std::collections::BinaryHeap: the same places
// and losses, from corner to corner of a grid of 64 by 64. All totals have to be 13,100 cents. A plan from a corner to
// itself, for nothing, shows what the clearing of the tables takes.
use std::cmp::Reverse;
use std::collections::BinaryHeap;
use std::time::{Duration, Instant};

unsafe extern "C" {
    fn plan_on_square(side: usize, way_cents: u64, loss: u16, repeater_cents: u64, bound: usize, end: usize, plans: u32) -> u64;
}

const SIDE: usize = 64;
const PLACES: usize = SIDE * SIDE;
const BOUND: usize = 100;
const CELLS: usize = PLACES * (BOUND + 1);
const WAY_CENTS: u64 = 100;
const LOSS: usize = 1;
const REPEATER_CENTS: u64 = 500;
const TOTAL: u64 = 13_100;
const TURNS: usize = 20;

struct Way {
    to: usize,
    cents: u64,
    loss: usize,
}

// The open ways that leave a place of the grid: right, left, down, up.
fn ways(place: usize) -> impl Iterator<Item = (usize, Way)> {
    let (row, column) = (place / SIDE, place % SIDE);
    let beside = [
        (column + 1 < SIDE).then(|| place + 1),
        (column > 0).then(|| place - 1),
        (row + 1 < SIDE).then(|| place + SIDE),
        (row > 0).then(|| place - SIDE),
    ];
    beside.into_iter().enumerate().filter_map(move |(d, to)| to.map(|to| (4 * place + d, Way { to, cents: WAY_CENTS, loss: LOSS })))
}

// What is known of a cell: the lowest sum, and the cell, the way and the mark by which it was reached.
#[derive(Clone, Copy)]
struct Known {
    cents: u64,
    from: usize,
    way: usize,
    mark: bool,
    settled: bool,
}

const UNSEEN: Known = Known { cents: u64::MAX, from: usize::MAX, way: 0, mark: false, settled: false };

struct Planner {
    known: Vec<Known>,
    least_loss: Vec<usize>,
    heap: BinaryHeap<Reverse<(u64, usize)>>,
    run: Vec<(usize, bool)>,
}

impl Planner {
    fn new() -> Planner {
        Planner { known: vec![UNSEEN; CELLS], least_loss: vec![usize::MAX; PLACES], heap: BinaryHeap::with_capacity(CELLS), run: Vec::with_capacity(CELLS) }
    }

    fn offer(&mut self, cell: usize, known: Known) {
        if known.cents < self.known[cell].cents {
            self.known[cell] = known;
            self.heap.push(Reverse((known.cents, cell)));
        }
    }

    // Leaves out cells of a place that was settled before with no more loss, where `prune` says so.
    fn plan(&mut self, start: usize, end: usize, prune: bool) -> Option<u64> {
        self.known.fill(UNSEEN);
        self.least_loss.fill(usize::MAX);
        self.heap.clear();
        self.run.clear();
        self.offer(start * (BOUND + 1), Known { cents: 0, ..UNSEEN });
        while let Some(Reverse((cents, cell))) = self.heap.pop() {
            if self.known[cell].settled {
                continue;
            }
            self.known[cell].settled = true;
            let (place, loss) = (cell / (BOUND + 1), cell % (BOUND + 1));
            if place == end {
                self.trace(cell);
                return Some(cents);
            }
            if prune {
                if self.least_loss[place] <= loss {
                    continue;
                }
                self.least_loss[place] = loss;
            }
            for (number, way) in ways(place) {
                if loss + way.loss > BOUND {
                    continue;
                }
                let sum = cents + way.cents;
                let plain = Known { cents: sum, from: cell, way: number, mark: false, settled: false };
                self.offer(way.to * (BOUND + 1) + loss + way.loss, plain);
                if way.to != start && way.to != end {
                    self.offer(way.to * (BOUND + 1), Known { cents: sum + REPEATER_CENTS, mark: true, ..plain });
                }
            }
        }
        None
    }

    fn trace(&mut self, mut cell: usize) {
        while self.known[cell].from != usize::MAX {
            self.run.push((self.known[cell].way, self.known[cell].mark));
            cell = self.known[cell].from;
        }
        self.run.reverse();
    }
}

// Who plans: this repository, or the planner above, over all cells or with dominated cells left out.
#[derive(Clone, Copy)]
enum Who {
    Ours,
    Plain,
    Pruned,
}

const ALL: [Who; 3] = [Who::Ours, Who::Plain, Who::Pruned];

fn total(who: Who, end: usize, plans: u32) -> Option<u64> {
    let prune = match who {
        Who::Ours => return Some(unsafe { plan_on_square(SIDE, WAY_CENTS, LOSS as u16, REPEATER_CENTS, BOUND, end, plans) }),
        Who::Plain => false,
        Who::Pruned => true,
    };
    let mut planner = Planner::new();
    let mut total = None;
    for _ in 0..plans {
        total = planner.plan(0, end, prune);
    }
    total
}

fn timed(who: Who, end: usize, plans: u32) -> Duration {
    let start = Instant::now();
    let total = total(who, end, plans);
    let time = start.elapsed();
    assert_eq!(total, Some(if end == 0 { 0 } else { TOTAL }));
    time
}

fn median(mut times: Vec<Duration>) -> f64 {
    times.sort();
    (times[(times.len() - 1) / 2] + times[times.len() / 2]).as_secs_f64() * 500.0
}

// One plan on tables that a plan before has used: what the second of two plans adds to the time of one.
fn added(who: Who, end: usize) -> Duration {
    let one = timed(who, end, 1);
    timed(who, end, 2).saturating_sub(one)
}

fn report(what: &str, time: impl Fn(Who) -> Duration) {
    let mut times = [vec![], vec![], vec![]];
    for _ in 0..TURNS {
        for (who, times) in ALL.into_iter().zip(&mut times) {
            times.push(time(who));
        }
    }
    let [ours, plain, pruned] = times.map(median);
    println!("{what}: ours {ours:.1} ms; BinaryHeap {plain:.1} ms, ratio {:.2}; BinaryHeap with pruning {pruned:.1} ms, ratio {:.2}", ours / plain, ours / pruned);
}

fn main() {
    report("corner to corner, tables cleared within the time", |who| added(who, PLACES - 1));
    report("corner to corner, memory taken within the time too", |who| timed(who, PLACES - 1, 1));
    report("from a corner to itself, which is the clearing alone", |who| added(who, 0));
}
