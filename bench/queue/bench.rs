// Times the heap of this repository against std::collections::BinaryHeap on the same charges, and compares what they take.
use std::cmp::Reverse;
use std::collections::BinaryHeap;
use std::time::{Duration, Instant};

unsafe extern "C" {
    fn heap_fill_and_drain(charges: *const u64, charges_len: usize, taken: *mut u64, taken_len: usize) -> bool;
    fn heap_churn(charges: *const u64, charges_len: usize, steps: *const u64, steps_len: usize, taken: *mut u64, taken_len: usize) -> bool;
}

fn random(seed: &mut u64) -> u64 {
    *seed ^= *seed << 13;
    *seed ^= *seed >> 7;
    *seed ^= *seed << 17;
    *seed
}

fn charges(many: usize, below: u64, mut seed: u64) -> Vec<u64> {
    (0..many).map(|_| random(&mut seed) % below).collect()
}

fn ours_fill(charges: &[u64], taken: &mut [u64]) -> Duration {
    let start = Instant::now();
    let done = unsafe { heap_fill_and_drain(charges.as_ptr(), charges.len(), taken.as_mut_ptr(), taken.len()) };
    let time = start.elapsed();
    assert!(done, "no memory");
    time
}

fn theirs_fill(charges: &[u64], taken: &mut [u64]) -> Duration {
    let start = Instant::now();
    let mut heap = BinaryHeap::with_capacity(charges.len());
    for (cell, cents) in charges.iter().enumerate() {
        heap.push(Reverse((*cents, cell)));
    }
    for t in taken.iter_mut() {
        if let Some(Reverse((cents, _))) = heap.pop() {
            *t = cents;
        }
    }
    start.elapsed()
}

fn ours_churn(charges: &[u64], steps: &[u64], taken: &mut [u64]) -> Duration {
    let start = Instant::now();
    let done = unsafe { heap_churn(charges.as_ptr(), charges.len(), steps.as_ptr(), steps.len(), taken.as_mut_ptr(), taken.len()) };
    let time = start.elapsed();
    assert!(done, "no memory");
    time
}

fn theirs_churn(charges: &[u64], steps: &[u64], taken: &mut [u64]) -> Duration {
    let start = Instant::now();
    let mut heap = BinaryHeap::with_capacity(charges.len());
    for (cell, cents) in charges.iter().enumerate() {
        heap.push(Reverse((*cents, cell)));
    }
    for (step, t) in steps.iter().zip(taken.iter_mut()) {
        if let Some(Reverse((cents, cell))) = heap.pop() {
            *t = cents;
            heap.push(Reverse((cents + step, cell)));
        }
    }
    start.elapsed()
}

fn report(name: &str, mut ours: Vec<Duration>, mut theirs: Vec<Duration>) {
    ours.sort();
    theirs.sort();
    let (a, b) = (ours[ours.len() / 2].as_secs_f64(), theirs[theirs.len() / 2].as_secs_f64());
    println!("{name}: ours {:.1} ms, BinaryHeap {:.1} ms, ratio {:.2}", a * 1e3, b * 1e3, a / b);
}

fn main() {
    const MANY: usize = 1_000_000;
    const RUNS: usize = 5;
    for (name, waiting, below) in [("fill and drain, a million cells", MANY, 1 << 40), ("fill and drain, many equal charges", MANY, 1000)] {
        let cs = charges(waiting, below, 0x9e37_79b9_7f4a_7c15);
        let (mut a, mut b) = (vec![0; MANY], vec![0; MANY]);
        let (mut ours, mut theirs) = (vec![], vec![]);
        for _ in 0..RUNS {
            ours.push(ours_fill(&cs, &mut a));
            theirs.push(theirs_fill(&cs, &mut b));
            assert!(a == b, "the charges taken differ");
        }
        report(name, ours, theirs);
    }
    for waiting in [1_000, 100_000] {
        let cs = charges(waiting, 1 << 20, 0x2545_f491_4f6c_dd1d);
        let steps = charges(MANY, 1 << 20, 0x1234_5678_9abc_def1);
        let (mut a, mut b) = (vec![0; MANY], vec![0; MANY]);
        let (mut ours, mut theirs) = (vec![], vec![]);
        for _ in 0..RUNS {
            ours.push(ours_churn(&cs, &steps, &mut a));
            theirs.push(theirs_churn(&cs, &steps, &mut b));
            assert!(a == b, "the charges taken differ");
        }
        report(&format!("a million takes and puts, {waiting} cells wait"), ours, theirs);
    }
}
