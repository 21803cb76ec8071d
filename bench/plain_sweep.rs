//! The plain solver from below, written by hand in Rust: what the proved one is measured against.
//!
//! Build: `rustc --edition 2024 -O -C target-cpu=x86-64-v2 bench/plain_sweep.rs`. It solves a grid of 100 by 100 points with four
//! neighbours of weight 840 in the box from 0 to 2^28, the left side anchored at 0 and the right side at the top, once with
//! the compiler's bounds checks and once without, and prints the nanoseconds for each point and sweep.

use std::time::Instant;

const SIDE: usize = 100;
const TOP: u64 = 1 << 28;
const WEIGHT: u64 = 840;

/// The points in flat arrays: where each one's neighbours begin, the neighbours, and the sums.
#[derive(Default)]
struct Flat {
    starts: Vec<usize>,
    numbers: Vec<u32>,
    weights: Vec<u64>,
    totals: Vec<u64>,
    anchored: Vec<u64>,
}

/// The grid of so many points a side.
fn grid(side: usize) -> Flat {
    let mut flat = Flat::default();
    flat.starts.push(0);
    for i in 0..side * side {
        let (row, column) = (i / side, i % side);
        let near = [
            (row > 0).then(|| i - side),
            (column > 0).then(|| i - 1),
            (column + 1 < side).then(|| i + 1),
            (row + 1 < side).then(|| i + side),
        ];
        for point in near.into_iter().flatten() {
            flat.numbers.push(point as u32);
            flat.weights.push(WEIGHT);
        }
        let anchors = u64::from(column == 0) + u64::from(column + 1 == side);
        let neighbours = flat.numbers.len() - flat.starts[i];
        flat.starts.push(flat.numbers.len());
        flat.totals.push(WEIGHT * (anchors + neighbours as u64));
        flat.anchored
            .push(WEIGHT * TOP * u64::from(column + 1 == side));
    }
    flat
}

#[inline(never)]
fn sweep(flat: &Flat, v: &mut [u64]) -> bool {
    let mut moved = false;
    for i in 0..v.len() {
        let part = flat.starts[i]..flat.starts[i + 1];
        let mut sum = flat.anchored[i];
        for (number, weight) in flat.numbers[part.clone()].iter().zip(&flat.weights[part]) {
            sum += weight * v[*number as usize];
        }
        let mean = sum / flat.totals[i];
        if v[i] < mean {
            v[i] = mean;
            moved = true;
        }
    }
    moved
}

/// The same without bounds checks.
#[inline(never)]
fn sweep_unchecked(flat: &Flat, v: &mut [u64]) -> bool {
    let mut moved = false;
    for i in 0..v.len() {
        // SAFETY: the arrays have one entry per point, the starts ascend, and each neighbour is a point.
        unsafe {
            let mut sum = *flat.anchored.get_unchecked(i);
            for k in *flat.starts.get_unchecked(i)..*flat.starts.get_unchecked(i + 1) {
                let number = *flat.numbers.get_unchecked(k) as usize;
                sum += flat.weights.get_unchecked(k) * v.get_unchecked(number);
            }
            let mean = sum / flat.totals.get_unchecked(i);
            if *v.get_unchecked(i) < mean {
                *v.get_unchecked_mut(i) = mean;
                moved = true;
            }
        }
    }
    moved
}

fn time(name: &str, flat: &Flat, sweep: impl Fn(&Flat, &mut [u64]) -> bool) {
    let mut v = vec![0; SIDE * SIDE];
    let mut sweeps = 1;
    let start = Instant::now();
    while sweep(flat, &mut v) {
        sweeps += 1;
    }
    let elapsed = start.elapsed();
    let each = elapsed.as_nanos() as f64 / (sweeps * SIDE * SIDE) as f64;
    let sum: u64 = v.iter().sum();
    println!(
        "{name}: {} ms, {sweeps} sweeps, {each:.2} ns a point, sum {sum}",
        elapsed.as_millis()
    );
}

fn main() {
    let flat = grid(SIDE);
    time("checked", &flat, sweep);
    time("unchecked", &flat, sweep_unchecked);
}
