//! The wire length by hand in plain Rust, with threads over contiguous parts of the nets.

use crate::design::{Design, Net};
use std::thread;

/// The lower left corner at which a node stands.
#[derive(Clone, Copy)]
pub struct Corner {
    pub x: i64,
    pub y: i64,
}

/// A thread takes at least so many nets, since starting one takes as long as some thousand of them.
const FEWEST: usize = 4096;

/// The half-perimeter wire length over all nets in millionths, where each node stands at its corner.
pub fn wire_length(design: &Design, corners: &[Corner], threads: usize) -> u128 {
    let size = design.nets.len().div_ceil(threads).max(FEWEST);
    let sum = |nets: &[Net]| -> u128 {
        let lengths = nets.iter().map(|net| length(design, corners, net));
        lengths.map(u128::from).sum()
    };
    if design.nets.len() <= size {
        return sum(&design.nets);
    }
    // This thread only waits: where it summed a part itself, a scheduler might leave a new thread behind it on its processor.
    thread::scope(|scope| {
        let parts = design.nets.chunks(size);
        let sums: Vec<_> = parts.map(|nets| scope.spawn(move || sum(nets))).collect();
        let sums = sums.into_iter().map(|sum| sum.join().expect("a part"));
        sums.sum()
    })
}

/// The width plus the height of the smallest rectangle around a net's pins.
fn length(design: &Design, corners: &[Corner], net: &Net) -> u64 {
    let spots = net.pins.iter().map(|pin| {
        let (node, corner) = (&design.nodes[pin.node as usize], corners[pin.node as usize]);
        (
            corner.x + node.width / 2 + pin.dx,
            corner.y + node.height / 2 + pin.dy,
        )
    });
    let none = (i64::MAX, i64::MIN, i64::MAX, i64::MIN);
    let (left, right, bottom, top) = spots.fold(none, |(left, right, bottom, top), (x, y)| {
        (left.min(x), right.max(x), bottom.min(y), top.max(y))
    });
    if net.pins.is_empty() {
        0
    } else {
        (right - left) as u64 + (top - bottom) as u64
    }
}
