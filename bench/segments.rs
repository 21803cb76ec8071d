//! The segments of a design by hand in plain Rust: the runs of sites on which no fixed node stands that forbids overlap.

use crate::design::{Design, Node, Subrow};

/// Sites side by side in a subrow: their lower left corner, and how many they are.
#[derive(Clone, Copy)]
pub struct Segment {
    pub x: i64,
    pub y: i64,
    pub sites: u32,
}

/// The sites of a subrow that a fixed node takes: from `first` up to the one before `end`.
#[derive(Clone, Copy, PartialEq, Eq, PartialOrd, Ord)]
struct Taken {
    subrow: u32,
    first: u32,
    end: u32,
}

/// A subrow with sites. Those of one y stand apart, so that their right ends ascend with their left ones.
#[derive(Clone, Copy, PartialEq, Eq, PartialOrd, Ord)]
struct Strip {
    y: i64,
    left: i64,
    right: i64,
    subrow: u32,
}

/// The maximal runs of free sites, in the order of subrows, then from left to right.
pub fn segments(design: &Design) -> Vec<Segment> {
    let taken = taken_sites(design);
    let mut segments = Vec::with_capacity(design.subrows.len() + taken.len());
    let mut due = taken.iter().peekable();
    for (number, subrow) in design.subrows.iter().enumerate() {
        let mut from = 0;
        while let Some(taken) = due.next_if(|taken| taken.subrow as usize == number) {
            segments.extend(run(subrow, design.pitch, from, taken.first));
            from = from.max(taken.end);
        }
        segments.extend(run(subrow, design.pitch, from, subrow.sites));
    }
    segments
}

/// The sites from one up to another, where there are any.
fn run(subrow: &Subrow, pitch: i64, from: u32, to: u32) -> Option<Segment> {
    (from < to).then(|| Segment {
        x: subrow.x + i64::from(from) * pitch,
        y: subrow.y,
        sites: to - from,
    })
}

/// What all fixed nodes take that forbid overlap, in order.
fn taken_sites(design: &Design) -> Vec<Taken> {
    let strips = strips_of(design);
    let rows: Vec<&[Strip]> = strips.chunk_by(|a, b| a.y == b.y).collect();
    let mut taken = Vec::new();
    let solid = |node: &&Node| node.fixed && !node.overlap && node.width > 0 && node.height > 0;
    for node in design.nodes.iter().filter(solid) {
        let (right, top) = (node.x + node.width, node.y + node.height);
        let first = rows.partition_point(|row| row[0].y + design.row_height <= node.y);
        for row in rows[first..].iter().take_while(|row| row[0].y < top) {
            let first = row.partition_point(|strip| strip.right <= node.x);
            for strip in row[first..].iter().take_while(|strip| strip.left < right) {
                taken.push(sites_under(strip, node.x, right, design.pitch));
            }
        }
    }
    taken.sort_unstable();
    taken
}

fn strips_of(design: &Design) -> Vec<Strip> {
    let subrows = design.subrows.iter().enumerate();
    let mut strips: Vec<Strip> = subrows
        .filter(|(_, subrow)| subrow.sites > 0)
        .map(|(number, subrow)| Strip {
            y: subrow.y,
            left: subrow.x,
            right: subrow.x + i64::from(subrow.sites) * design.pitch,
            subrow: number as u32,
        })
        .collect();
    strips.sort_unstable();
    strips
}

/// The sites of a subrow between two ends that it reaches past.
fn sites_under(strip: &Strip, left: i64, right: i64, pitch: i64) -> Taken {
    let first = (left - strip.left).max(0) / pitch;
    let end = (right.min(strip.right) - strip.left + pitch - 1) / pitch;
    Taken {
        subrow: strip.subrow,
        first: first as u32,
        end: end as u32,
    }
}
