//! The greedy rule by hand in plain Rust: each cell in the segment of least cost that has room for it, and its site there.
//!
//! Cells are taken by sites, the most first, then by wished y, wished x and number. The cost is how far the wished corner lies
//! from where the cell could begin in the segment, on y and on x together; of equal costs the first segment is taken.

use crate::segments::Segment;
use std::cmp::Reverse;

/// Where the lower left corner of a cell would stand.
#[derive(Clone, Copy)]
pub struct Wish {
    pub x: i64,
    pub y: i64,
}

/// The segment in which a cell stands, and its first site there.
#[derive(Clone, Copy, Default)]
pub struct Place {
    pub segment: u32,
    pub site: u32,
}

/// The first cell for which no segment has the room, and the largest room that was left.
pub struct NoRoom {
    pub cell: u32,
    pub sites: u64,
    pub largest: u64,
}

/// A cell, in the order in which cells are taken.
#[derive(PartialEq, Eq, PartialOrd, Ord)]
struct Turn {
    sites: Reverse<u64>,
    y: i64,
    x: i64,
    cell: u32,
}

/// A cell of a segment, in the order in which they stand there.
#[derive(Clone, Copy, Default, PartialEq, Eq, PartialOrd, Ord)]
struct Member {
    x: i64,
    cell: u32,
    sites: u64,
}

/// The segments in the order of (y, number): each one's y, its number, and the room that it has left.
struct Lanes {
    ys: Vec<i64>,
    numbers: Vec<u32>,
    rooms: Vec<u64>,
}

/// The places of the cells, by number.
pub fn legalise(
    segments: &[Segment],
    pitch: i64,
    sites: &[u64],
    wishes: &[Wish],
) -> Result<Vec<Place>, NoRoom> {
    let turns = turns(sites, wishes);
    let mut lanes = Lanes::new(segments);
    let mut chosen = Vec::with_capacity(turns.len());
    for turn in &turns {
        let lane = lanes.search(segments, pitch, turn).ok_or_else(|| NoRoom {
            cell: turn.cell,
            sites: turn.sites.0,
            largest: lanes.rooms.iter().copied().max().unwrap_or(0),
        })?;
        lanes.rooms[lane] -= turn.sites.0;
        chosen.push(lanes.numbers[lane]);
    }
    Ok(places(segments, pitch, &turns, &chosen))
}

fn turns(sites: &[u64], wishes: &[Wish]) -> Vec<Turn> {
    let cells = sites.iter().zip(wishes).enumerate();
    let mut turns: Vec<Turn> = cells
        .map(|(cell, (sites, wish))| Turn {
            sites: Reverse(*sites),
            y: wish.y,
            x: wish.x,
            cell: cell as u32,
        })
        .collect();
    turns.sort_unstable();
    turns
}

/// How far a cell's wish lies from where it could begin in a segment that has its sites.
fn cost(segment: &Segment, pitch: i64, turn: &Turn) -> u64 {
    let last = segment.x + (i64::from(segment.sites) - turn.sites.0 as i64) * pitch;
    turn.y.abs_diff(segment.y) + turn.x.abs_diff(turn.x.min(last).max(segment.x))
}

impl Lanes {
    fn new(segments: &[Segment]) -> Self {
        let mut numbers: Vec<u32> = (0..segments.len() as u32).collect();
        numbers.sort_unstable_by_key(|number| (segments[*number as usize].y, *number));
        let of = |number: &u32| &segments[*number as usize];
        Self {
            ys: numbers.iter().map(|number| of(number).y).collect(),
            rooms: numbers
                .iter()
                .map(|number| u64::from(of(number).sites))
                .collect(),
            numbers,
        }
    }

    /// The lane of a cell's segment: outwards from the wished y, until y alone is farther than the best so far costs. At that
    /// very distance there may still be an equal cost, and a smaller number.
    fn search(&self, segments: &[Segment], pitch: i64, turn: &Turn) -> Option<usize> {
        let middle = self.ys.partition_point(|y| *y < turn.y);
        let mut low = self.skip_down(turn.sites.0, middle);
        let mut high = self.skip_up(turn.sites.0, middle);
        let mut best = (u64::MAX, u32::MAX, usize::MAX);
        loop {
            let below = if low > 0 {
                turn.y.abs_diff(self.ys[low - 1])
            } else {
                u64::MAX
            };
            let above = if high < self.ys.len() {
                turn.y.abs_diff(self.ys[high])
            } else {
                u64::MAX
            };
            if best.0 < below.min(above) || below.min(above) == u64::MAX {
                return (best.0 < u64::MAX).then_some(best.2);
            }
            let lane = if below <= above { low - 1 } else { high };
            let number = self.numbers[lane];
            let cost = cost(&segments[number as usize], pitch, turn);
            best = best.min((cost, number, lane));
            if lane < low {
                low = self.skip_down(turn.sites.0, lane);
            } else {
                high = self.skip_up(turn.sites.0, lane + 1);
            }
        }
    }

    /// Past the lanes right before this one whose room is too small.
    fn skip_down(&self, sites: u64, from: usize) -> usize {
        let lanes = self.rooms[..from].iter();
        from - lanes.rev().take_while(|room| **room < sites).count()
    }

    /// Past this lane and those right behind it whose room is too small.
    fn skip_up(&self, sites: u64, from: usize) -> usize {
        let lanes = self.rooms[from..].iter();
        from + lanes.take_while(|room| **room < sites).count()
    }
}

/// The sites of all cells, whose segments stand in the order of their turns.
fn places(segments: &[Segment], pitch: i64, turns: &[Turn], chosen: &[u32]) -> Vec<Place> {
    let mut ends = vec![0; segments.len()];
    for number in chosen {
        ends[*number as usize] += 1;
    }
    let mut begin = 0;
    for end in &mut ends {
        (begin, *end) = (begin + *end, begin);
    }
    let mut members = vec![Member::default(); turns.len()];
    for (turn, number) in turns.iter().zip(chosen) {
        let end = &mut ends[*number as usize];
        members[*end] = Member {
            x: turn.x,
            cell: turn.cell,
            sites: turn.sites.0,
        };
        *end += 1;
    }
    let mut places = vec![Place::default(); turns.len()];
    let (mut rest, mut begin) = (&mut members[..], 0);
    let mut firsts = Vec::new();
    for (number, (segment, end)) in segments.iter().zip(ends).enumerate() {
        let (row, behind) = rest.split_at_mut(end - begin);
        (rest, begin) = (behind, end);
        row.sort_unstable();
        first_sites(segment, pitch, row, &mut firsts);
        let mut end = u64::from(segment.sites);
        for (member, first) in row.iter().zip(&firsts).rev() {
            end -= member.sites;
            places[member.cell as usize] = Place {
                segment: number as u32,
                site: end.min(*first) as u32,
            };
        }
    }
    places
}

/// How far to the left each cell of a segment could stand: where it wishes to, or behind the cells before it.
fn first_sites(segment: &Segment, pitch: i64, row: &[Member], firsts: &mut Vec<u64>) {
    firsts.clear();
    let mut reach = 0;
    for member in row {
        let desired = (member.x - segment.x + pitch / 2).div_euclid(pitch).max(0);
        let first = reach.max(desired as u64);
        firsts.push(first);
        reach = first + member.sites;
    }
}
