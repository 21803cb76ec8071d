//! The cut by hand in plain Rust: each region of a level in two parts, by the area of its points.

/// A part of the core: its ends on x and on y, and where its points begin and end in the list of all.
#[derive(Clone, Copy)]
pub struct Region {
    pub low: [u64; 2],
    pub high: [u64; 2],
    pub from: usize,
    pub to: usize,
}

/// The regions of a level, and their points, region by region, each region's in ascending order.
pub struct Regions {
    pub list: Vec<Region>,
    pub points: Vec<u32>,
}

impl Regions {
    /// One region with so many points, from 0 to these ends.
    pub fn whole(points: usize, high: [u64; 2]) -> Self {
        let region = Region {
            low: [0, 0],
            high,
            from: 0,
            to: points,
        };
        Self {
            list: vec![region],
            points: (0..points as u32).collect(),
        }
    }

    /// The parts of each region in its place.
    pub fn cut(&self, areas: &[u64], mids: &[Vec<u64>; 2]) -> Self {
        let mut parts = Self {
            list: Vec::with_capacity(2 * self.list.len()),
            points: Vec::with_capacity(self.points.len()),
        };
        let mut order = Vec::new();
        for region in &self.list {
            let points = &self.points[region.from..region.to];
            match axis_to_cut(region) {
                Some(axis) => {
                    parts.halve(region, points, axis, areas, &mids[axis], &mut order);
                }
                None => {
                    parts.list.push(*region);
                    parts.points.extend_from_slice(points);
                }
            }
        }
        parts
    }

    /// Puts the two parts of a region behind those so far.
    fn halve(
        &mut self,
        region: &Region,
        points: &[u32],
        axis: usize,
        areas: &[u64],
        mids: &[u64],
        order: &mut Vec<(u64, u32)>,
    ) {
        order.clear();
        order.extend(points.iter().map(|point| (mids[*point as usize], *point)));
        order.sort_unstable();
        let area = |point: &u32| areas[*point as usize];
        let total = points.iter().map(area).sum();
        let mut count = 1;
        let mut part = area(&order[0].1);
        while 2 * part < total && count + 1 < order.len() {
            part += area(&order[count].1);
            count += 1;
        }
        let last = order[count - 1];
        let is_first = |point: &&u32| (mids[**point as usize], **point) <= last;
        self.points.extend(points.iter().filter(is_first));
        self.points
            .extend(points.iter().filter(|point| !is_first(point)));
        let line = line_at(region.low[axis], region.high[axis], part, total);
        let (mut first, mut second) = (*region, *region);
        (first.high[axis], second.low[axis]) = (line, line);
        first.to = first.from + count;
        second.from = first.to;
        self.list.push(first);
        self.list.push(second);
    }
}

/// The axis of the longer side, x on a tie. None where the region stays.
fn axis_to_cut(region: &Region) -> Option<usize> {
    let [x, y] = [0, 1].map(|axis| region.high[axis] - region.low[axis]);
    if region.to - region.from < 2 || x.max(y) == 0 {
        None
    } else if x >= y {
        Some(0)
    } else {
        Some(1)
    }
}

/// Where the side from `low` to `high` is cut, so that it is divided as the areas are.
fn line_at(low: u64, high: u64, part: u64, total: u64) -> u64 {
    let side = high - low;
    if total == 0 {
        low + side / 2
    } else {
        low + (u128::from(side) * u128::from(part) / u128::from(total)) as u64
    }
}
