//! The projection by hand in plain Rust: a network over the regions of a level, as equations on both axes.

use crate::network::Network;
use crate::regions::{Region, Regions};
use std::ops::{Add, Div, Mul};

/// The numbers in which sums of weight times coordinate are made.
pub trait Sum:
    Copy + Sync + From<u64> + Add<Output = Self> + Mul<Output = Self> + Div<Output = Self>
{
    fn low(self) -> u64;
}

impl Sum for u64 {
    fn low(self) -> u64 {
        self
    }
}

impl Sum for u128 {
    fn low(self) -> u64 {
        self as u64
    }
}

/// The equations of a level. Each point's box is its region. Its neighbours in its region stand at `starts[i]..starts[i + 1]`
/// of `numbers` and `weights`, the same on both axes; all others, and its fixed pins, are constants.
pub struct Projection<S> {
    pub starts: Vec<usize>,
    pub numbers: Vec<u32>,
    pub weights: Vec<u64>,
    pub axes: [Axis<S>; 2],
}

/// What the axes have of their own: the ends of each point's box, and its sum of weight times constant.
pub struct Axis<S> {
    pub lows: Vec<u64>,
    pub highs: Vec<u64>,
    pub anchored: Vec<S>,
}

impl<S: Sum> Axis<S> {
    /// The ends of the boxes and the sums over 2 ^ shift, the lows rounded down, the highs up, and the sums down or up.
    pub fn halved<const UP: bool>(&self, shift: u32) -> Axis<S> {
        let power = 1u64 << shift;
        let whole = if UP { S::from(0) } else { S::from(power - 1) };
        Axis {
            lows: self.lows.iter().map(|low| low >> shift).collect(),
            highs: self.highs.iter().map(|high| high.div_ceil(power)).collect(),
            anchored: self
                .anchored
                .iter()
                .map(|sum| (*sum + whole) / S::from(power))
                .collect(),
        }
    }
}

fn clamped(region: &Region, axis: usize, at: u64) -> u64 {
    at.min(region.high[axis]).max(region.low[axis])
}

/// The number of each point's region.
fn homes_of(regions: &Regions) -> Vec<u32> {
    let mut homes = vec![0; regions.points.len()];
    for (number, region) in regions.list.iter().enumerate() {
        for point in &regions.points[region.from..region.to] {
            homes[*point as usize] = number as u32;
        }
    }
    homes
}

/// The projection of a network over regions, with the mids of the round before.
pub fn project<S: Sum>(
    network: &Network,
    regions: &Regions,
    mids: &[Vec<u64>; 2],
) -> Projection<S> {
    let homes = homes_of(regions);
    let count = homes.len();
    let home_of = |point: usize| &regions.list[homes[point] as usize];
    let mut projection = Projection {
        starts: Vec::with_capacity(count + 1),
        numbers: Vec::with_capacity(network.numbers.len()),
        weights: Vec::with_capacity(network.numbers.len()),
        axes: [0, 1].map(|axis| Axis {
            lows: (0..count).map(|point| home_of(point).low[axis]).collect(),
            highs: (0..count).map(|point| home_of(point).high[axis]).collect(),
            anchored: Vec::with_capacity(count),
        }),
    };
    projection.starts.push(0);
    for point in 0..count {
        let region = home_of(point);
        let mut sums = [S::from(0); 2];
        let mut pull = |weight: u64, place: [u64; 2]| {
            for axis in 0..2 {
                let at = clamped(region, axis, place[axis]);
                sums[axis] = sums[axis] + S::from(weight) * S::from(at);
            }
        };
        for k in network.starts[point]..network.starts[point + 1] {
            let (number, weight) = (network.numbers[k], network.weights[k]);
            let other = number as usize;
            if homes[other] == homes[point] {
                projection.numbers.push(number);
                projection.weights.push(weight);
            } else {
                pull(
                    weight,
                    [0, 1].map(|axis| clamped(home_of(other), axis, mids[axis][other])),
                );
            }
        }
        for pin in &network.pins[network.pin_starts[point]..network.pin_starts[point + 1]] {
            pull(pin.weight, pin.place);
        }
        projection.starts.push(projection.numbers.len());
        for axis in 0..2 {
            projection.axes[axis].anchored.push(sums[axis]);
        }
    }
    projection
}
