//! The levels by hand in plain Rust: the core is cut over and over, and each level solved in some rounds, each against the mids of
//! the round before.

use crate::design::Design;
use crate::network::Network;
use crate::projection::{Sum, project};
use crate::regions::Regions;
use crate::solving::{Method, System};

/// How a run goes: how often the core is cut, in how many rounds each level is solved, with how many seats, where by a crew, and
/// whether it tells its work.
#[derive(Clone, Copy)]
pub struct Way {
    pub levels: u32,
    pub passes: u32,
    pub seats: Option<usize>,
    pub method: Method,
    pub tell: bool,
}

/// The lower and the upper vector of an axis.
pub type Solved = [Vec<u64>; 2];

/// The last round's vectors on x and on y, and how far two entries stand apart at most in any round.
#[derive(Default)]
pub struct Placed {
    pub last: [Solved; 2],
    pub gap: u64,
}

/// The rounds of a network.
pub fn solve_all(network: &Network, design: &Design, way: &Way) -> Placed {
    let tops = tops(design);
    if fits_narrow(network, tops) {
        solve_levels::<u64>(network, tops, way)
    } else {
        solve_levels::<u128>(network, tops, way)
    }
}

/// How wide and how high the core is.
pub fn tops(design: &Design) -> [u64; 2] {
    design.core.map(|(low, high)| (high - low) as u64)
}

/// Whether the sums of weight times coordinate fit 64 bits.
pub fn fits_narrow(network: &Network, tops: [u64; 2]) -> bool {
    let heaviest = network.totals.iter().copied().max().unwrap_or(0);
    let farthest = tops[0].max(tops[1]);
    u128::from(heaviest) * (u128::from(farthest) + 1) <= u128::from(u64::MAX)
}

fn solve_levels<S: Sum>(network: &Network, tops: [u64; 2], way: &Way) -> Placed {
    let points = network.points();
    let mut regions = Regions::whole(points, tops);
    let mut mids = [vec![0; points], vec![0; points]];
    let mut placed = Placed::default();
    for level in 0..=way.levels {
        if level > 0 {
            regions = regions.cut(&network.areas, &mids);
        }
        for _ in 0..way.passes {
            placed.last = solve_round::<S>(network, &regions, &mids, way);
            placed.gap = placed.gap.max(gap_of(&placed.last));
            mids = [0, 1].map(|axis| halfway(&placed.last[axis]));
        }
    }
    placed
}

pub fn halfway([lower, upper]: &Solved) -> Vec<u64> {
    let both = lower.iter().zip(upper);
    both.map(|(lower, upper)| (lower + upper) / 2).collect()
}

fn gap_of(solved: &[Solved; 2]) -> u64 {
    let apart = |[lower, upper]: &Solved| {
        let both = lower.iter().zip(upper);
        both.map(|(lower, upper)| upper - lower).max().unwrap_or(0)
    };
    apart(&solved[0]).max(apart(&solved[1]))
}

fn solve_round<S: Sum>(
    network: &Network,
    regions: &Regions,
    mids: &[Vec<u64>; 2],
    way: &Way,
) -> [Solved; 2] {
    let projection = project::<S>(network, regions, mids);
    [0, 1].map(|axis| {
        let system = System {
            totals: &network.totals,
            projection: &projection,
            axis: &projection.axes[axis],
        };
        let name = format!("{} regions, {}", regions.list.len(), ["x", "y"][axis]);
        solve(&system, &name, way)
    })
}

fn solve<S: Sum>(system: &System<S>, name: &str, way: &Way) -> Solved {
    let tell = |end: &str, work: String| {
        if way.tell {
            eprintln!("{name} {end}: {work}");
        }
    };
    match way.seats {
        Some(seats) => {
            let (lower, raising) = system.solve_by_crew::<true>(seats, way.method);
            let (upper, lowering) = system.solve_by_crew::<false>(seats, way.method);
            tell("lower", format!("relaxations {raising:?}"));
            tell("upper", format!("relaxations {lowering:?}"));
            [lower, upper]
        }
        None => {
            let (lower, rises) = system.solve::<true>();
            let (upper, falls) = system.solve::<false>();
            tell("lower", format!("sweeps {rises}"));
            tell("upper", format!("sweeps {falls}"));
            [lower, upper]
        }
    }
}
