//! The network of a design by hand in plain Rust: each net a clique or a star, each point with its neighbours in flat arrays.

use crate::design::{Design, Net, Pin};

const LARGEST_CLIQUE: usize = 16;
const MOST_TERMS: u64 = 1 << 24;
const HEAVIEST: u64 = 1 << 40;

pub enum Fault {
    TooManyEdges(u64),
    Heavy(usize),
    HeavyNet(usize),
    Unanchored(usize),
}

/// A fixed pin of a point: its weight, and how far it stands from the core's lower ends on x and on y, clamped to the core.
#[derive(Clone, Copy, Default)]
pub struct FixedPin {
    pub weight: u64,
    pub place: [u64; 2],
}

/// The points of a design. Those next to point i stand at `starts[i]..starts[i + 1]` of `numbers` and `weights`, in order, and
/// its fixed pins at `pin_starts[i]..pin_starts[i + 1]` of `pins`.
#[derive(Default)]
pub struct Network {
    /// The node that each of the first points is. The star points stand behind them.
    pub nodes: Vec<usize>,
    /// How many sites each point takes; a star point takes none.
    pub areas: Vec<u64>,
    pub starts: Vec<usize>,
    pub numbers: Vec<u32>,
    pub weights: Vec<u64>,
    pub pin_starts: Vec<usize>,
    pub pins: Vec<FixedPin>,
    pub totals: Vec<u64>,
}

/// How a net joins its nodes: the first pin of each, and the weight of each pair of them, or of the spoke of each to a star point.
struct Joint {
    pins: Vec<Pin>,
    weight: u64,
    star: Option<usize>,
}

const NO_POINT: u32 = u32::MAX;

pub fn network(design: &Design) -> Result<Network, Fault> {
    let mut points = vec![NO_POINT; design.nodes.len()];
    let mut network = Network::default();
    for (i, node) in design.nodes.iter().enumerate() {
        if !node.fixed {
            points[i] = network.nodes.len() as u32;
            network.nodes.push(i);
            network.areas.push(sites_of(node.width, design.pitch));
        }
    }
    let (joints, stars) = joints_of(design, network.nodes.len())?;
    network.areas.resize(network.nodes.len() + stars.len(), 0);
    network.join(design, &points, &joints);
    network.add_up();
    let cells = network.nodes.len();
    match network.totals.iter().position(|total| *total > HEAVIEST) {
        Some(point) if point < cells => Err(Fault::Heavy(point)),
        Some(point) => Err(Fault::HeavyNet(stars[point - cells])),
        None => Ok(network),
    }
}

/// Fails at the first point from which no chain of neighbours leads to one with a fixed pin.
pub fn reach(network: &Network) -> Result<(), Fault> {
    let reached = network.reached();
    match reached.iter().position(|reached| !reached) {
        Some(point) => Err(Fault::Unanchored(point)),
        None => Ok(()),
    }
}

fn sites_of(width: i64, pitch: i64) -> u64 {
    (width as u64).div_ceil(pitch as u64).max(1)
}

fn pairs(k: usize) -> u64 {
    (k * k.saturating_sub(1) / 2) as u64
}

/// How the nets join their nodes, and the wide ones among them, where there are few pairs and spokes. There are so many cells.
fn joints_of(design: &Design, cells: usize) -> Result<(Vec<Joint>, Vec<usize>), Fault> {
    let mut last_net = vec![usize::MAX; design.nodes.len()];
    let mut joints = Vec::with_capacity(design.nets.len());
    let mut stars = Vec::new();
    let mut terms = 0;
    for (n, net) in design.nets.iter().enumerate() {
        let pins = first_pins(net, n, &mut last_net);
        let degree = pins.len();
        let fixed = pins
            .iter()
            .filter(|pin| design.nodes[pin.node as usize].fixed);
        let fixed = fixed.count();
        if degree < 2 || net.weight == 0 || fixed == degree {
            continue;
        }
        if degree <= LARGEST_CLIQUE {
            let weight = 840 * net.weight / (degree as u64 - 1);
            terms += pairs(degree) - pairs(fixed);
            joints.push(Joint {
                pins,
                weight,
                star: None,
            });
        } else {
            let weight = 840 * net.weight * degree as u64 / (degree as u64 - 1);
            let star = Some(cells + stars.len());
            terms += degree as u64;
            stars.push(n);
            joints.push(Joint { pins, weight, star });
        }
    }
    if terms > MOST_TERMS {
        Err(Fault::TooManyEdges(terms))
    } else {
        Ok((joints, stars))
    }
}

fn first_pins(net: &Net, number: usize, last_net: &mut [usize]) -> Vec<Pin> {
    let mut pins = Vec::with_capacity(net.pins.len());
    for pin in &net.pins {
        let last = &mut last_net[pin.node as usize];
        if *last != number {
            *last = number;
            pins.push(*pin);
        }
    }
    pins
}

/// The points of a net's movable nodes.
fn movable<'a>(joint: &'a Joint, points: &'a [u32]) -> impl Iterator<Item = usize> + 'a {
    joint
        .pins
        .iter()
        .map(|pin| points[pin.node as usize])
        .filter(|point| *point != NO_POINT)
        .map(|point| point as usize)
}

/// How far a fixed pin stands from the core's lower ends, clamped to the core.
fn place_of(design: &Design, pin: &Pin) -> [u64; 2] {
    let node = &design.nodes[pin.node as usize];
    let place = [
        node.x + node.width / 2 + pin.dx,
        node.y + node.height / 2 + pin.dy,
    ];
    [0, 1].map(|axis| {
        let (low, high) = design.core[axis];
        (place[axis].min(high).max(low) - low) as u64
    })
}

impl Network {
    /// How many points there are.
    pub fn points(&self) -> usize {
        self.areas.len()
    }

    /// What the nets give each point: its neighbours net by net, and its fixed pins.
    fn join(&mut self, design: &Design, points: &[u32], joints: &[Joint]) {
        self.count(points, joints);
        let (mut free, mut free_pins) = (self.starts.clone(), self.pin_starts.clone());
        for joint in joints {
            let fixed = joint.pins.iter();
            let fixed = fixed.filter(|pin| points[pin.node as usize] == NO_POINT);
            let fixed: Vec<FixedPin> = fixed
                .map(|pin| FixedPin {
                    weight: joint.weight,
                    place: place_of(design, pin),
                })
                .collect();
            if let Some(star) = joint.star {
                self.pin(star, &fixed, &mut free_pins);
                for point in movable(joint, points) {
                    self.enter(point, star, joint.weight, &mut free);
                    self.enter(star, point, joint.weight, &mut free);
                }
                continue;
            }
            for point in movable(joint, points) {
                self.pin(point, &fixed, &mut free_pins);
                for other in movable(joint, points).filter(|other| *other != point) {
                    self.enter(point, other, joint.weight, &mut free);
                }
            }
        }
    }

    /// Gives a point these fixed pins.
    fn pin(&mut self, point: usize, fixed: &[FixedPin], free_pins: &mut [usize]) {
        let at = &mut free_pins[point];
        self.pins[*at..*at + fixed.len()].copy_from_slice(fixed);
        *at += fixed.len();
        self.totals[point] += fixed.iter().map(|pin| pin.weight).sum::<u64>();
    }

    /// Gives a point this neighbour.
    fn enter(&mut self, point: usize, other: usize, weight: u64, free: &mut [usize]) {
        let at = &mut free[point];
        self.numbers[*at] = other as u32;
        self.weights[*at] = weight;
        *at += 1;
    }

    /// Room for what the nets give each point.
    fn count(&mut self, points: &[u32], joints: &[Joint]) {
        let count = self.points();
        self.totals = vec![0; count];
        self.starts = vec![0; count + 1];
        self.pin_starts = vec![0; count + 1];
        for joint in joints {
            let many = movable(joint, points).count();
            let fixed = joint.pins.len() - many;
            let others = if joint.star.is_some() { 1 } else { many - 1 };
            for point in movable(joint, points) {
                self.starts[point + 1] += others;
                self.pin_starts[point + 1] += if joint.star.is_some() { 0 } else { fixed };
            }
            if let Some(star) = joint.star {
                self.starts[star + 1] += many;
                self.pin_starts[star + 1] += fixed;
            }
        }
        for point in 0..count {
            self.starts[point + 1] += self.starts[point];
            self.pin_starts[point + 1] += self.pin_starts[point];
        }
        self.numbers = vec![0; self.starts[count]];
        self.weights = vec![0; self.starts[count]];
        self.pins = vec![FixedPin::default(); self.pin_starts[count]];
    }

    /// Puts the neighbours of each point in order, adds up those that stand more than once, and the total weights.
    fn add_up(&mut self) {
        let mut row = Vec::new();
        let mut end = 0;
        for point in 0..self.points() {
            let part = self.starts[point]..self.starts[point + 1];
            row.clear();
            row.extend(part.map(|k| (self.numbers[k], self.weights[k])));
            row.sort_unstable();
            self.starts[point] = end;
            for (number, weight) in row.drain(..) {
                if end > self.starts[point] && self.numbers[end - 1] == number {
                    self.weights[end - 1] += weight;
                } else {
                    self.numbers[end] = number;
                    self.weights[end] = weight;
                    end += 1;
                }
                self.totals[point] += weight;
            }
        }
        if let Some(last) = self.starts.last_mut() {
            *last = end;
        }
        self.numbers.truncate(end);
        self.weights.truncate(end);
    }

    /// Which points have a chain of neighbours to one with a fixed pin.
    fn reached(&self) -> Vec<bool> {
        let ends = self.pin_starts.windows(2);
        let mut reached: Vec<bool> = ends.map(|ends| ends[0] < ends[1]).collect();
        let mut due: Vec<usize> = (0..reached.len()).filter(|point| reached[*point]).collect();
        while let Some(point) = due.pop() {
            for number in &self.numbers[self.starts[point]..self.starts[point + 1]] {
                let other = *number as usize;
                if !reached[other] {
                    reached[other] = true;
                    due.push(other);
                }
            }
        }
        reached
    }
}
