//! The end of a run by hand in plain Rust: what the cells wish, and the two texts.

use crate::design::{Design, Node};
use crate::legalise::{Place, Wish};
use crate::network::Network;
use crate::segments::Segment;
use crate::wire::Corner;
use std::io::Write as _;

/// Where each point's corner would stand, with its centre at its mids, which count from the core's lower ends.
pub fn wishes(design: &Design, network: &Network, mids: &[Vec<u64>; 2]) -> Vec<Wish> {
    let [low_x, low_y] = [0, 1].map(|axis| design.core[axis].0);
    let points = network.nodes.iter().zip(mids[0].iter().zip(&mids[1]));
    points
        .map(|(number, (x, y))| {
            let node = &design.nodes[*number];
            Wish {
                x: low_x + *x as i64 - node.width / 2,
                y: low_y + *y as i64 - node.height / 2,
            }
        })
        .collect()
}

/// Where each node's lower left corner stands: the cells at their places, and the fixed nodes where they are.
pub fn corners(design: &Design, segments: &[Segment], places: &[Place]) -> Vec<Corner> {
    let mut places = places.iter();
    let corner = |node: &Node| {
        let place = if node.fixed { None } else { places.next() };
        match place {
            Some(place) => {
                let segment = &segments[place.segment as usize];
                Corner {
                    x: segment.x + i64::from(place.site) * design.pitch,
                    y: segment.y,
                }
            }
            None => Corner {
                x: node.x,
                y: node.y,
            },
        }
    };
    design.nodes.iter().map(corner).collect()
}

/// A line for each node.
pub fn placement_text(design: &Design, corners: &[Corner]) -> Vec<u8> {
    let mut text = b"UCLA pl 1.0\n".to_vec();
    for (node, corner) in design.nodes.iter().zip(corners) {
        let end: &[u8] = match (node.fixed, node.overlap) {
            (false, _) => b"\n",
            (true, false) => b" /FIXED\n",
            (true, true) => b" /FIXED_NI\n",
        };
        push_line(&mut text, node, corner, end);
    }
    text
}

fn push_line(text: &mut Vec<u8>, node: &Node, corner: &Corner, end: &[u8]) {
    text.extend_from_slice(node.name);
    for number in [corner.x, corner.y] {
        text.push(b' ');
        if number < 0 {
            text.push(b'-');
        }
        push_decimal(text, u128::from(number.unsigned_abs()));
    }
    text.extend_from_slice(b" : ");
    text.extend_from_slice(node.orient.word());
    text.extend_from_slice(end);
}

/// Millionths as a decimal without zeros at its end.
fn push_decimal(text: &mut Vec<u8>, size: u128) {
    let (whole, mut rest) = (size / 1_000_000, size % 1_000_000);
    push_digits(text, whole);
    if rest > 0 {
        text.push(b'.');
        let mut step = 100_000;
        while rest > 0 {
            text.push(b'0' + (rest / step) as u8);
            rest %= step;
            step /= 10;
        }
    }
}

fn push_digits(text: &mut Vec<u8>, mut number: u128) {
    let mut digits = [0; 39];
    let mut from = digits.len();
    loop {
        from -= 1;
        digits[from] = b'0' + (number % 10) as u8;
        number /= 10;
        if number == 0 {
            break;
        }
    }
    text.extend_from_slice(&digits[from..]);
}

pub fn report_text(design: &Design, levels: u32, gap: u64, wire: u128) -> Vec<u8> {
    let nodes = design.nodes.len();
    let fixed = design.nodes.iter().filter(|node| node.fixed).count();
    let pins: usize = design.nets.iter().map(|net| net.pins.len()).sum();
    let (cells, nets) = (nodes - fixed, design.nets.len());
    let mut text = Vec::new();
    let written = writeln!(
        text,
        "cells {cells} terminals {fixed} nets {nets} pins {pins}\nlevels {levels} gap {gap}"
    );
    written.expect("room");
    text.extend_from_slice(b"wire ");
    push_decimal(&mut text, wire);
    text.push(b'\n');
    text
}
