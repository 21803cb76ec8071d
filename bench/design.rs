//! A design by hand in plain Rust: the texts beside an aux file, read and joined.

use crate::readers::{
    NetBlock, NodeLine, Orient, PlaceLine, RowBlock, WeightLine, read_nets, read_nodes, read_pl,
    read_scl, read_wts,
};
use std::collections::{BTreeMap, HashMap};
use std::fs;
use std::path::{Path, PathBuf};

/// The texts of a design, but for its aux file.
pub struct Texts {
    pub nodes: Vec<u8>,
    pub nets: Vec<u8>,
    pub wts: Option<Vec<u8>>,
    pub pl: Vec<u8>,
    pub scl: Vec<u8>,
}

/// What the texts read as.
pub struct Records<'a> {
    pub nodes: Vec<NodeLine<'a>>,
    pub nets: Vec<NetBlock<'a>>,
    pub weights: Vec<WeightLine<'a>>,
    pub places: Vec<PlaceLine<'a>>,
    pub rows: Vec<RowBlock>,
}

pub struct Node<'a> {
    pub name: &'a [u8],
    pub width: i64,
    pub height: i64,
    pub x: i64,
    pub y: i64,
    pub orient: Orient,
    pub fixed: bool,
    /// Whether it is fixed and cells may stand over it.
    pub overlap: bool,
}

/// Sites side by side, from a lower left corner on.
pub struct Subrow {
    pub x: i64,
    pub y: i64,
    pub sites: u32,
}

#[derive(Clone, Copy)]
pub struct Pin {
    pub node: u32,
    pub dx: i64,
    pub dy: i64,
}

pub struct Net {
    pub weight: u64,
    pub pins: Vec<Pin>,
}

/// The smallest rectangle around all subrows that have a site: its lower and upper ends on x and on y.
pub type Core = [(i64, i64); 2];

pub struct Design<'a> {
    pub nodes: Vec<Node<'a>>,
    pub nets: Vec<Net>,
    pub core: Core,
    /// In the order of their file.
    pub subrows: Vec<Subrow>,
    pub row_height: i64,
    /// The site spacing of the rows.
    pub pitch: i64,
}

/// Reads the files that an aux file names.
pub fn load(aux: &Path) -> Texts {
    let text = fs::read_to_string(aux).expect("an aux file");
    let line = text
        .lines()
        .find(|line| !line.trim_start().starts_with('#') && !line.trim().is_empty());
    let (_, names) = line
        .and_then(|line| line.split_once(':'))
        .expect("names behind a colon");
    let folder = aux.parent().expect("a folder");
    let named = |suffix: &str| -> Option<PathBuf> {
        let name = names
            .split_whitespace()
            .find(|name| name.to_ascii_lowercase().ends_with(suffix))?;
        Some(folder.join(name))
    };
    let read = |suffix: &str| named(suffix).map(|path| fs::read(path).expect("a file"));
    Texts {
        nodes: read(".nodes").expect("nodes"),
        nets: read(".nets").expect("nets"),
        wts: read(".wts"),
        pl: read(".pl").expect("places"),
        scl: read(".scl").expect("rows"),
    }
}

/// Reads the texts. What is wrong with one ends the program.
pub fn read(texts: &Texts) -> Records<'_> {
    Records {
        nodes: read_nodes(&texts.nodes).expect("nodes"),
        nets: read_nets(&texts.nets).expect("nets"),
        weights: read_weights(texts),
        places: read_pl(&texts.pl).expect("places"),
        rows: read_scl(&texts.scl).expect("rows"),
    }
}

pub fn read_weights(texts: &Texts) -> Vec<WeightLine<'_>> {
    let text = texts.wts.as_ref();
    text.map_or(Vec::new(), |text| read_wts(text).expect("weights"))
}

/// The design that the files make together. What is wrong with them ends the program.
pub fn join<'a>(records: &Records<'a>) -> Design<'a> {
    let (node_lines, net_blocks) = (&records.nodes, &records.nets);
    let (weight_lines, place_lines) = (&records.weights, &records.places);
    let rows = &records.rows;

    let mut numbers = HashMap::new();
    for (i, line) in node_lines.iter().enumerate() {
        let before = numbers.insert(line.name, i as u32);
        assert!(before.is_none(), "a name twice");
    }
    let places: HashMap<&[u8], usize> = place_lines
        .iter()
        .enumerate()
        .map(|(i, line)| (line.name, i))
        .collect();
    let weights: HashMap<&[u8], i64> = weight_lines
        .iter()
        .map(|line| (line.name, line.weight))
        .collect();
    assert!(
        place_lines
            .iter()
            .all(|line| numbers.contains_key(line.name)),
        "an unknown place"
    );
    let nets = net_blocks
        .iter()
        .map(|net| {
            let weight = net.name.and_then(|name| weights.get(name).copied());
            let weight = weight.unwrap_or(1_000_000);
            assert!(
                weight % 1_000_000 == 0 && (0..=65_535_000_000).contains(&weight),
                "a weight"
            );
            let pins = net
                .pins
                .iter()
                .map(|pin| Pin {
                    node: numbers[pin.node],
                    dx: pin.dx,
                    dy: pin.dy,
                })
                .collect();
            Net {
                weight: (weight / 1_000_000) as u64,
                pins,
            }
        })
        .collect();
    let nodes: Vec<Node> = node_lines
        .iter()
        .map(|line| {
            let place = places.get(line.name).map(|i| &place_lines[*i]);
            assert!(!line.fixed || place.is_some(), "no position");
            Node {
                name: line.name,
                width: line.width,
                height: line.height,
                x: place.map_or(0, |p| p.x),
                y: place.map_or(0, |p| p.y),
                orient: place.map_or(Orient::N, |p| p.orient),
                fixed: line.fixed || place.is_some_and(|p| p.fixed),
                overlap: line.overlap || place.is_some_and(|p| p.overlap),
            }
        })
        .collect();
    let core = core_of(rows).expect("a row with a site");
    let (height, pitch) = (rows[0].height, rows[0].pitch);
    assert!(
        rows.iter()
            .all(|row| row.height == height && row.pitch == pitch),
        "mixed rows"
    );
    assert!(!overlaps(rows), "overlaps");
    assert!(
        nodes.iter().all(|node| node.fixed || node.height <= height),
        "a tall cell"
    );
    Design {
        nodes,
        nets,
        core,
        subrows: subrows_of(rows),
        row_height: height,
        pitch,
    }
}

fn subrows_of(rows: &[RowBlock]) -> Vec<Subrow> {
    let in_row = |row: &RowBlock| -> Vec<Subrow> {
        let subrows = row.subrows.iter();
        subrows
            .map(|subrow| Subrow {
                x: subrow.x,
                y: row.y,
                sites: u32::try_from(subrow.sites).expect("few sites"),
            })
            .collect()
    };
    rows.iter().flat_map(in_row).collect()
}

fn core_of(rows: &[RowBlock]) -> Option<Core> {
    rows.iter()
        .flat_map(|row| {
            row.subrows
                .iter()
                .filter(|subrow| subrow.sites > 0)
                .map(|subrow| {
                    let right = subrow.x + subrow.sites as i64 * row.pitch;
                    [(subrow.x, right), (row.y, row.y + row.height)]
                })
        })
        .reduce(|a, b| {
            let around = |a: (i64, i64), b: (i64, i64)| (a.0.min(b.0), a.1.max(b.1));
            [around(a[0], b[0]), around(a[1], b[1])]
        })
}

/// Whether a subrow shares area with an earlier one, by bands as high as a row, each from left to right.
fn overlaps(rows: &[RowBlock]) -> bool {
    let height = rows[0].height;
    let mut kept = BTreeMap::new();
    for row in rows {
        for subrow in &row.subrows {
            let (left, right) = (
                i128::from(subrow.x),
                i128::from(subrow.x) + i128::from(subrow.sites) * i128::from(row.pitch),
            );
            if left == right {
                continue;
            }
            let band = (row.y + 1_000_000_000_000) / height;
            for near in band - 1..band + 2 {
                for (_, (other_left, other_right, y)) in
                    kept.range((near, i128::MIN)..(near, right)).rev()
                {
                    let (other_left, other_right): (i128, i128) = (*other_left, *other_right);
                    let y: i64 = *y;
                    if other_right <= left {
                        break;
                    }
                    if other_left < right && y.max(row.y) < y.min(row.y) + height {
                        return true;
                    }
                }
            }
            kept.insert((band, left), (left, right, row.y));
        }
    }
    false
}
