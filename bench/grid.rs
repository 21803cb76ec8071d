//! The texts of a grid of cells between pads, made in memory, by hand in plain Rust.
//!
//! Each cell, 2 by 10, has a net to its neighbours to the right and above; each row has a pad at both ends, each column one below
//! and one above. The core is 4 units wide for each column and 10 high for each row. The weights are 1 to 4: net k has
//! 1 + floor(s / 2^33) mod 4 for the number s that comes k + 1 steps behind the grid's own number, a step being
//! s * 6364136223846793005 + 1442695040888963407 mod 2^64.

use crate::design::Texts;
use std::fmt::Write as _;

/// How many rows and columns there are, and the number from which the weights come.
#[derive(Clone, Copy)]
pub struct Grid {
    pub rows: u64,
    pub columns: u64,
    pub number: u64,
}

/// The grid that a word `R,C,K` asks for: R and C from 1 to 64.
pub fn read_grid(word: &str) -> Option<Grid> {
    let mut numbers = word.split(',').map(|digits| {
        let plain = digits == "0" || !digits.starts_with(['0', '+']);
        digits.parse::<u64>().ok().filter(|_| plain)
    });
    let grid = Grid {
        rows: numbers.next()??,
        columns: numbers.next()??,
        number: numbers.next()??,
    };
    let fits = (1..=64).contains(&grid.rows) && (1..=64).contains(&grid.columns);
    (fits && numbers.next().is_none()).then_some(grid)
}

/// The texts of a grid's files.
pub fn grid_texts(grid: Grid) -> Texts {
    let nets = nets_of(grid);
    let mut weights = "UCLA wts 1.0\n".to_string();
    let mut state = grid.number;
    for k in 0..nets.len() {
        state = state
            .wrapping_mul(6_364_136_223_846_793_005)
            .wrapping_add(1_442_695_040_888_963_407);
        put(&mut weights, format_args!("n{k} {}", 1 + (state >> 33) % 4));
    }
    Texts {
        nodes: nodes_text(grid).into_bytes(),
        nets: nets_text(&nets).into_bytes(),
        wts: Some(weights.into_bytes()),
        pl: places_text(grid).into_bytes(),
        scl: rows_text(grid).into_bytes(),
    }
}

fn put(text: &mut String, line: std::fmt::Arguments) {
    writeln!(text, "{line}").expect("room");
}

/// The names of the pads, and where they stand.
fn pads(grid: Grid) -> Vec<(String, u64, u64)> {
    let (rows, columns) = (0..grid.rows, 0..grid.columns);
    let left = rows.clone().map(|r| (format!("l{r}"), 0, 10 * r + 5));
    let right = rows.map(|r| (format!("r{r}"), 4 * grid.columns, 10 * r + 5));
    let below = columns.clone().map(|c| (format!("b{c}"), 4 * c + 2, 0));
    let above = columns.map(|c| (format!("t{c}"), 4 * c + 2, 10 * grid.rows));
    left.chain(right).chain(below).chain(above).collect()
}

fn nodes_text(grid: Grid) -> String {
    let cells = grid.rows * grid.columns;
    let pads = pads(grid);
    let mut text = "UCLA nodes 1.0\n".to_string();
    let nodes = cells + pads.len() as u64;
    put(&mut text, format_args!("NumNodes : {nodes}"));
    put(&mut text, format_args!("NumTerminals : {}", pads.len()));
    for i in 0..cells {
        put(&mut text, format_args!("c{i} 2 10"));
    }
    for (name, _, _) in pads {
        put(&mut text, format_args!("{name} 0 0 terminal"));
    }
    text
}

/// The names of the two nodes of each net.
fn nets_of(grid: Grid) -> Vec<(String, String)> {
    let (rows, columns) = (grid.rows, grid.columns);
    let cell = |r: u64, c: u64| format!("c{}", r * columns + c);
    let mut nets = Vec::new();
    for r in 0..rows {
        nets.extend((1..columns).map(|c| (cell(r, c - 1), cell(r, c))));
    }
    for r in 1..rows {
        nets.extend((0..columns).map(|c| (cell(r - 1, c), cell(r, c))));
    }
    nets.extend((0..rows).map(|r| (format!("l{r}"), cell(r, 0))));
    nets.extend((0..rows).map(|r| (format!("r{r}"), cell(r, columns - 1))));
    nets.extend((0..columns).map(|c| (format!("b{c}"), cell(0, c))));
    nets.extend((0..columns).map(|c| (format!("t{c}"), cell(rows - 1, c))));
    nets
}

fn nets_text(nets: &[(String, String)]) -> String {
    let mut text = "UCLA nets 1.0\n".to_string();
    put(&mut text, format_args!("NumNets : {}", nets.len()));
    put(&mut text, format_args!("NumPins : {}", 2 * nets.len()));
    for (k, (one, other)) in nets.iter().enumerate() {
        put(
            &mut text,
            format_args!("NetDegree : 2 n{k}\n{one} B\n{other} B"),
        );
    }
    text
}

fn places_text(grid: Grid) -> String {
    let mut text = "UCLA pl 1.0\n".to_string();
    for i in 0..grid.rows * grid.columns {
        put(&mut text, format_args!("c{i} 0 0 : N"));
    }
    for (name, x, y) in pads(grid) {
        put(&mut text, format_args!("{name} {x} {y} : N /FIXED"));
    }
    text
}

fn rows_text(grid: Grid) -> String {
    let mut text = "UCLA scl 1.0\n".to_string();
    put(&mut text, format_args!("NumRows : {}", grid.rows));
    for r in 0..grid.rows {
        put(
            &mut text,
            format_args!("CoreRow Horizontal\nCoordinate : {}\nHeight : 10", 10 * r),
        );
        put(&mut text, format_args!("Sitewidth : 1\nSitespacing : 1"));
        let sites = 4 * grid.columns;
        put(
            &mut text,
            format_args!("SubrowOrigin : 0 NumSites : {sites}\nEnd"),
        );
    }
    text
}
