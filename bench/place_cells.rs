//! The whole placer by hand in plain Rust, without its proofs, to measure the proved program against.
//!
//! `place_cells [--tell] [--levels N] [--passes N] [--seats N] [--shift K] [--chases P] [--out FILE] (DESIGN | --grid R,C,K)` reads
//! the design beside the aux file, or makes the texts of a grid, solves it, cuts its core as often as `--levels` says (by default 4)
//! and solves each level as often as `--passes` says (by default twice), each time against the mids of the time before. It puts the
//! cells on sites and writes the placement to FILE, by default to DESIGN without its `.aux` and with `.proud.pl`, or to
//! `grid.proud.pl`, and prints how much there is of what, how far the lower and the upper coordinates stand apart at most in any
//! round, and the wire length. Without `--seats` it solves by plain sweeps; with it, by a crew of that many threads on shared words:
//! with `--shift K` it begins with K halvings (by default 20), and with `--chases P` a seat makes at most P passes over its marks (by
//! default 64). With `--tell`, standard error gets the sweeps, or the relaxations of each seat.
//!
//! `place_cells --steps [--times N] [--levels N] [--schedule FILE [--seats N]] (DESIGN | --grid R,C,K)` times each step once, and
//! the wire length N times, by default once, as `crates/step_bench` does: see `steps.rs`. With `--schedule` a file of events is
//! played, too.
//!
//! The points lie in flat arrays, sums are in `u64` where all of a design fit, and coordinates count from the core's lower
//! end. The scripts beside it build it and run it beside the proved program.

mod design;
mod grid;
mod legalise;
mod levels;
mod network;
mod placement;
mod projection;
mod readers;
mod regions;
mod schedule;
mod segments;
mod solving;
mod steps;
mod wire;

use design::{Design, Texts, join, load, read};
use grid::{grid_texts, read_grid};
use legalise::{NoRoom, Place, legalise};
use levels::{Placed, Way, halfway, solve_all};
use network::{Fault, Network, network, reach};
use placement::{corners, placement_text, report_text, wishes};
use segments::{Segment, segments};
use solving::Method;
use std::io::Write as _;
use std::path::Path;
use std::process::ExitCode;
use std::{env, fs, io};
use wire::wire_length;

/// What the command line asks for.
struct Asked {
    way: Way,
    steps: bool,
    times: u32,
    schedule: Option<String>,
    out: Option<String>,
    design: Option<String>,
    grid: Option<String>,
}

/// How many rounds a run may have.
const MOST_ROUNDS: u32 = 26;

/// How many threads the machine runs at once.
fn threads() -> usize {
    std::thread::available_parallelism().map_or(1, usize::from)
}

fn places_of(
    design: &Design,
    network: &Network,
    placed: &Placed,
) -> Result<(Vec<Segment>, Vec<Place>), NoRoom> {
    let segments = segments(design);
    let mids = [0, 1].map(|axis| halfway(&placed.last[axis]));
    let wishes = wishes(design, network, &mids);
    let areas = &network.areas[..network.nodes.len()];
    let places = legalise(&segments, design.pitch, areas, &wishes)?;
    Ok((segments, places))
}

fn name_of(design: &Design, point: usize) -> String {
    let node = design.nodes.iter().filter(|node| !node.fixed).nth(point);
    String::from_utf8_lossy(node.map_or(b"", |node| node.name)).into_owned()
}

fn refusal_of(design: &Design, fault: Fault) -> String {
    match fault {
        Fault::TooManyEdges(terms) => format!("proud: too many edges: {terms}"),
        Fault::Heavy(point) => format!("proud: node {}: too heavy", name_of(design, point)),
        Fault::HeavyNet(net) => format!("proud: net {net}: too heavy"),
        Fault::Unanchored(point) => {
            format!("proud: node {}: reaches no pad", name_of(design, point))
        }
    }
}

fn no_room(design: &Design, fault: NoRoom) -> String {
    let name = name_of(design, fault.cell as usize);
    let NoRoom { sites, largest, .. } = fault;
    format!("proud: node {name}: no room for {sites} sites, {largest} left")
}

fn words() -> Option<Asked> {
    let mut asked = Asked {
        way: Way {
            levels: 4,
            passes: 2,
            seats: None,
            method: Method {
                shift: 20,
                chases: 64,
            },
            tell: false,
        },
        steps: false,
        times: 1,
        schedule: None,
        out: None,
        design: None,
        grid: None,
    };
    let mut words = env::args().skip(1);
    while let Some(word) = words.next() {
        match word.as_str() {
            "--tell" => asked.way.tell = true,
            "--steps" => asked.steps = true,
            "--shift" => {
                let shift = words.next()?.parse().ok();
                asked.way.method.shift = shift.filter(|shift| *shift <= 20)?;
            }
            "--chases" => {
                let chases = words.next()?.parse().ok();
                asked.way.method.chases = chases.filter(|chases| *chases <= 64)?;
            }
            "--times" => asked.times = words.next()?.parse().ok()?,
            "--schedule" => asked.schedule = Some(words.next()?),
            "--out" => asked.out = Some(words.next()?),
            "--grid" => asked.grid = Some(words.next()?),
            "--levels" => {
                let levels = words.next()?.parse().ok();
                asked.way.levels = levels.filter(|levels| *levels <= 12)?;
            }
            "--passes" => {
                let passes = words.next()?.parse().ok();
                asked.way.passes = passes.filter(|passes| (1..=8).contains(passes))?;
            }
            "--seats" => {
                let seats = words.next()?.parse().ok();
                asked.way.seats = Some(seats.filter(|seats| (1..=64).contains(seats))?);
            }
            _ if asked.design.is_none() => asked.design = Some(word),
            _ => return None,
        }
    }
    ((asked.way.levels + 1) * asked.way.passes <= MOST_ROUNDS).then_some(asked)
}

/// The texts that are asked for, and where their placement usually goes.
fn texts_of(asked: &Asked) -> Option<(Texts, String)> {
    match (&asked.design, &asked.grid) {
        (Some(aux), None) => {
            let name = format!("{}.proud.pl", aux.strip_suffix(".aux").unwrap_or(aux));
            Some((load(Path::new(aux)), name))
        }
        (None, Some(word)) => Some((grid_texts(read_grid(word)?), "grid.proud.pl".into())),
        _ => None,
    }
}

fn refused(line: &str) -> ExitCode {
    println!("{line}");
    ExitCode::from(2)
}

fn usage() -> ExitCode {
    println!(
        "usage: place_cells [--tell] [--levels N] [--passes N] [--seats N] [--shift K] [--chases P] [--out FILE] (DESIGN | --grid R,C,K)"
    );
    ExitCode::from(1)
}

fn main() -> ExitCode {
    let Some(asked) = words() else {
        return usage();
    };
    if asked.steps {
        let schedule = asked.schedule.as_ref().map(|name| {
            (
                fs::read(name).expect("a schedule"),
                asked.way.seats.unwrap_or(4),
            )
        });
        return steps::run(asked.way.levels, asked.times, schedule, || texts_of(&asked));
    }
    let Some((texts, usual)) = texts_of(&asked) else {
        return usage();
    };
    place(&texts, asked.way, asked.out.unwrap_or(usual))
}

fn place(texts: &Texts, way: Way, out: String) -> ExitCode {
    let design = join(&read(texts));
    let network = match network(&design).and_then(|made| reach(&made).map(|()| made)) {
        Ok(network) => network,
        Err(fault) => return refused(&refusal_of(&design, fault)),
    };
    let placed = solve_all(&network, &design, &way);
    let (segments, places) = match places_of(&design, &network, &placed) {
        Ok(places) => places,
        Err(fault) => return refused(&no_room(&design, fault)),
    };
    let corners = corners(&design, &segments, &places);
    let placement = placement_text(&design, &corners);
    let wire = wire_length(&design, &corners, threads());
    if fs::write(out, placement).is_err() {
        return ExitCode::from(4);
    }
    let report = report_text(&design, way.levels, placed.gap, wire);
    match io::stdout().write_all(&report) {
        Ok(()) => ExitCode::SUCCESS,
        Err(_) => ExitCode::from(4),
    }
}
