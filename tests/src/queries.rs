//! Find, distance and sheet (document 01, "What may be called"; document 02, S-2 to S-4 and S-7).

use std::cmp::Reverse;
use std::collections::{BTreeMap, BinaryHeap};

use crate::house::{Fitting, House, Millimetres, Pipe, PipeNumber, Tag};
use crate::refusal::Refusal;
use crate::ring::Ring;
use crate::run::{self, Run};

/// Name, end with the lower number, other end, couplings, length, volume or 0.
pub type Line = [u32; 6];

/// What a find answers: the run or ring, the coupling that wears the tag, and the lengths from there to
/// the low and the high end; in a ring, 0 and the ring's length.
#[derive(Clone, Copy, Debug, PartialEq, Eq)]
pub struct Found {
    pub name: PipeNumber,
    pub coupling: Fitting,
    pub low: Millimetres,
    pub high: Millimetres,
}

/// What is found by a tag.
pub fn find(house: &House, tag: Tag) -> Result<Found, Refusal> {
    find_among(house, &wearers(house), tag)
}

/// The same where it is known who wears each tag in use.
pub fn find_among(house: &House, wearers: &Wearers, tag: Tag) -> Result<Found, Refusal> {
    let &(name, coupling) = wearers.get(&tag).ok_or(Refusal::NoCoupling)?;
    let (low, high) = lengths(house, coupling);
    Ok(Found {
        name,
        coupling,
        low,
        high,
    })
}

/// The tag of a fitting, 0 where it has none, as a number that no fitting has.
pub fn tag_of(house: &House, fitting: Fitting) -> Tag {
    house.tags().get(fitting).copied().unwrap_or(0)
}

/// What is found by a fitting's number, through its tag.
pub fn find_at(house: &House, fitting: Fitting) -> Result<Found, Refusal> {
    find(house, tag_of(house, fitting))
}

/// Document 02, S-3: the runs and rings with couplings by falling lowest tag, up to the one that holds
/// the tag, or all: its name, and how many these are.
pub fn search(house: &House, tag: Tag) -> (Option<PipeNumber>, usize) {
    let (runs, rings) = house.afresh();
    let of_runs = runs.iter().map(|run| (run.name(), run.couplings()));
    let of_rings = rings.iter().map(|ring| (ring.name(), ring.fittings()));
    let mut newest: Vec<(Tag, PipeNumber, Vec<Tag>)> = Vec::new();
    for (name, couplings) in of_runs.chain(of_rings) {
        let tags: Vec<Tag> = couplings.iter().map(|&c| house.tags()[c]).collect();
        if let Some(&lowest) = tags.iter().min() {
            newest.push((lowest, name, tags));
        }
    }
    newest.sort_by_key(|&(lowest, ..)| Reverse(lowest));
    match newest.iter().position(|(.., tags)| tags.contains(&tag)) {
        Some(before) => (Some(newest[before].1), before + 1),
        None => (None, newest.len()),
    }
}

/// For each tag in use, the name of the run or ring whose couplings include it, and the coupling.
pub type Wearers = BTreeMap<Tag, (PipeNumber, Fitting)>;

pub fn wearers(house: &House) -> Wearers {
    let (runs, rings) = house.afresh();
    let of_runs = runs.iter().map(|run| (run.name(), run.couplings()));
    let of_rings = rings.iter().map(|ring| (ring.name(), ring.fittings()));
    let mut wearers = BTreeMap::new();
    for (name, couplings) in of_runs.chain(of_rings) {
        let worn = couplings
            .iter()
            .map(|&coupling| (house.tags()[coupling], (name, coupling)));
        wearers.extend(worn);
    }
    wearers
}

/// The lengths from a coupling to its run's low and high end; in a ring, 0 and the ring's length.
fn lengths(house: &House, coupling: Fitting) -> (Millimetres, Millimetres) {
    if let Some(ring) = house.ring_through(coupling) {
        return (0, ring.length(house.pipes()));
    }
    let run = house.run_through(coupling);
    run.and_then(|run| run.reach(coupling, house.pipes()))
        .expect("a coupling lies on a run or a ring")
}

/// The least length between two fittings, or nothing where they are not joined.
pub fn distance(house: &House, from: Fitting, to: Fitting) -> Result<Option<Millimetres>, Refusal> {
    Distances::from(house, from)?.to(to)
}

/// The least lengths from one fitting, worked out over the pipes and over the runs.
pub struct Distances<'a> {
    house: &'a House,
    from: Fitting,
    /// To every fitting.
    over_pipes: Vec<Option<Millimetres>>,
    /// To every junction, over whole runs.
    over_runs: Vec<Option<Millimetres>>,
}

impl<'a> Distances<'a> {
    pub fn from(house: &'a House, from: Fitting) -> Result<Self, Refusal> {
        landed(house, from)?;
        Ok(Distances {
            house,
            from,
            over_pipes: least_over_pipes(house, from),
            over_runs: least_over_runs(house, &doors(house, from)),
        })
    }

    /// The least length to a fitting. Both ways of working it out must agree.
    pub fn to(&self, to: Fitting) -> Result<Option<Millimetres>, Refusal> {
        landed(self.house, to)?;
        let over_pipes = self.over_pipes[to];
        assert_eq!(over_pipes, self.to_over_runs(to), "{} to {to}", self.from);
        Ok(over_pipes)
    }

    /// The least length of a way that uses whole runs, a coupling's two reaches, and the stretch
    /// between two couplings of one run; inside a ring its stretches alone, either way round.
    fn to_over_runs(&self, to: Fitting) -> Option<Millimetres> {
        if self.from == to {
            return Some(0);
        }
        let arrivals = doors(self.house, to)
            .into_iter()
            .filter_map(|(junction, reach)| Some(self.over_runs[junction]? + reach));
        arrivals.chain(stretches(self.house, self.from, to)).min()
    }
}

/// The runs and rings by rising name. Those kept with their sides must be those that the pipes make.
pub fn sheet(house: &House) -> Vec<Line> {
    let (runs, rings) = house.afresh();
    assert_eq!(sorted_runs(house.runs()), sorted_runs(&runs), "runs");
    assert_eq!(sorted_rings(house.rings()), sorted_rings(&rings), "rings");
    sheet_of(house.fittings(), house.pipes())
}

/// The same of so many fittings and these pipes alone.
pub fn sheet_of(fittings: usize, pipes: &[Pipe]) -> Vec<Line> {
    let (runs, rings) = run::afresh(fittings, pipes);
    let of_runs = runs.iter().map(|run| line(pipes, run));
    let of_rings = rings.iter().map(|ring| ring_line(pipes, ring));
    let mut lines: Vec<Line> = of_runs.chain(of_rings).collect();
    lines.sort_unstable();
    lines
}

fn landed(house: &House, fitting: Fitting) -> Result<(), Refusal> {
    if fitting < house.fittings() {
        Ok(())
    } else {
        Err(Refusal::NotLanded)
    }
}

fn line(pipes: &[Pipe], run: &Run) -> Line {
    [
        number(run.name()),
        number(run.low().min(run.high())),
        number(run.low().max(run.high())),
        number(run.couplings().len()),
        run.length(pipes),
        run.volume(pipes),
    ]
}

/// A ring's lowest fitting stands as both ends, and all its fittings are couplings.
fn ring_line(pipes: &[Pipe], ring: &Ring) -> Line {
    [
        number(ring.name()),
        number(ring.lowest_fitting()),
        number(ring.lowest_fitting()),
        number(ring.fittings().len()),
        ring.length(pipes),
        ring.volume(pipes),
    ]
}

fn number(count: usize) -> u32 {
    u32::try_from(count).expect("at most 4,096")
}

fn sorted_runs(runs: &[Run]) -> Vec<Run> {
    let runs = runs.iter().cloned();
    let mut runs: Vec<Run> = runs.map(Run::without_sides).collect();
    runs.sort();
    runs
}

fn sorted_rings(rings: &[Ring]) -> Vec<Ring> {
    let rings = rings.iter().cloned();
    let mut rings: Vec<Ring> = rings.map(Ring::without_sides).collect();
    rings.sort();
    rings
}

/// The least lengths over pipes from one fitting to every fitting, nearest first (Dijkstra).
fn least_over_pipes(house: &House, from: Fitting) -> Vec<Option<Millimetres>> {
    let pipes_at = run::pipes_at(house.fittings(), house.pipes());
    let mut least = vec![None; house.fittings()];
    let mut ahead = BinaryHeap::from([Reverse((0, from))]);
    while let Some(Reverse((length, fitting))) = ahead.pop() {
        if least[fitting].is_none() {
            least[fitting] = Some(length);
            let pipes = pipes_at[fitting].iter().map(|&pipe| house.pipes()[pipe]);
            ahead.extend(pipes.map(|pipe| Reverse((length + pipe.length, pipe.far_end(fitting)))));
        }
    }
    least
}

/// The junctions at which a way over the runs begins or ends, with the lengths to them: a
/// coupling's two reaches, or the junction itself. From a ring none is reached.
fn doors(house: &House, fitting: Fitting) -> Vec<(Fitting, Millimetres)> {
    if house.ring_through(fitting).is_some() {
        return vec![];
    }
    let on_run = house.run_through(fitting);
    on_run.map_or(vec![(fitting, 0)], |run| {
        let reach = run.reach(fitting, house.pipes());
        let (low, high) = reach.expect("the run was found by this coupling");
        vec![(run.low(), low), (run.high(), high)]
    })
}

/// The lengths between two couplings along one run, or along one ring either way round.
fn stretches(house: &House, from: Fitting, to: Fitting) -> Vec<Millimetres> {
    let on_ring = house.ring_through(from);
    let ways = on_ring.and_then(|ring| ring.ways(from, to, house.pipes()));
    let on_run = house.run_through(from).and_then(|run| {
        let (one, _) = run.reach(from, house.pipes())?;
        let (other, _) = run.reach(to, house.pipes())?;
        Some(one.abs_diff(other))
    });
    ways.into_iter().flatten().chain(on_run).collect()
}

/// The least lengths over whole runs from any of the doors to every junction, by going over all
/// runs until nothing gets shorter (Bellman and Ford).
fn least_over_runs(house: &House, doors: &[(Fitting, Millimetres)]) -> Vec<Option<Millimetres>> {
    let mut least = vec![None; house.fittings()];
    for &(junction, reach) in doors {
        shorten(&mut least[junction], Some(reach));
    }
    let lengths: Vec<Millimetres> = house
        .runs()
        .iter()
        .map(|run| run.length(house.pipes()))
        .collect();
    let mut shorter = true;
    while shorter {
        shorter = false;
        for (run, length) in house.runs().iter().zip(&lengths) {
            let (low, high) = (run.low(), run.high());
            let upwards = least[low].map(|there| there + length);
            shorter |= shorten(&mut least[high], upwards);
            let downwards = least[high].map(|there| there + length);
            shorter |= shorten(&mut least[low], downwards);
        }
    }
    least
}

/// Takes over a shorter length; whether it was shorter.
fn shorten(least: &mut Option<Millimetres>, length: Option<Millimetres>) -> bool {
    let shorter = match (*least, length) {
        (Some(old), Some(new)) => new < old,
        (None, Some(_)) => true,
        (_, None) => false,
    };
    if shorter {
        *least = length;
    }
    shorter
}
