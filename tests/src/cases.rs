//! What landing a pipe comes to, so that it can be counted that everything comes up.

use std::cmp::Ordering;
use std::fmt;

use crate::house::{Fitting, House, Pipe, Standing};

/// Where a fitting of a pipe lies before it.
#[derive(Clone, Copy, Debug, PartialEq, Eq, PartialOrd, Ord)]
pub enum Place {
    /// A junction that is not free.
    Junction,
    /// The free end of a run without couplings.
    BareEnd,
    /// The free end of a run with couplings.
    End,
    /// A coupling on a run.
    Run,
    /// A coupling on a ring.
    Ring,
}

/// How the runs or rings of a pipe's two fittings lie to each other.
#[derive(Clone, Copy, Debug, PartialEq, Eq, PartialOrd, Ord)]
pub enum Relation {
    Apart,
    /// It is one run, or one ring.
    Same,
    /// Two runs with couplings are merged, and the first has more of them.
    FirstLonger,
    SecondLonger,
}

/// A pipe's case, told apart by everything that decides the tags it hangs.
#[derive(Clone, Copy, Debug, PartialEq, Eq, PartialOrd, Ord)]
pub struct Case {
    places: [Place; 2],
    relation: Relation,
}

const PLACES: [Place; 5] = [
    Place::Junction,
    Place::BareEnd,
    Place::End,
    Place::Run,
    Place::Ring,
];

impl Case {
    /// The case of a pipe that is not landed yet.
    pub fn of(house: &House, pipe: &Pipe) -> Self {
        let fittings = [pipe.first, pipe.second];
        let places = fittings.map(|fitting| place(house, fitting));
        Case {
            places,
            relation: relation(house, fittings, places),
        }
    }

    /// Every case, with each number of births that it can come with.
    pub fn all() -> Vec<(Case, u32)> {
        let pairs = PLACES.map(|first| PLACES.map(|second| [first, second]));
        let cases = pairs.into_iter().flatten().flat_map(|places| {
            let relations = relations(places).into_iter();
            relations.map(move |relation| Case { places, relation })
        });
        cases
            .flat_map(|case| case.births().into_iter().map(move |births| (case, births)))
            .collect()
    }

    /// Each tapped ring is a birth, and so is a run that gets its first couplings. A free end's own
    /// run is split with or without couplings left on the end's side.
    fn births(self) -> Vec<u32> {
        use Place::{BareEnd, End, Ring, Run};
        match (self.places, self.relation) {
            ([End, Run] | [Run, End], Relation::Same) => vec![0, 1],
            (_, Relation::Same) => vec![u32::from([Ring, BareEnd].contains(&self.places[0]))],
            ([BareEnd, End] | [End, BareEnd], _) => vec![0],
            ([BareEnd, BareEnd], _) => vec![1],
            (places, _) => {
                let births = places
                    .iter()
                    .filter(|place| [Ring, BareEnd].contains(place));
                vec![births.map(|_| 1).sum()]
            }
        }
    }
}

/// How two fittings in such places can lie to each other.
fn relations(places: [Place; 2]) -> Vec<Relation> {
    use Place::{BareEnd, End, Ring, Run};
    use Relation::{Apart, FirstLonger, Same, SecondLonger};
    match places {
        [End, End] => vec![Apart, Same, FirstLonger, SecondLonger],
        [BareEnd, BareEnd] | [End, Run] | [Run, End] | [Run, Run] | [Ring, Ring] => {
            vec![Apart, Same]
        }
        _ => vec![Apart],
    }
}

fn place(house: &House, fitting: Fitting) -> Place {
    match house.standing(fitting) {
        Standing::Settled => Place::Junction,
        Standing::Coupling if house.ring_through(fitting).is_some() => Place::Ring,
        Standing::Coupling => Place::Run,
        Standing::Free => {
            let run = house.run_from(fitting).expect("a free fitting ends a run");
            if run.couplings().is_empty() {
                Place::BareEnd
            } else {
                Place::End
            }
        }
    }
}

fn relation(house: &House, fittings: [Fitting; 2], places: [Place; 2]) -> Relation {
    let names = fittings.map(|fitting| name(house, fitting));
    if names[0].is_some() && names[0] == names[1] {
        return Relation::Same;
    }
    if places != [Place::End; 2] {
        return Relation::Apart;
    }
    let couplings = fittings.map(|end| house.run_from(end).map_or(0, |run| run.couplings().len()));
    match couplings[0].cmp(&couplings[1]) {
        Ordering::Less => Relation::SecondLonger,
        Ordering::Equal => Relation::Apart,
        Ordering::Greater => Relation::FirstLonger,
    }
}

/// The name of the run or ring that a free end or a coupling belongs to.
fn name(house: &House, fitting: Fitting) -> Option<usize> {
    match house.standing(fitting) {
        Standing::Settled => None,
        Standing::Free => house.run_from(fitting).map(|run| run.name()),
        Standing::Coupling => {
            let on_run = house.run_through(fitting).map(|run| run.name());
            on_run.or(house.ring_through(fitting).map(|ring| ring.name()))
        }
    }
}

impl fmt::Display for Case {
    fn fmt(&self, f: &mut fmt::Formatter) -> fmt::Result {
        let [first, second] = self.places;
        write!(f, "{first:?} to {second:?} {:?}", self.relation)
    }
}
