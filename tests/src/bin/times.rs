//! `times`: lands houses made to return to one fitting often, and prints how often that is beside the
//! bound of document 02, S-12. A bound that is passed ends it with code 1.

use std::process::ExitCode;

use reference::gen::random::Random;
use reference::gen::shapes::{self, Shape};
use reference::house::MOST_PIPES;
use reference::times::Watched;

const HOUSES: [(&str, Shape); 3] = [
    ("split beside it and grown again", shapes::returning),
    (
        "on a ring that merges made, tapped",
        shapes::merges_closed_and_tapped,
    ),
    ("on a line of merges", shapes::balanced_merges),
];

fn main() -> ExitCode {
    let mut kept = true;
    println!("how often one tag is re-hung, of at most so often (a single logarithm):");
    for (name, shape) in HOUSES {
        let (line, within) = measured(shape);
        println!("- {name}: {line}");
        kept &= within;
    }
    if kept {
        return ExitCode::SUCCESS;
    }
    eprintln!("the bound is passed");
    ExitCode::FAILURE
}

/// Houses of one shape, each about twice as large as the one before; and whether all keep the bound.
fn measured(shape: Shape) -> (String, bool) {
    let sizes = (3..).map(|power| 3 << power);
    let houses = sizes.take_while(|&size| size <= MOST_PIPES).map(|size| {
        let layout = shape(&mut Random::new(1), size);
        Watched::of(&layout).expect("none of its pipes is refused")
    });
    let houses: Vec<Watched> = houses.collect();
    let words = houses.iter().map(|house| {
        let pipes = house.house().pipes().len();
        let (most, bound) = (house.most(), house.bound());
        format!(
            "{pipes} pipes {most} of {bound} ({})",
            house.single_logarithm()
        )
    });
    let line = words.collect::<Vec<_>>().join(", ");
    (
        line,
        houses.iter().all(|house| house.most() <= house.bound()),
    )
}
