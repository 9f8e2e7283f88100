//! Houses of full size, of every shape that is easy or hard for a search.

use crate::edges::{comb, line, ring, tapped_rings, tree, Edges, Random};

const FULL: usize = 4096;
const LONGEST: usize = 100_000;

pub struct House {
    pub name: &'static str,
    pub vertices: usize,
    pub ends: Vec<u16>,
    pub lengths: Vec<u32>,
}

impl House {
    fn new(name: &'static str, vertices: usize, edges: Edges, longest: usize, random: &mut Random) -> Self {
        let ends = edges.iter().flat_map(|&(a, b)| [a as u16, b as u16]).collect();
        let lengths = edges.iter().map(|_| 1 + random.below(longest) as u32).collect();
        House { name, vertices, ends, lengths }
    }
}

fn shuffled_line(n: usize, random: &mut Random) -> Edges {
    let mut vertices: Vec<usize> = (0..n).collect();
    random.shuffle(&mut vertices);
    let mut edges: Edges = vertices.windows(2).map(|pair| (pair[0], pair[1])).collect();
    random.shuffle(&mut edges);
    edges
}

fn star(n: usize) -> Edges {
    (1..n).map(|v| (0, v)).collect()
}

/// A random tree on the vertices from first on, and random edges between them up to a number of edges.
fn random_house(first: usize, n: usize, edges: usize, random: &mut Random) -> Edges {
    let mut all: Edges = tree(n, random).into_iter().map(|(a, b)| (first + a, first + b)).collect();
    while all.len() < edges {
        let (a, b) = (random.below(n), random.below(n));
        if a != b {
            all.push((first + a, first + b));
        }
    }
    all
}

fn grid(width: usize, height: usize) -> Edges {
    let mut edges = Vec::new();
    for v in 0..width * height {
        if v % width > 0 {
            edges.push((v - 1, v));
        }
        if v >= width {
            edges.push((v - width, v));
        }
    }
    edges
}

/// Every two vertices are joined.
fn dense(n: usize) -> Edges {
    let mut edges = star(n);
    edges.extend((1..n).flat_map(|a| (a + 1..n).map(move |b| (a, b))));
    edges
}

pub fn houses(random: &mut Random) -> Vec<House> {
    let mut two = random_house(0, 1500, FULL / 2, random);
    two.extend(random_house(1500, 1500, FULL / 2, random));
    let shapes = [
        ("line", FULL, line(FULL)),
        ("line, shuffled", FULL, shuffled_line(FULL, random)),
        ("ring", FULL, ring(FULL)),
        ("rings of two, tapped", FULL, tapped_rings(FULL)),
        ("comb", FULL, comb(FULL)),
        ("star", FULL, star(FULL)),
        ("random tree", FULL, tree(FULL, random)),
        ("random, 3,000 fittings", 3000, random_house(0, 3000, FULL, random)),
        ("random, 2,048 fittings", 2048, random_house(0, 2048, FULL, random)),
        ("two random, not joined", 3000, two),
        ("grid 45 x 46", 45 * 46, grid(45, 46)),
        ("dense, 91 fittings", 91, dense(91)),
    ];
    let mut all: Vec<House> = shapes.into_iter().map(|(name, n, edges)| House::new(name, n, edges, LONGEST, random)).collect();
    all.push(House::new("grid, all lengths 1", 45 * 46, grid(45, 46), 1, random));
    all
}
