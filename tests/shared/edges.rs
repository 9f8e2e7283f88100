//! The edges of simple houses, and the random numbers that they are drawn with (xorshift).

pub type Edges = Vec<(usize, usize)>;

pub struct Random(pub u64);

impl Random {
    pub fn below(&mut self, n: usize) -> usize {
        self.0 ^= self.0 << 13;
        self.0 ^= self.0 >> 7;
        self.0 ^= self.0 << 17;
        (self.0 % n as u64) as usize
    }

    pub fn shuffle<T>(&mut self, xs: &mut [T]) {
        for i in (1..xs.len()).rev() {
            xs.swap(i, self.below(i + 1));
        }
    }
}

pub fn line(n: usize) -> Edges {
    (1..n).map(|v| (v - 1, v)).collect()
}

/// A line of half the vertices, and one more at each of them.
pub fn comb(n: usize) -> Edges {
    let mut edges = line(n / 2);
    edges.extend((0..n / 2).map(|v| (v, n / 2 + v)));
    edges
}

/// A line whose ends are joined: a ring main.
pub fn ring(n: usize) -> Edges {
    let mut edges = line(n);
    edges.push((n - 1, 0));
    edges
}

/// Rings of two edges, each closed and then tapped by a third vertex.
pub fn tapped_rings(n: usize) -> Edges {
    (0..n / 3)
        .flat_map(|i| [(3 * i, 3 * i + 1), (3 * i + 1, 3 * i), (3 * i, 3 * i + 2)])
        .collect()
}

pub fn tree(n: usize, random: &mut Random) -> Edges {
    (1..n).map(|v| (random.below(v), v)).collect()
}
