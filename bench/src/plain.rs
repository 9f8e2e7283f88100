//! The register's algorithm in plain Rust: the same tables and the same walks, with no proof and no checks beyond Rust's own.

#[path = "plain_queries.rs"]
mod queries;

const VERTICES: usize = 4096;
const EDGES: usize = 4096;

pub struct Register {
    degrees: Vec<u16>,
    sides: Vec<[u16; 2]>,
    ends: Vec<[u16; 2]>,
    lengths: Vec<u32>,
    volumes: Vec<u32>,
    labels: Vec<u32>,
    vertices: usize,
    edges: usize,
    blocks: u32,
    pub relabellings: u32,
    /// A ring may stand: one was closed.
    rings: bool,
}

/// A walker stands at a vertex that it reached by an edge.
#[derive(Clone, Copy)]
struct Walker {
    edge: u16,
    at: u16,
}

/// Where a walk ends, its regular vertices, the lengths of the edges behind them, their volumes with those before it (0: unknown), and the
/// least of them and of its home.
struct WalkEnd {
    at: u16,
    inner: u32,
    length: u32,
    volume: u32,
    lowest: u16,
}

impl Register {
    pub fn new() -> Self {
        Register {
            degrees: vec![0; VERTICES],
            sides: vec![[0; 2]; VERTICES],
            ends: vec![[0; 2]; EDGES],
            lengths: vec![0; EDGES],
            volumes: vec![0; EDGES],
            labels: vec![0; VERTICES],
            vertices: 0,
            edges: 0,
            blocks: 0,
            relabellings: 0,
            rings: false,
        }
    }

    /// Lands a list; the number of the refusal that stopped it, or 0.
    pub fn grow(list: &[u8]) -> (Self, u32) {
        let mut register = Register::new();
        let refusal = register.land::<true>(list);
        (register, refusal)
    }

    /// The same without labels: what the sheet and a distance need.
    pub fn record(list: &[u8]) -> (Self, u32) {
        let mut register = Register::new();
        let refusal = register.land::<false>(list);
        (register, refusal)
    }

    /// The sheet's numbers, six a run or ring, by rising name: each is walked once, from its first pipe in rising order.
    pub fn sheet(&self) -> Vec<[u32; 6]> {
        let mut seen = vec![false; self.edges];
        let mut rows = Vec::new();
        for e in 0..self.edges {
            if !seen[e] {
                rows.push(self.row(e as u16, &mut seen));
            }
        }
        rows
    }

    fn row(&self, name: u16, seen: &mut [bool]) -> [u32; 6] {
        let [first, second] = self.ends[usize::from(name)];
        let length = self.lengths[usize::from(name)];
        seen[usize::from(name)] = true;
        let volume = self.volumes[usize::from(name)];
        let on = self.walk_marking(
            Walker {
                edge: name,
                at: second,
            },
            first,
            volume,
            seen,
        );
        if self.is_regular(on.at) {
            let lowest = u32::from(on.lowest);
            return [
                u32::from(name),
                lowest,
                lowest,
                1 + on.inner,
                length + on.length,
                on.volume,
            ];
        }
        let back = self.walk_marking(
            Walker {
                edge: name,
                at: first,
            },
            on.at,
            on.volume,
            seen,
        );
        let (lower, other) = (back.at.min(on.at), back.at.max(on.at));
        let (inner, length) = (back.inner + on.inner, back.length + length + on.length);
        [
            u32::from(name),
            u32::from(lower),
            u32::from(other),
            inner,
            length,
            back.volume,
        ]
    }

    /// A walk to the end of a chain, or round a ring to its home.
    fn walk_marking(
        &self,
        mut w: Walker,
        home: u16,
        mut volume: u32,
        seen: &mut [bool],
    ) -> WalkEnd {
        let (mut inner, mut length, mut lowest) = (0, 0, home);
        while self.is_regular(w.at) && w.at != home {
            lowest = lowest.min(w.at);
            w = self.step(w);
            seen[usize::from(w.edge)] = true;
            inner += 1;
            length += self.lengths[usize::from(w.edge)];
            volume = volume_onto(volume, self.volumes[usize::from(w.edge)]);
        }
        WalkEnd {
            at: w.at,
            inner,
            length,
            volume,
            lowest,
        }
    }

    fn land<const LABELS: bool>(&mut self, list: &[u8]) -> u32 {
        if list.len() < 5 || &list[..3] != b"PNL" || !(1..=2).contains(&list[3]) || list[4] != 0 {
            return 1;
        }
        let size = if list[3] == 1 { 9 } else { 13 };
        let mut at = 5;
        while at < list.len() {
            match self.land_record::<LABELS>(list, at, size) {
                Ok(next) => at = next,
                Err(refusal) => return refusal,
            }
        }
        0
    }

    /// Lands the record at a place of the list, whose edges have so many bytes; gives the place of the next one, or the refusal.
    fn land_record<const LABELS: bool>(
        &mut self,
        list: &[u8],
        at: usize,
        size: usize,
    ) -> Result<usize, u32> {
        match list[at] {
            0x46 if self.vertices == VERTICES => Err(22),
            0x46 => {
                self.vertices += 1;
                Ok(at + 1)
            }
            0x50 if at + size <= list.len() => {
                let word = |i: usize| u16::from_le_bytes([list[i], list[i + 1]]);
                let number = |i: usize| u32::from(word(i)) | u32::from(word(i + 2)) << 16;
                let volume = if size == 13 { number(at + 9) } else { 0 };
                match self.land_edge::<LABELS>(word(at + 1), word(at + 3), number(at + 5), volume) {
                    0 => Ok(at + size),
                    refusal => Err(refusal),
                }
            }
            0x50 => Err(3),
            _ => Err(4),
        }
    }

    fn land_edge<const LABELS: bool>(&mut self, a: u16, b: u16, length: u32, volume: u32) -> u32 {
        if usize::from(a) >= self.vertices || usize::from(b) >= self.vertices {
            return 5;
        }
        if a == b {
            return 6;
        }
        if length == 0 || length > 100_000 {
            return 7;
        }
        if volume > 1_000_000 {
            return 31;
        }
        if self.edges == EDGES {
            return 23;
        }
        let e = self.edges as u16;
        if LABELS {
            self.place(a, b, e);
        } else {
            self.note(a, e);
            self.note(b, e);
            self.raise(a, b);
        }
        self.ends[self.edges] = [a, b];
        self.lengths[self.edges] = length;
        self.volumes[self.edges] = volume;
        self.edges += 1;
        0
    }

    fn place(&mut self, a: u16, b: u16, e: u16) {
        let (da, db) = (self.degrees[usize::from(a)], self.degrees[usize::from(b)]);
        if da == 1 && db == 1 {
            self.merge(a, b, e);
            self.raise(a, b);
        } else {
            if self.rings {
                self.tap_both(a, b);
            }
            self.open(a, e);
            self.open(b, e);
            self.raise(a, b);
            if da == 1 {
                self.extend(a, e);
            } else if db == 1 {
                self.extend(b, e);
            }
        }
    }

    /// The first edge of a vertex, or a later one: at a regular vertex these are its two.
    fn note(&mut self, v: u16, e: u16) {
        let i = usize::from(v);
        let later = usize::from(self.degrees[i] != 0);
        self.sides[i][later] = e;
    }

    fn raise(&mut self, a: u16, b: u16) {
        self.degrees[usize::from(a)] += 1;
        self.degrees[usize::from(b)] += 1;
    }

    fn far(&self, edge: u16, v: u16) -> u16 {
        other(self.ends[usize::from(edge)], v)
    }

    fn turn(&self, edge: u16, v: u16) -> u16 {
        other(self.sides[usize::from(v)], edge)
    }

    fn is_regular(&self, v: u16) -> bool {
        self.degrees[usize::from(v)] == 2
    }

    fn open(&mut self, v: u16, e: u16) {
        let i = usize::from(v);
        match self.degrees[i] {
            0 => self.sides[i] = [e, 0],
            2 => {
                self.sides[i] = [0, 0];
                self.labels[i] = 0;
            }
            _ => {}
        }
    }

    fn put_label(&mut self, v: u16, label: u32, inner: u16, outer: u16, up: bool) {
        let i = usize::from(v);
        let old = self.labels[i];
        if old != 0 && label != 0 && old != label {
            self.relabellings += 1;
        }
        self.labels[i] = label;
        self.sides[i] = if up { [inner, outer] } else { [outer, inner] };
    }

    fn extend(&mut self, x: u16, e: u16) {
        let d = self.sides[usize::from(x)][0];
        let u = self.far(d, x);
        if self.is_regular(u) {
            self.label_beyond(x, u, d, e);
        } else {
            self.blocks += 1;
            self.put_label(x, 8192 * self.blocks, d, e, true);
        }
    }

    /// The leaf x gets the next label beyond its neighbour u, which is regular.
    fn label_beyond(&mut self, x: u16, u: u16, d: u16, e: u16) {
        let up = self.sides[usize::from(u)][0] != d;
        let label = next(self.labels[usize::from(u)], up);
        self.put_label(x, label, d, e, up);
    }

    /// The rings of a and b, if they are regular and lie on rings, become loops; one that they share is a's.
    fn tap_both(&mut self, a: u16, b: u16) {
        let first = self.ring_at(a, b);
        let second = self.ring_at(b, a);
        if let Some((others, shared)) = first {
            if shared {
                // It wears no label after the edge, so it is not relabelled on the way.
                self.labels[usize::from(b)] = 0;
            }
            self.tap(a, others);
        }
        if let Some((others, false)) = second {
            self.tap(b, others);
        }
    }

    /// How many other vertices lie on the ring of v, if v is regular and lies on one, and whether w is among them: two walkers
    /// leave v, one each way, and take turns until one stands at a chain's end or the first is back.
    fn ring_at(&self, v: u16, w: u16) -> Option<(u16, bool)> {
        if !self.is_regular(v) {
            return None;
        }
        let mut x = self.leave_lower(v);
        let mut y = self.step(Walker {
            edge: x.edge,
            at: v,
        });
        let (mut others, mut met) = (0, false);
        while self.is_regular(x.at) && self.is_regular(y.at) {
            if x.at == v {
                return Some((others, met));
            }
            met |= x.at == w;
            x = self.step(x);
            y = self.step(y);
            others += 1;
        }
        None
    }

    /// Labels rise round the ring of v from its neighbour along the lower-numbered of its two edges.
    fn tap(&mut self, v: u16, others: u16) {
        self.blocks += 1;
        let mut label = 8192 * self.blocks;
        let mut w = self.leave_lower(v);
        for _ in 0..others {
            let on = self.turn(w.edge, w.at);
            self.put_label(w.at, label, w.edge, on, true);
            label += 1;
            w = Walker {
                edge: on,
                at: self.far(on, w.at),
            };
        }
    }

    fn leave_lower(&self, v: u16) -> Walker {
        let [low, high] = self.sides[usize::from(v)];
        let edge = low.min(high);
        Walker {
            edge,
            at: self.far(edge, v),
        }
    }

    fn leave(&self, leaf: u16) -> Walker {
        let edge = self.sides[usize::from(leaf)][0];
        Walker {
            edge,
            at: self.far(edge, leaf),
        }
    }

    fn step(&self, w: Walker) -> Walker {
        let edge = self.turn(w.edge, w.at);
        Walker {
            edge,
            at: self.far(edge, w.at),
        }
    }

    /// The chains of the leaves a and b become one, or, if they are one, a ring.
    fn merge(&mut self, a: u16, b: u16, e: u16) {
        let (mut wa, mut wb) = (self.leave(a), self.leave(b));
        let mut steps = 0;
        while self.is_regular(wa.at) && self.is_regular(wb.at) {
            wa = self.step(wa);
            wb = self.step(wb);
            steps += 1;
        }
        if wa.at == b {
            self.close(a, b, e);
        } else if self.is_regular(wb.at) {
            self.join(b, a, e);
        } else if steps > 0 || self.is_regular(wa.at) {
            self.join(a, b, e);
        } else {
            let (da, db) = (self.sides[usize::from(a)][0], self.sides[usize::from(b)][0]);
            self.begin(a, da, b, db, e);
        }
    }

    /// The neighbours a and b are the first regular vertices of their chain or ring.
    fn begin(&mut self, a: u16, before: u16, b: u16, after: u16, between: u16) {
        self.blocks += 1;
        self.put_label(a, 8192 * self.blocks, before, between, true);
        self.put_label(b, 8192 * self.blocks + 1, between, after, true);
    }

    /// The chain of the leaves a and b becomes a ring.
    fn close(&mut self, a: u16, b: u16, e: u16) {
        self.rings = true;
        let (first, second) = (self.leave(a), self.leave(b));
        if first.at == b {
            self.begin(a, e, b, e, first.edge);
        } else {
            self.label_beyond(a, first.at, first.edge, e);
            self.label_beyond(b, second.at, second.edge, e);
        }
    }

    fn join(&mut self, x: u16, y: u16, e: u16) {
        let (dx, dy) = (self.sides[usize::from(x)][0], self.sides[usize::from(y)][0]);
        let u = self.far(dx, x);
        let up = self.sides[usize::from(u)][0] != dx;
        let mut label = next(self.labels[usize::from(u)], up);
        let mut w = self.leave(y);
        self.put_label(x, label, dx, e, up);
        label = next(label, up);
        self.put_label(y, label, e, dy, up);
        while self.is_regular(w.at) {
            label = next(label, up);
            let on = self.turn(w.edge, w.at);
            self.put_label(w.at, label, w.edge, on, up);
            w = Walker {
                edge: on,
                at: self.far(on, w.at),
            };
        }
    }
}

/// The sum of two volumes, unknown where one of them is.
fn volume_onto(one: u32, other: u32) -> u32 {
    if one == 0 || other == 0 {
        0
    } else {
        one + other
    }
}

/// The other one of a pair.
fn other([first, second]: [u16; 2], one: u16) -> u16 {
    if first == one {
        second
    } else {
        first
    }
}

fn next(label: u32, up: bool) -> u32 {
    if up {
        label + 1
    } else {
        label - 1
    }
}
