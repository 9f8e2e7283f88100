//! Find and distance on the plain register, by the same walks and by Dijkstra's search with the standard library's heap.

use super::{Register, Walker};
use std::cmp::Reverse;
use std::collections::BinaryHeap;

/// The end of a list of edge ends.
const NO_END: u16 = u16::MAX;

impl Register {
    pub fn vertices(&self) -> usize {
        self.vertices
    }

    /// The regular vertex with the greatest number, and its label.
    pub fn last_regular(&self) -> Option<(u32, u32)> {
        let last = self.labels.iter().rposition(|&label| label != 0)?;
        Some((last as u32, self.labels[last]))
    }

    /// The lowest and the highest label that is worn, or 0.
    pub fn tags(&self) -> (u32, u32) {
        let worn = || self.labels.iter().copied().filter(|&label| label != 0);
        (worn().min().unwrap_or(0), worn().max().unwrap_or(0))
    }

    /// The name of the chain or ring of the vertex that wears a label, the vertex, and the lengths from it to the low and to the high
    /// end of its chain; in a ring 0 and its length.
    pub fn find(&self, label: u32) -> Result<[u32; 4], u32> {
        if label == 0 {
            return Err(8);
        }
        let wearer = self
            .labels
            .iter()
            .position(|&worn| worn == label)
            .ok_or(8u32)? as u16;
        Ok(self.found_at(wearer))
    }

    /// The same as document 02, S-3, asks for it: the chains and rings with labels are taken by falling lowest label.
    pub fn find_from_newest(&self, label: u32) -> Result<[u32; 4], u32> {
        let mut lowest: Vec<u16> = (0..self.vertices as u16)
            .filter(|&v| self.is_lowest(v))
            .collect();
        lowest.sort_unstable_by_key(|&v| Reverse(self.labels[usize::from(v)]));
        let wearer = lowest
            .into_iter()
            .find_map(|v| self.wearer_above(v, label))
            .ok_or(8u32)?;
        Ok(self.found_at(wearer))
    }

    /// Whether v wears the lowest label of its chain or ring.
    fn is_lowest(&self, v: u16) -> bool {
        let label = |v: u16| self.labels[usize::from(v)];
        let below = || label(self.far(self.sides[usize::from(v)][0], v));
        label(v) != 0 && (below() == 0 || label(v) < below())
    }

    /// The vertex that wears a label, on the way up from the lowest one.
    fn wearer_above(&self, lowest: u16, label: u32) -> Option<u16> {
        let high = self.sides[usize::from(lowest)][1];
        let mut w = Walker {
            edge: high,
            at: self.far(high, lowest),
        };
        if self.labels[usize::from(lowest)] == label {
            return Some(lowest);
        }
        while self.is_regular(w.at) && w.at != lowest {
            if self.labels[usize::from(w.at)] == label {
                return Some(w.at);
            }
            w = self.step(w);
        }
        None
    }

    /// What find tells of the vertex that wears the label.
    fn found_at(&self, wearer: u16) -> [u32; 4] {
        let [low, high] = self.sides[usize::from(wearer)];
        let (at, below, least) = self.walk(wearer, low);
        if at == wearer {
            return [u32::from(least), u32::from(wearer), 0, below];
        }
        let (_, above, other) = self.walk(wearer, high);
        [u32::from(least.min(other)), u32::from(wearer), below, above]
    }

    /// The same by a vertex, through its label.
    pub fn find_at(&self, vertex: u32) -> Result<[u32; 4], u32> {
        self.find(self.labels.get(vertex as usize).copied().unwrap_or(0))
    }

    /// From a vertex along one of its edges to the end of that chain, or round a ring and back: where that is, the length of the
    /// way, and the lowest edge number on it.
    fn walk(&self, v: u16, edge: u16) -> (u16, u32, u16) {
        let mut w = Walker {
            edge,
            at: self.far(edge, v),
        };
        let (mut length, mut lowest) = (self.lengths[usize::from(edge)], edge);
        while self.is_regular(w.at) && w.at != v {
            w = self.step(w);
            length += self.lengths[usize::from(w.edge)];
            lowest = lowest.min(w.edge);
        }
        (w.at, length, lowest)
    }

    fn landed(&self, vertex: u32) -> Result<u16, u32> {
        if (vertex as usize) < self.vertices {
            Ok(vertex as u16)
        } else {
            Err(5)
        }
    }

    /// The least length of a way between two vertices, searched from the second; `u32::MAX` where there is none.
    pub fn distance(&self, from: u32, to: u32) -> Result<u32, u32> {
        let (from, to) = (self.landed(from)?, self.landed(to)?);
        let (heads, next) = self.ends_by_vertex();
        let mut distances = vec![u32::MAX; self.vertices];
        let mut ahead = BinaryHeap::from([Reverse((0, to))]);
        distances[usize::from(to)] = 0;
        while let Some(Reverse((distance, v))) = ahead.pop() {
            if v == from {
                return Ok(distance);
            }
            if distance > distances[usize::from(v)] {
                continue;
            }
            let mut k = heads[usize::from(v)];
            while k != NO_END {
                let far = self.far(k / 2, v);
                let sum = distance + self.lengths[usize::from(k / 2)];
                if sum < distances[usize::from(far)] {
                    distances[usize::from(far)] = sum;
                    ahead.push(Reverse((sum, far)));
                }
                k = next[usize::from(k)];
            }
        }
        Ok(u32::MAX)
    }

    /// For each vertex the list of its edge ends, by the first of them and the next of each.
    fn ends_by_vertex(&self) -> (Vec<u16>, Vec<u16>) {
        let mut heads = vec![NO_END; self.vertices];
        let mut next = vec![NO_END; 2 * self.edges];
        for (k, &v) in self.ends[..self.edges].iter().flatten().enumerate() {
            next[k] = heads[usize::from(v)];
            heads[usize::from(v)] = k as u16;
        }
        (heads, next)
    }
}
