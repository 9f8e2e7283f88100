//! Counting calls by what they were and what they returned.

use std::collections::BTreeMap;
use std::fmt;

use reference::calls::{Answer, NOT_JOINED};
use reference::house::House;
use reference::tally::{Cases, Quotes};

use crate::archive::Call;

#[derive(Default)]
pub struct Tally {
    lists: usize,
    calls: BTreeMap<&'static str, usize>,
    /// By refusal number, 0 for an answer.
    returned: BTreeMap<i32, usize>,
    not_joined: usize,
    cases: Cases,
    quotes: Quotes,
    /// The number of fittings of the largest house.
    largest: usize,
    most_stack: usize,
}

impl Tally {
    /// A list, with the house that it makes unless it stops.
    pub fn count_list(&mut self, house: Option<&House>) {
        self.lists += 1;
        if let Some(house) = house {
            self.cases.count(house);
            self.largest = self.largest.max(house.fittings());
        }
    }

    pub fn count_call(&mut self, call: Call, answer: &Answer, returned: i32) {
        let name = match call {
            Call::Sheet => "sheet",
            Call::Find(_) => "find",
            Call::FindAt(_) => "find_at",
            Call::Distance(..) => "distance",
            Call::Quote(_) => "quote",
        };
        *self.calls.entry(name).or_default() += 1;
        *self.returned.entry(-returned.min(0)).or_default() += 1;
        let measured = matches!(call, Call::Distance(..)) && returned > 0;
        if measured && answer.as_deref() == Ok(&[NOT_JOINED]) {
            self.not_joined += 1;
        }
    }

    /// A quote on a list that did not stop.
    pub fn count_quote(&mut self, answer: &Answer, returned: i32) {
        match answer.as_deref() {
            Ok(&[case, re_hung]) if returned > 0 => self.quotes.count(Ok((case, re_hung))),
            _ => self.quotes.count(Err(returned.unsigned_abs())),
        }
    }

    pub fn count_stack(&mut self, bytes: usize) {
        self.most_stack = self.most_stack.max(bytes);
    }

    pub fn add(&mut self, other: Tally) {
        self.lists += other.lists;
        add_counts(&mut self.calls, other.calls);
        add_counts(&mut self.returned, other.returned);
        self.not_joined += other.not_joined;
        self.cases.add(&other.cases);
        self.quotes.add(&other.quotes);
        self.largest = self.largest.max(other.largest);
        self.count_stack(other.most_stack);
    }

    /// The refusals that no call returned, the cases of landing that no pipe came to, what no quote came
    /// to, and whether no two fittings were found not joined, and no stack was measured.
    pub fn missing(&self) -> Vec<String> {
        let refusals = (1..=9).chain([22, 23, 31]);
        let unseen = refusals.filter(|refusal| !self.returned.contains_key(refusal));
        let mut missing: Vec<String> = unseen.map(|refusal| format!("refusal {refusal}")).collect();
        missing.extend(self.cases.missing());
        missing.extend(self.quotes.missing());
        if self.not_joined == 0 {
            missing.push("not joined".to_string());
        }
        if self.most_stack == 0 {
            missing.push("a stack measured".to_string());
        }
        missing
    }
}

fn add_counts<K: Ord>(counts: &mut BTreeMap<K, usize>, more: BTreeMap<K, usize>) {
    for (key, count) in more {
        *counts.entry(key).or_default() += count;
    }
}

/// One line.
impl fmt::Display for Tally {
    fn fmt(&self, f: &mut fmt::Formatter) -> fmt::Result {
        let calls: usize = self.calls.values().sum();
        write!(f, "{calls} calls on {} lists alike: ", self.lists)?;
        for (name, count) in &self.calls {
            write!(f, "{name} {count}, ")?;
        }
        for (refusal, count) in &self.returned {
            match refusal {
                0 => write!(f, "answered {count}, ")?,
                _ => write!(f, "refusal {refusal}: {count}, ")?,
            }
        }
        write!(f, "not joined: {}, ", self.not_joined)?;
        write!(f, "largest house: {} fittings, ", self.largest)?;
        write!(f, "most stack: {} bytes", self.most_stack)
    }
}
