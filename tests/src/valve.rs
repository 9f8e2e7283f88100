//! Which recipe is at the valve (document 02, S-13), from every record that was ever taken: nothing is
//! dropped, and nothing summed up beforehand.

/// The records of a window, and so its slots.
pub const MINUTES: usize = 1_440;

/// The ml of the largest record.
pub const MOST: u32 = 1_000_000;

/// What a call from C returns for "older than the window".
pub const OLDER: i32 = 65_536;

#[derive(Clone, Copy, Debug, PartialEq, Eq)]
pub struct Record {
    pub recipe: u16,
    pub amount: u32,
}

/// A window as it is lent: the two tables, the next slot, the stated sum.
#[derive(Clone, Debug, PartialEq, Eq)]
pub struct Window {
    pub recipes: Vec<u16>,
    pub amounts: Vec<u32>,
    pub next: u16,
    pub sum: u32,
}

/// All records that were taken, the oldest first.
#[derive(Clone, Default)]
pub struct Mixer {
    records: Vec<Record>,
}

impl Mixer {
    /// Whether the record was taken: 40 otherwise.
    pub fn arrive(&mut self, record: Record) -> bool {
        let taken = record.amount <= MOST;
        if taken {
            self.records.push(record);
        }
        taken
    }

    fn latest(&self) -> &[Record] {
        &self.records[self.records.len().saturating_sub(MINUTES)..]
    }

    /// The recipe at a valve with so many ml in front of it.
    pub fn recipe(&self, volume: u32) -> i32 {
        let number = u64::from(volume) + 1;
        let mut counted = 0;
        for record in self.latest().iter().rev() {
            counted += u64::from(record.amount);
            if counted >= number {
                return i32::from(record.recipe);
            }
        }
        OLDER
    }

    /// The ml numbers, counted back, at which an answer may change, and their neighbours.
    pub fn edges(&self) -> Vec<u32> {
        let mut edges = vec![0, 1, u32::MAX];
        let mut counted = 0;
        for record in self.latest().iter().rev() {
            counted += record.amount;
            edges.extend([counted.saturating_sub(1), counted, counted + 1]);
        }
        edges
    }

    /// Record number k (from 0) lies in slot k modulo 1,440 until the next one comes there.
    pub fn window(&self) -> Window {
        let mut window = Window {
            recipes: vec![0; MINUTES],
            amounts: vec![0; MINUTES],
            next: (self.records.len() % MINUTES) as u16,
            sum: self.latest().iter().map(|record| record.amount).sum(),
        };
        for (number, record) in self.records.iter().enumerate() {
            window.recipes[number % MINUTES] = record.recipe;
            window.amounts[number % MINUTES] = record.amount;
        }
        window
    }
}

impl Window {
    /// 25, 21, or nothing: 21 unless the window's own records, as arrivals from empty, leave it.
    pub fn refusal(&self) -> Option<i32> {
        if self.recipes.len() != MINUTES || self.amounts.len() != MINUTES {
            return Some(25);
        }
        let slots = (0..MINUTES).chain(0..usize::from(self.next).min(MINUTES));
        let mut mixer = Mixer::default();
        for slot in slots {
            mixer.arrive(Record {
                recipe: self.recipes[slot],
                amount: self.amounts[slot],
            });
        }
        (mixer.window() != *self).then_some(21)
    }
}

#[cfg(test)]
mod tests {
    use super::*;

    fn after(records: &[(u16, u32)]) -> Mixer {
        let mut mixer = Mixer::default();
        for &(recipe, amount) in records {
            assert!(mixer.arrive(Record { recipe, amount }));
        }
        mixer
    }

    #[test]
    fn the_ml_after_so_many() {
        let mixer = after(&[(9, 5), (8, 0), (7, 10)]);
        let answers: Vec<i32> = (0..17).map(|volume| mixer.recipe(volume)).collect();
        let mut expected = vec![7; 10];
        expected.extend([9; 5]);
        expected.extend([OLDER; 2]);
        assert_eq!(answers, expected);
    }

    /// The same, with each ml written down.
    #[test]
    fn ml_by_ml() {
        let records: Vec<(u16, u32)> = (0..3_000).map(|k| (k as u16, k * 7 % 5)).collect();
        let mixer = after(&records);
        let mut each = Vec::new();
        for &(recipe, amount) in records.iter().rev().take(MINUTES) {
            each.extend(vec![i32::from(recipe); amount as usize]);
        }
        each.push(OLDER);
        for (volume, &recipe) in each.iter().enumerate() {
            assert_eq!(mixer.recipe(volume as u32), recipe);
        }
    }

    #[test]
    fn the_1441st_record_pushes_out_the_first() {
        let mut mixer = after(&[(9, 5)]);
        for _ in 1..MINUTES {
            assert_eq!(mixer.recipe(4), 9);
            mixer.arrive(Record {
                recipe: 8,
                amount: 0,
            });
        }
        assert_eq!((mixer.recipe(4), mixer.window().sum), (9, 5));
        mixer.arrive(Record {
            recipe: 8,
            amount: 0,
        });
        assert_eq!((mixer.recipe(0), mixer.window().sum), (OLDER, 0));
        assert_eq!(mixer.window().next, 1);
    }

    #[test]
    fn windows_that_records_leave_or_not() {
        let mut mixer = after(&[(9, MOST), (8, 0)]);
        assert!(!mixer.arrive(Record {
            recipe: 1,
            amount: MOST + 1
        }));
        let window = mixer.window();
        assert_eq!(window.refusal(), None);
        assert_eq!(
            Window {
                next: 1,
                ..window.clone()
            }
            .refusal(),
            None
        );
        assert_eq!(
            Window {
                next: 1_440,
                ..window.clone()
            }
            .refusal(),
            Some(21)
        );
        assert_eq!(
            Window {
                sum: MOST - 1,
                ..window.clone()
            }
            .refusal(),
            Some(21)
        );
        let mut larger = window.clone();
        (larger.amounts[0], larger.sum) = (MOST + 1, MOST + 1);
        assert_eq!(larger.refusal(), Some(21));
        assert_eq!(
            Window {
                recipes: vec![0; 1_439],
                ..larger
            }
            .refusal(),
            Some(25)
        );
    }
}
