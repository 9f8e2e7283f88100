//! When a change of recipe can go through (document 02, S-8), by trying each minute of two weeks: every minute knows the window that it
//! lies in, if any, and a transit is followed minute by minute.

/// The minutes of a week.
pub const WEEK: usize = 10_080;

/// The most windows.
pub const WINDOWS: usize = 32;

/// The largest flow.
pub const MOST_FLOW: u32 = 1_000_000;

/// What a call from C returns for "none" and for "unknown".
pub const NONE: i32 = 20_160;
pub const UNKNOWN: i32 = 20_161;

/// The windows of a slice of numbers, two each; a last number alone has no end, and 0 stands for it.
fn windows_in(numbers: &[u16]) -> Vec<(usize, usize)> {
    let end = |window: &[u16]| window.get(1).copied().unwrap_or(0);
    let window = |window: &[u16]| (window[0].into(), end(window).into());
    numbers.chunks(2).map(window).collect()
}

fn refusal(windows: &[(usize, usize)], flow: u32, minute: u32) -> Option<i32> {
    if !(1..=MOST_FLOW).contains(&flow) || minute as usize >= WEEK || windows.len() > WINDOWS {
        return Some(-34);
    }
    let wrong = |&(start, end): &(usize, usize)| start >= end || end > WEEK;
    let early = |pair: &[(usize, usize)]| pair[1].0 < pair[0].1;
    (windows.iter().any(wrong) || windows.windows(2).any(early)).then_some(-35)
}

/// For each minute of the two weeks, the window in which it lies, by number, those of the next week counted on.
fn marks(windows: &[(usize, usize)]) -> Vec<Option<usize>> {
    let mut marks = vec![None; 2 * WEEK];
    for week in 0..2 {
        for (number, &(start, end)) in windows.iter().enumerate() {
            for minute in start..end {
                marks[week * WEEK + minute] = Some(week * windows.len() + number);
            }
        }
    }
    marks
}

/// Whether so many minutes from this one on lie in one window.
fn lies_in_one(marks: &[Option<usize>], minute: usize, minutes: u64) -> bool {
    let window = marks[minute];
    let same = marks[minute..]
        .iter()
        .take_while(|&&mark| mark == window)
        .take(usize::try_from(minutes).unwrap_or(usize::MAX));
    window.is_some() && same.count() as u64 == minutes
}

/// What the call answers.
pub fn plan(numbers: &[u16], volume: u32, flow: u32, minute: u32) -> i32 {
    let windows = windows_in(numbers);
    if let Some(refusal) = refusal(&windows, flow, minute) {
        return refusal;
    }
    if volume == 0 {
        return UNKNOWN;
    }
    let minutes = u64::from(volume).div_ceil(flow.into());
    let marks = marks(&windows);
    (minute as usize..2 * WEEK)
        .find(|&minute| lies_in_one(&marks, minute, minutes))
        .map_or(NONE, |minute| minute as i32)
}

#[cfg(test)]
mod tests {
    use super::*;

    const TWO: [u16; 4] = [60, 120, 200, 260];

    #[test]
    fn this_week_and_the_next() {
        assert_eq!(plan(&TWO, 1_000, 50, 0), 60);
        assert_eq!(plan(&TWO, 1_000, 50, 100), 100);
        assert_eq!(plan(&TWO, 1_000, 50, 101), 200);
        assert_eq!(plan(&TWO, 1_000, 50, 241), 10_140);
        assert_eq!(plan(&[0, 10_080], 10_080, 1, 1), 10_080);
    }

    #[test]
    fn none_and_unknown() {
        assert_eq!(plan(&TWO, 60, 1, 10_079), 10_140);
        assert_eq!(plan(&TWO, 61, 1, 0), NONE);
        assert_eq!(plan(&[], 1, 1, 0), NONE);
        assert_eq!(plan(&[], 0, 1, 0), UNKNOWN);
        assert_eq!(plan(&[5, 5], 0, 1, 0), -35);
        assert_eq!(plan(&[5, 5], 0, 0, 0), -34);
    }

    #[test]
    fn windows_that_touch_stay_two() {
        assert_eq!(plan(&[0, 10, 10, 20], 15, 1, 0), NONE);
        assert_eq!(plan(&[0, 10, 10_070, 10_080], 15, 1, 10_070), NONE);
        assert_eq!(plan(&[0, 10, 10, 20], 10, 1, 1), 10);
    }

    #[test]
    fn refused_windows() {
        for numbers in [
            &[7, 7][..],
            &[8, 7],
            &[7, 10_081],
            &[0, 10, 9, 20],
            &[60, 120, 200],
        ] {
            assert_eq!(plan(numbers, 1, 1, 0), -35);
        }
        assert_eq!(plan(&[0; 64], 1, 1, 0), -35);
        assert_eq!(plan(&[0; 65], 1, 1, 0), -34);
    }
}
