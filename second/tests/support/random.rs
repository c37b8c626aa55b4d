//! A small generator of random numbers, and the size and seed of a test.

use std::ops::RangeInclusive;

/// The seed when none is asked for: the default run is the same every time.
const SEED: u64 = 20_090_413;

/// A long run does so many times the work.
const LONG: u64 = 25;

/// The seed of this run, from `SKRZYPOLOT_SEED` if that is set.
pub fn seed() -> u64 {
    match std::env::var("SKRZYPOLOT_SEED") {
        Ok(text) => text.parse().expect("SKRZYPOLOT_SEED is a number"),
        Err(_) => SEED,
    }
}

/// The number of cases, more of them with `SKRZYPOLOT_LONG=1`.
pub fn cases(usual: u64) -> u64 {
    match std::env::var("SKRZYPOLOT_LONG") {
        Ok(text) if text == "1" => usual * LONG,
        _ => usual,
    }
}

/// Runs a test case by case, each with a generator of its own, and names seed and case when one fails.
pub fn each_case(usual: u64, mut test: impl FnMut(&mut Random)) {
    for case in 0..cases(usual) {
        let _named = Named { case };
        test(&mut Random::new(seed(), case));
    }
}

/// Speaks up only when it is dropped while a panic passes by.
struct Named {
    case: u64,
}

impl Drop for Named {
    fn drop(&mut self) {
        if std::thread::panicking() {
            eprintln!(
                "failed with SKRZYPOLOT_SEED={} in case {}",
                seed(),
                self.case
            );
        }
    }
}

/// Splitmix: a counter in large strides, its bits well stirred.
pub struct Random {
    counter: u64,
}

impl Random {
    pub fn new(seed: u64, case: u64) -> Random {
        let mut random = Random { counter: seed };
        random.counter = random.next() ^ case.wrapping_mul(0xd1b5_4a32_d192_ed03);
        random
    }

    pub fn next(&mut self) -> u64 {
        self.counter = self.counter.wrapping_add(0x9e37_79b9_7f4a_7c15);
        let mut word = self.counter;
        word = (word ^ (word >> 30)).wrapping_mul(0xbf58_476d_1ce4_e5b9);
        word = (word ^ (word >> 27)).wrapping_mul(0x94d0_49bb_1331_11eb);
        word ^ (word >> 31)
    }

    /// A number below the count, which is at least 1.
    pub fn below(&mut self, count: usize) -> usize {
        (self.next() % count as u64) as usize
    }

    pub fn within(&mut self, range: RangeInclusive<u32>) -> u32 {
        range.start() + self.below((range.end() - range.start() + 1) as usize) as u32
    }

    /// True in so many cases of a hundred.
    pub fn percent(&mut self, part: u32) -> bool {
        self.within(0..=99) < part
    }

    /// One of them, or nothing of nothing.
    pub fn pick<T: Copy>(&mut self, from: &[T]) -> Option<T> {
        match from.len() {
            0 => None,
            count => Some(from[self.below(count)]),
        }
    }

    pub fn shuffle<T>(&mut self, items: &mut [T]) {
        for place in (1..items.len()).rev() {
            items.swap(place, self.below(place + 1));
        }
    }
}
