//! All that a call is lent lies in one arena between guard bytes, at any alignment, and the whole arena is compared after each call.

use crate::support::random::Random;
use std::collections::BTreeMap;
use std::io::Write;
use std::ops::Range;

/// Enough for the longest text tried, a block, an image and a buffer, with the guards around them.
const ARENA: usize = 64 * 1024;

/// How often each call returned each number.
pub type Tally = BTreeMap<&'static str, BTreeMap<u32, u64>>;

/// The arena lent to the proved calls, its twin for the second program, and both as they were before the call.
pub struct Arena {
    pub proved: Vec<u8>,
    second: Vec<u8>,
    before: Vec<u8>,
    guards: Vec<u8>,
    /// Everything from here on is guard bytes still.
    end: usize,
    pub tally: Tally,
}

impl Arena {
    pub fn new() -> Arena {
        let mut random = Random::new(1, 1);
        let guards: Vec<u8> = (0..ARENA).map(|_| random.next() as u8).collect();
        Arena {
            proved: guards.clone(),
            second: guards.clone(),
            before: guards.clone(),
            guards,
            end: 0,
            tally: Tally::new(),
        }
    }

    /// Takes back all that was lent.
    pub fn clear(&mut self) {
        self.proved[..self.end].copy_from_slice(&self.guards[..self.end]);
        self.end = 0;
    }

    /// The bytes behind some guard bytes.
    pub fn lend(&mut self, random: &mut Random, bytes: &[u8]) -> Range<usize> {
        let start = self.end + 16 + random.below(16);
        self.end = start + bytes.len();
        self.proved[start..self.end].copy_from_slice(bytes);
        start..self.end
    }

    /// Room for a number of so many bytes, where such a number may stand in memory. What it holds before the call is any number.
    pub fn lend_number(&mut self, random: &mut Random, size: usize) -> Range<usize> {
        let mut start = self.end + 16;
        while !(self.proved.as_ptr() as usize + start).is_multiple_of(size) {
            start += 1;
        }
        self.end = start + size;
        let any = random.next().to_ne_bytes();
        self.proved[start..self.end].copy_from_slice(&any[..size]);
        start..self.end
    }

    /// Both programs on what is lent; the number that both returned.
    pub fn call(
        &mut self,
        name: &'static str,
        proved: impl FnOnce(*mut u8) -> u32,
        second: impl FnOnce(&mut [u8]) -> u32,
    ) -> u32 {
        let end = self.end + 64;
        self.second[..end].copy_from_slice(&self.proved[..end]);
        self.before[..end].copy_from_slice(&self.proved[..end]);
        self.end = end;
        let got = proved(self.proved.as_mut_ptr());
        let expected = second(&mut self.second);
        assert_eq!(got, expected, "number of {name}");
        if self.proved[..end] != self.second[..end] || self.proved[end..] != self.guards[end..] {
            let place = (0..end).find(|&place| self.proved[place] != self.second[place]);
            panic!("{name} gave {got}: the arena differs, first at {place:?} of {end}");
        }
        *self.tally.entry(name).or_default().entry(got).or_insert(0) += 1;
        got
    }

    /// What a refusal has to keep, judged by itself.
    pub fn kept(&self, place: &Range<usize>) {
        assert_eq!(
            self.proved[place.clone()],
            self.before[place.clone()],
            "a refusal keeps what it is lent"
        );
    }

    pub fn all_kept(&self) {
        self.kept(&(0..self.end));
    }

    pub fn left(&self, place: &Range<usize>) -> Vec<u8> {
        self.proved[place.clone()].to_vec()
    }

    /// Prints how often each number came back.
    pub fn report(&self, what: &str) {
        let inputs: u64 = self
            .tally
            .values()
            .flat_map(|numbers| numbers.values())
            .sum();
        let mut text = format!("{what}: {inputs} inputs\n");
        for (name, numbers) in &self.tally {
            let told: Vec<String> = numbers
                .iter()
                .map(|(number, count)| format!("{number}: {count}"))
                .collect();
            text += &format!("  {name}  {}\n", told.join(", "));
        }
        // Not by a macro, which the test runner would keep to itself.
        std::io::stdout().write_all(text.as_bytes()).unwrap();
    }
}
