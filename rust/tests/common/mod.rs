//! What the tests share: an independent implementation of the specification, and made-up input.
#![allow(dead_code, unused_imports)]
pub mod both;
pub mod reference;
pub mod reference_keys;
pub mod replay;
pub mod states;

/// A seeded stream of numbers (splitmix64).
pub struct Random(pub u64);

impl Random {
    pub fn next(&mut self) -> u64 {
        self.0 = self.0.wrapping_add(0x9E37_79B9_7F4A_7C15);
        let mut z = self.0;
        z = (z ^ (z >> 30)).wrapping_mul(0xBF58_476D_1CE4_E5B9);
        z = (z ^ (z >> 27)).wrapping_mul(0x94D0_49BB_1331_11EB);
        z ^ (z >> 31)
    }

    pub fn below(&mut self, n: u64) -> u64 {
        self.next() % n
    }

    pub fn one_in(&mut self, n: u64) -> bool {
        self.below(n) == 0
    }

    pub fn pick<'a, T>(&mut self, from: &'a [T]) -> &'a T {
        &from[self.below(from.len() as u64) as usize]
    }
}

/// How many calls a test makes: PANNUQREIK_CALLS, or what the short run makes.
pub fn calls(short: u64) -> u64 {
    match std::env::var("PANNUQREIK_CALLS") {
        Ok(n) => n.parse().expect("PANNUQREIK_CALLS is a number"),
        Err(_) => short,
    }
}

/// A legal key; the smaller `spread`, the more often the same.
pub fn some_key(r: &mut Random, spread: u64) -> u64 {
    let n = r.below(spread);
    let fields = [2024, 6, 15, 10 + n / 3600 % 14, n / 60 % 60, n % 60, n % 100, n % 32, n * 7 % 10000];
    let mut key = 0;
    assert_eq!(reference_keys::pack(&fields, &mut key), 0);
    key
}
