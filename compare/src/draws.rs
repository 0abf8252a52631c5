// The generator of README.md, and tables as the C calls have them.
#![allow(dead_code)]

pub const MAIN: usize = 38_976;

pub fn step(mut x: u64) -> u64 {
    x ^= x << 13;
    x ^= x >> 7;
    x ^= x << 17;
    x
}

/// The generator of README.md.
pub struct Draws(pub u64);

impl Draws {
    pub fn next(&mut self) -> u64 {
        self.0 = step(self.0);
        self.0
    }

    pub fn below(&mut self, n: u64) -> u64 {
        (self.next() >> 16) % n
    }

    pub fn pick<T: Copy>(&mut self, from: &[T]) -> T {
        from[self.below(from.len() as u64) as usize]
    }

    pub fn bytes(&mut self, n: usize) -> Vec<u8> {
        (0..n).map(|_| (self.next() >> 56) as u8).collect()
    }
}

/// A table of the C calls from (word, slots).
pub fn table(entries: &[(u8, u8)]) -> u64 {
    (0..4).fold(0, |t, i| {
        let (word, slots) = entries.get(i).copied().unwrap_or((15, 0));
        t | u64::from(word) << (16 * i) | u64::from(slots) << (16 * i + 8)
    })
}

pub fn entries(table: u64) -> [(u8, u8); 4] {
    std::array::from_fn(|i| ((table >> (16 * i)) as u8, (table >> (16 * i + 8)) as u8))
}

pub fn slot_sum(table: u64) -> usize {
    entries(table).iter().map(|e| usize::from(e.1)).sum()
}

/// The row that a table is refused by, or 0: above 48 slots, a part unit, a reserved word with slots.
pub fn table_row(table: u64) -> u32 {
    let all = entries(table).map(|(word, slots)| (usize::from(word % 16), slots));
    if slot_sum(table) > 48 {
        1
    } else if all.iter().any(|&(w, n)| (1..=7).contains(&w) && n % SLOTS_OF_UNIT[w - 1] != 0) {
        10
    } else if all.iter().any(|&(w, n)| (w == 0 || (8..=14).contains(&w)) && n != 0) {
        11
    } else {
        0
    }
}

/// Slots of a unit, of words 1 to 7.
pub const SLOTS_OF_UNIT: [u8; 7] = [4, 2, 3, 4, 6, 8, 1];
