//! Calls, numbers and tables to try engines on, drawn from a seed.
pub mod calls;
pub mod chosen;
pub mod cut;
pub mod made;
pub mod saves;
pub mod table;

pub use calls::{on_reference, Call};
use table::{
    checkpoint, forced, receipt, record, section, send, Record, A, B, CARRIED, HEAD, HEADING, KIND, RECEIPT,
    SEND, SENDS, WIDTH,
};
pub use table::{from_records, from_words, records, table_length, to_words};

/// splitmix64: the same seed draws the same cases everywhere.
pub struct Rng(u64);

impl Rng {
    pub fn new(seed: u64) -> Rng {
        Rng(seed)
    }

    pub fn draw(&mut self) -> u64 {
        self.0 = self.0.wrapping_add(0x9E37_79B9_7F4A_7C15);
        let z = (self.0 ^ self.0 >> 30).wrapping_mul(0xBF58_476D_1CE4_E5B9);
        let z = (z ^ z >> 27).wrapping_mul(0x94D0_49BB_1331_11EB);
        z ^ z >> 31
    }

    pub fn below(&mut self, bound: u32) -> u32 {
        (self.draw() >> 32) as u32 % bound
    }

    pub fn one_in(&mut self, times: u32) -> bool {
        self.below(times) == 0
    }

    pub fn pick<T: Copy>(&mut self, from: &[T]) -> T {
        from[self.below(from.len() as u32) as usize]
    }

    pub fn bytes(&mut self, length: usize) -> Vec<u8> {
        (0..length).map(|_| self.draw() as u8).collect()
    }

    /// A number at an edge of something, or anything.
    pub fn extreme(&mut self, n: u32, e: u32) -> u32 {
        let edge = self.pick(&[0, 1, n, e, n * e, 16, 1024, 1 << 8, 1 << 16, 1 << 31]);
        match self.below(4) {
            0 => edge,
            1 => edge.wrapping_sub(1),
            2 => edge + 1,
            _ => self.draw() as u32,
        }
    }

    /// Mostly below the bound, now and then extreme.
    pub fn around(&mut self, bound: u32, n: u32, e: u32) -> u32 {
        if self.one_in(24) {
            self.extreme(n, e)
        } else {
            self.below(bound)
        }
    }

    /// A set of failed processes: one, none, all or any; now and then with a bit at n or above.
    pub fn mask(&mut self, n: u32) -> u32 {
        let failed = match self.below(4) {
            0 => 1 << self.below(n),
            1 => self.pick(&[0, (1 << n) - 1]),
            _ => self.below(1 << n),
        };
        let other = if self.one_in(12) { 1 << (n + self.below(32 - n)) } else { 0 };
        failed | other
    }
}

/// The receipt of every message sent in a well laid table, received or not.
pub fn messages(table: &[u8]) -> Vec<Call> {
    let mut receipts = Vec::new();
    for (q, records) in records(table).iter().enumerate() {
        let sends = records.iter().filter(|r| r[KIND] == SEND);
        receipts.extend(sends.map(|r| Call::Receipt { p: r[A], q: q as u32, k: r[B] }));
    }
    receipts
}

/// Notes what an accepted call does to the messages known in a run: a send adds one, a received one mostly goes. Some
/// stay, so that they are tried a second time.
pub fn remember(rng: &mut Rng, known: &mut Vec<Call>, call: Call, table: &[u8]) {
    match call {
        Call::Send { p, q } => {
            let e = to_words(&table[..4 * HEAD])[1];
            let sends = 4 * (section(e, p) + SENDS);
            known.push(Call::Receipt { p: q, q: p, k: to_words(&table[sends..sends + 4])[0] });
        }
        Call::Receipt { .. } if !rng.one_in(4) => {
            if let Some(i) = known.iter().position(|&other| other == call) {
                known.swap_remove(i);
            }
        }
        _ => {}
    }
}

/// A step. Many receipts are of a known message, picked in any order, so that messages overtake each other.
pub fn step(rng: &mut Rng, n: u32, e: u32, known: &[Call]) -> Call {
    let p = rng.around(n, n, e);
    let q =
        if n == 1 || p >= n || rng.one_in(8) { rng.around(n, n, e) } else { (p + 1 + rng.below(n - 1)) % n };
    match rng.below(10) {
        0 | 1 => Call::Checkpoint { p },
        2..=4 => Call::Send { p, q },
        5 => Call::Receipt { p, q, k: rng.around(e.min(4) + 2, n, e) },
        _ if known.is_empty() => Call::Send { p, q },
        _ => rng.pick(known),
    }
}

/// Any call but fresh.
pub fn step_or_line(rng: &mut Rng, n: u32, e: u32, known: &[Call]) -> Call {
    match rng.below(12) {
        0 | 1 => {
            let top = rng.pick(&[4, n * e + 2]);
            Call::Line { number: rng.around(top, n, e) }
        }
        2 => Call::Failed { mask: rng.mask(n) },
        _ => step(rng, n, e, known),
    }
}

/// An area's length: mostly the exact one.
pub fn area_length(rng: &mut Rng, exact: usize) -> usize {
    if rng.one_in(16) {
        rng.pick(&[
            0,
            1,
            3,
            4,
            7,
            8,
            9,
            16,
            exact + 1,
            exact + 4,
            exact.saturating_sub(1),
            exact.saturating_sub(4),
            72,
        ])
    } else {
        exact
    }
}

/// A scratch's length: mostly the table's.
pub fn scratch_length(rng: &mut Rng, n: u32, table: usize) -> usize {
    if rng.one_in(16) {
        let words = 8 * n as usize;
        rng.pick(&[0, 1, 4, words, table + 1, table + 4, table.saturating_sub(1), table.saturating_sub(4)])
    } else {
        table
    }
}

/// Gives a section's sends and receipts the fourth words of a well laid table: a send the number before it, a receipt
/// anything up to that, often the number itself or 0, whatever its send carried.
pub fn carry(rng: &mut Rng, section: &mut [Record]) {
    let mut number = 0;
    for record in section {
        match record[KIND] {
            SEND => record[CARRIED] = number,
            RECEIPT => {
                let any = rng.below(number + 1);
                record[CARRIED] = rng.pick(&[0, number, any]);
            }
            _ => number = record[A],
        }
    }
}

/// A well laid table, but mostly one that no run makes: checkpoint numbers fall, repeat, are 0 or n × E, forced
/// checkpoints stand anywhere, receipts repeat, lack their send, are of a send to another process or carried another
/// number than their send.
pub fn well_laid(rng: &mut Rng, n: u32, e: u32) -> Vec<u8> {
    let mut sections = Vec::new();
    for p in 0..n {
        let count = match rng.below(4) {
            0 => e,
            1 => e - 1,
            _ => rng.below(e + 1),
        };
        let (mut number, mut sends) = (0, 0);
        let mut records = Vec::with_capacity(count as usize);
        for _ in 0..count {
            let other = if n == 1 { 0 } else { (p + 1 + rng.below(n - 1)) % n };
            records.push(match rng.below(if n == 1 { 3 } else { 10 }) {
                kind @ 0..=2 => {
                    number = match rng.below(8) {
                        0 => 0,
                        1 => n * e,
                        2 => number,
                        3 => number.saturating_sub(1),
                        4 | 5 => rng.below(n * e + 1),
                        _ => (number + 1).min(n * e),
                    };
                    [checkpoint, forced][kind as usize % 2](number)
                }
                3..=6 => {
                    sends += 1;
                    send(other, sends, 0)
                }
                _ => {
                    let top = rng.pick(&[e, e.min(4), e.min(4)]);
                    receipt(other, 1 + rng.below(top), 0)
                }
            });
        }
        carry(rng, &mut records);
        sections.push(records);
    }
    from_records(e, &sections)
}

/// A whole table as it is, damaged, of another length or with another n or E, each one time in four.
pub fn perhaps_damaged(rng: &mut Rng, mut table: Vec<u8>) -> Vec<u8> {
    let mut head = to_words(&table[..4 * HEAD]);
    let (n, e) = (head[0], head[1]);
    match rng.below(4) {
        0 => damage(rng, &mut table, n, e),
        1 => {
            let length = rng.below(table.len() as u32 + 64) as usize;
            table.resize(length, 0);
        }
        2 => {
            let place = rng.below(2) as usize;
            head[place] = rng.extreme(n, e);
            table[..4 * HEAD].copy_from_slice(&from_words(&head));
        }
        _ => {}
    }
    table
}

/// Changes one to three places: a byte, or a word of the head, of a section's heading, of a record, used or not.
pub fn damage(rng: &mut Rng, table: &mut [u8], n: u32, e: u32) {
    for _ in 0..1 + rng.below(3) {
        let p = rng.below(n);
        let (first, words) = match rng.below(12) {
            0 => (0, HEAD),
            1..=4 => (section(e, p), HEADING),
            5..=7 => (record(e, p, 0), WIDTH * e.min(4) as usize),
            _ => (record(e, p, 0), WIDTH * e as usize),
        };
        let at = 4 * (first + rng.below(words as u32) as usize);
        if rng.one_in(3) {
            let byte = at + rng.below(4) as usize;
            table[byte] ^= 1 << rng.below(8);
        } else {
            let word = &mut table[at..at + 4];
            let old = to_words(word)[0];
            let value = match rng.below(3) {
                0 => rng.below(6),
                1 => rng.extreme(n, e),
                _ => rng.pick(&[old.wrapping_sub(1), old.wrapping_add(1)]),
            };
            word.copy_from_slice(&value.to_be_bytes());
        }
    }
}
