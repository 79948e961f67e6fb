//! Failure lines. Each is asked for beside the reference engine and compared with `History::lowered`, those of small
//! tables also with all permitted cuts.
use beside::cuts::{failed, History};
use beside::tables::{every_table, largest, made, ring, MAKERS};
use beside::{seed, Origin, Pair};
use cases::from_records;
use cases::table::{checkpoint, send, KIND, RECEIPT};
use cases::Call::Failed;
use std::fmt;

/// What the lines of a test were like.
#[derive(Default)]
struct Tally {
    tables: u64,
    lines: u64,
    /// Lines that take a process back that didn't fail.
    spread: u64,
    /// Lines of more than one round, and the most rounds of a line.
    chains: u64,
    most: u32,
    /// Lines that leave a process between 0 and its count.
    between: u64,
    /// Lines that leave a process at its count that failed, and so goes back.
    reloaded: u64,
}

impl Tally {
    fn note(&mut self, history: &History, mask: u32, answer: &[u32], rounds: u32) {
        let n = history.sections.len();
        self.lines += 1;
        self.spread += u64::from(answer[n] & !mask != 0);
        self.chains += u64::from(rounds > 1);
        self.most = self.most.max(rounds);
        let counts = history.counts();
        self.between += u64::from((0..n).any(|p| 0 < answer[p] && answer[p] < counts[p]));
        self.reloaded += u64::from((0..n).any(|p| failed(mask, p) && answer[p] == counts[p]));
    }

    /// No sort of line is missing.
    fn assert_varied(&self) {
        let least = self.spread.min(self.chains).min(self.between).min(self.reloaded);
        assert!(self.lines > 0 && least * 500 >= self.lines, "{self}");
    }
}

impl fmt::Display for Tally {
    fn fmt(&self, f: &mut fmt::Formatter) -> fmt::Result {
        let Tally { tables, lines, spread, chains, most, between, reloaded } = self;
        write!(f, "{lines} lines on {tables} tables, {spread} take back a process that didn't fail, ")?;
        write!(f, "{chains} fall more than one round, at most {most}, ")?;
        write!(f, "{between} leave one between 0 and its count, {reloaded} leave a failed one at its count")
    }
}

/// The failure line for this mask, beside the reference engine and the lowering.
fn compare(pair: &mut Pair, history: &History, mask: u32, tally: &mut Tally) -> Vec<u32> {
    let (cut, rounds) = history.lowered(mask);
    let (returned, answer) = pair.exact(Failed { mask });
    assert_eq!(
        (returned, &answer),
        (0, &history.answer(mask, &cut)),
        "mask {mask} on {history}: {}",
        pair.origin()
    );
    tally.note(history, mask, &answer, rounds);
    answer
}

/// Draws small tables of each sort in turn and asks each for its lines.
fn on_small_tables(test: &'static str, most: (u32, u32), ask: impl Fn(&mut Pair, &History, &mut Tally)) {
    let seed = seed();
    let mut tallies = [(); MAKERS.len()].map(|_| Tally::default());
    for case in 0..24_000 {
        let origin = Origin { test, seed, case };
        let (sort, mut rng) = (case as usize % MAKERS.len(), origin.rng());
        let (n, e) = (1 + rng.below(most.0), 1 + rng.below(most.1));
        let (_, make) = MAKERS[sort];
        let table = make(&mut rng, n, e);
        ask(&mut Pair::new(&table, origin), &History::of(&table), &mut tallies[sort]);
        tallies[sort].tables += 1;
    }
    for ((sort, _), tally) in MAKERS.iter().zip(&tallies) {
        println!("{test}, {sort}: CKPT_SEED={seed}, {tally}");
        tally.assert_varied();
    }
}

#[test]
fn every_mask_on_small_tables() {
    on_small_tables("every mask", (6, 12), |pair, history, tally| {
        for mask in 0..1 << history.sections.len() {
            compare(pair, history, mask, tally);
        }
    });
}

/// Every mask, compared with the latest of all permitted cuts as well.
fn compare_with_all_cuts(pair: &mut Pair, history: &History, tally: &mut Tally) {
    let clean = history.clean_cuts();
    for mask in 0..1 << history.sections.len() {
        let answer = compare(pair, history, mask, tally);
        let latest = history.answer(mask, &history.latest(&clean, mask));
        assert_eq!(answer, latest, "mask {mask} on {history}: {}", pair.origin());
    }
}

#[test]
fn the_latest_of_all_permitted_cuts() {
    on_small_tables("all cuts", (3, 5), compare_with_all_cuts);
}

/// On a table made by calls every receipt has its send, so without a failure all stay at their counts.
#[test]
fn nobody_goes_back_when_nobody_failed() {
    let (seed, mut receipts) = (seed(), 0);
    for case in 0..4_000 {
        let origin = Origin { test: "nobody failed", seed, case };
        let mut rng = origin.rng();
        let (n, e) = (1 + rng.below(16), 1 + rng.below(12));
        let table = made(&mut rng, n, e);
        let (mut pair, history) = (Pair::new(&table, origin), History::of(&table));
        let answer = [history.counts(), vec![0, 0]].concat();
        assert_eq!(pair.exact(Failed { mask: 0 }), (0, answer), "{history}: {}", pair.origin());
        receipts += history.sections.iter().flatten().filter(|r| r[KIND] == RECEIPT).count();
    }
    println!("nobody failed: CKPT_SEED={seed}, {receipts} receipts");
    assert!(receipts > 4_000, "{receipts}");
}

/// Every well laid table of these dimensions, but for the numbers of checkpoints and what receipts carry.
#[test]
fn every_table_of_small_dimensions() {
    for (n, e) in [(1, 4), (2, 1), (2, 2), (2, 3), (3, 1), (3, 2)] {
        let mut tally = Tally::default();
        every_table(n, e, |table| {
            let origin = Origin { test: "every table", seed: 0, case: tally.tables };
            compare_with_all_cuts(&mut Pair::new(table, origin), &History::of(table), &mut tally);
            tally.tables += 1;
        });
        println!("n = {n}, E = {e}: {tally}");
    }
}

/// A made table while it fills up, and tables that no run makes.
#[test]
fn random_masks_on_the_largest_tables() {
    let (n, seed) = (16, seed());
    let mut case = 0;
    let mut rng = Origin { test: "largest tables", seed, case }.rng();
    for (sort, tables) in ["made", "not made"].iter().zip(largest(&mut rng)) {
        let mut tally = Tally::default();
        for table in tables {
            let origin = Origin { test: "largest tables", seed, case };
            let (mut pair, history) = (Pair::new(&table, origin), History::of(&table));
            for _ in 0..64 {
                compare(&mut pair, &history, rng.mask(n) % (1 << n), &mut tally);
            }
            tally.tables += 1;
            case += 1;
        }
        println!("largest tables, {sort}: CKPT_SEED={seed}, {tally}");
        tally.assert_varied();
    }
}

/// The line of a ring: the first positions, all others being 0, mask and count, and the rounds of the fall.
fn assert_fall(table: &[u8], mask: u32, positions: &[u32], back: [u32; 2], rounds: u32) {
    let origin = Origin { test: "falls", seed: 0, case: mask.into() };
    let mut cut = positions.to_vec();
    cut.resize(16, 0);
    let answer = [&cut[..], &back].concat();
    assert_eq!(Pair::new(table, origin).exact(Failed { mask }), (0, answer), "mask {mask}");
    assert_eq!(History::of(table).lowered(mask), (cut, rounds), "mask {mask}");
}

/// E = 1024: two processes of 341 steps, the checkpoint of step i at place 3i - 2 of process 0 and 3i - 1 of process 1.
/// A failed process 0 is at the checkpoint of step 341, before its send 341.
///
/// - Round 1: process 1 received that send in step 341 and goes to the checkpoint of step 340, before its send 340.
/// - Round 2: process 0 received that send in step 341 and goes to the checkpoint of step 340, before its send 340.
///   Process 1 received this one in step 340 and goes to the checkpoint of step 339.
/// - Each further round takes both a step back. In round 341 process 0 comes to the checkpoint of step 1, at place 1,
///   and process 1, which received in step 1 before it had a checkpoint, to 0. There are no receipts left.
#[test]
fn a_fall_of_341_rounds() {
    let table = ring(1024, 2, false);
    assert_fall(&table, 0, &[1022, 1023], [0, 0], 0);
    assert_fall(&table, 1, &[1, 0], [3, 2], 341);
    assert_fall(&table, 3, &[1, 0], [3, 2], 341);
    // A failed process 1 goes to 3 × 341 - 1. It loses its send 341, which nobody received.
    assert_fall(&table, 2, &[1022, 1022], [2, 1], 0);
    // With the checkpoint first, at 3i - 3 and 3i - 2, process 1 keeps its send 340, so process 0 has no orphan.
    assert_fall(&ring(1024, 2, true), 1, &[1020, 1021], [3, 2], 1);
}

/// E = 256: sixteen processes of 85 steps, of which each takes back the one before it, one in a round. Round 1 takes
/// process 15 to the checkpoint of step 84. The next 15 take processes 14 to 0 there, in the last of them process 15
/// another step back, and so on 84 times, until it is at 0 and the others at the checkpoint of step 1, at place 1.
#[test]
fn a_fall_of_more_rounds_than_records() {
    let mut positions = [1; 16];
    positions[15] = 0;
    assert_fall(&ring(256, 16, false), 1, &positions, [0xFFFF, 16], 1 + 84 * 15);
}

/// Each process has a checkpoint and, where there is another, a send that nobody received: a failed one goes to 1.
#[test]
fn eleven_for_a_bit_at_n_or_above() {
    for (n, e) in (1..=16u32).flat_map(|n| [(n, 2), (n, 1024)]) {
        let count = n.min(2);
        let section = |p| [checkpoint(1), send((p + 1) % n, 1, 1)][..count as usize].to_vec();
        let table = from_records(e, &(0..n).map(section).collect::<Vec<_>>());
        let mut pair = Pair::new(&table, Origin { test: "number 11", seed: 0, case: n.into() });
        let all = (1u32 << n) - 1;
        for mask in (0..n).map(|p| 1 << p).chain([0, all]) {
            let cut = (0..n).map(|p| if failed(mask, p as usize) { 1 } else { count });
            let answer = cut.chain([mask, mask.count_ones()]).collect();
            assert_eq!(pair.exact(Failed { mask }), (0, answer), "n = {n}, mask {mask:#x}");
        }
        let beyond = (n..32).flat_map(|bit| [0, 1, all].map(|below| 1 << bit | below));
        for mask in beyond.chain([u32::MAX, !all]) {
            assert_eq!(pair.exact(Failed { mask }).0, 11, "n = {n}, mask {mask:#x}");
        }
    }
}

/// With a mask that is accepted and one that isn't.
#[test]
fn four_for_every_other_length_of_the_area() {
    for n in 1..=16 {
        let mut pair = Pair::fresh(n, 1, Origin { test: "number 4", seed: 0, case: n.into() });
        let exact = 4 * n as usize + 8;
        for length in (0..exact + 20).chain([4 * exact]) {
            for (mask, number) in [(1, 0), (1 << n, 11)] {
                let expected = if length == exact { number } else { 4 };
                assert_eq!(pair.call(Failed { mask }, &vec![0xEE; length]).0, expected, "n = {n}, {length}");
            }
        }
    }
}
