//! Document 02's slip 7: which rule moved a process. Grounds are asked for beside the reference engine, where the table
//! must stay as it was, and compared with a search by the document's words and with what `failed` answers.
use beside::cuts::{failed, History};
use beside::tables::{every_table, largest, ring, MAKERS};
use beside::{pair_of_words, seed, Origin, Pair};
use cases::chosen::{
    bad_tables, crossed, grounded_astray, grounded_of_two, Answered, WORKED, WORKED_GROUNDS,
};
use cases::cut::last_saved;
use cases::made::run;
use cases::table::{changed, checkpoint, is_send, receipt, send, Record, A, B, KIND, RECEIPT, SEND};
use cases::Call::{self, Checkpoint, Failed, Grounds};
use cases::{from_records, perhaps_damaged, to_words, well_laid};
use std::fmt;

const ORIGIN: Origin = Origin { test: "grounds", seed: 0, case: 0 };
const MAX: u32 = u32::MAX;
/// What the engines find in an area.
const LENT: u8 = 0xEE;

// ---- the document's words

/// A process at the failure line of a mask.
#[derive(Clone, Copy)]
struct At<'a> {
    history: &'a History,
    mask: u32,
    line: &'a [u32],
    p: usize,
}

impl<'a> At<'a> {
    fn own(self) -> &'a [Record] {
        &self.history.sections[self.p]
    }

    fn count(self) -> u32 {
        self.own().len() as u32
    }

    fn position(self) -> u32 {
        self.line[self.p]
    }

    fn has_failed(self) -> bool {
        failed(self.mask, self.p)
    }

    /// The part of process q in a cut.
    fn part(self, cut: &[u32], q: u32) -> &'a [Record] {
        &self.history.sections[q as usize][..cut[q as usize] as usize]
    }

    /// The places, counted from 1, of the receipts after the position whose send isn't inside the cut, with this process as
    /// its destination.
    fn orphans(self, cut: &[u32]) -> impl Iterator<Item = u32> + use<'a, '_> {
        let places = self.position() + 1..=self.count();
        places.filter(move |&place| {
            let r = self.own()[place as usize - 1];
            let is_sent = |s: &Record| is_send(s, self.p as u32, r[B]);
            r[KIND] == RECEIPT && !self.part(cut, r[A]).iter().any(is_sent)
        })
    }

    /// The first of them, 0 if there is none.
    fn first_orphan(self, cut: &[u32]) -> u32 {
        self.orphans(cut).next().unwrap_or(0)
    }

    /// The position of the last checkpoint, the initial one included.
    fn last_checkpoint(self) -> u32 {
        last_saved(self.own())
    }

    /// The next position after its own that it might have had.
    fn next(self) -> Option<u32> {
        (self.position() + 1..=self.count()).find(|&t| self.history.permits(self.mask, self.p, t))
    }

    /// Its two words.
    fn ground(self) -> [u32; 2] {
        if !self.has_failed() && self.position() == self.count() {
            [0, 0]
        } else if self.has_failed() && self.position() == self.last_checkpoint() {
            [1, 0]
        } else {
            [2, self.first_orphan(self.line)]
        }
    }
}

// ---- wrong engines

/// What an engine says that gets the rule wrong, where the right words are these.
type Wrong = fn(At, [u32; 2]) -> [u32; 2];

/// How a hurried reader would get it wrong. The tests count how often each of these says something else.
const WRONG: [(&str, Wrong); 7] = [
    ("the last orphan", |at, words| match words {
        [2, _] => [2, at.orphans(at.line).last().unwrap_or(0)],
        right => right,
    }),
    ("the starting cut", |at, words| match words {
        [2, _] => {
            let top = |p: usize, count: u32| (0..=count).rev().find(|&t| at.history.permits(at.mask, p, t));
            let counts = (0..).zip(at.history.counts());
            let start: Vec<u32> = counts.map(|(p, count)| top(p, count).unwrap()).collect();
            [2, at.first_orphan(&start)]
        }
        right => right,
    }),
    ("no destination", |at, words| match words {
        [2, _] => {
            let is_sent = |r: &Record| at.part(at.line, r[A]).iter().any(|s| (s[KIND], s[B]) == (SEND, r[B]));
            let mut after = at.own().iter().enumerate().skip(at.position() as usize);
            let first = after.find(|(_, r)| r[KIND] == RECEIPT && !is_sent(r));
            [2, first.map_or(0, |(i, _)| i as u32 + 1)]
        }
        right => right,
    }),
    ("places from 0", |_, words| match words {
        [2, place] => [2, place - 1],
        right => right,
    }),
    ("1 for all that failed", |at, words| if at.has_failed() { [1, 0] } else { words }),
    ("2 at the last checkpoint", |at, words| match words {
        [1, _] => [2, at.first_orphan(at.line)],
        right => right,
    }),
    ("2 at 0 without a checkpoint", |at, words| match words {
        [1, _] if at.last_checkpoint() == 0 => [2, at.first_orphan(at.line)],
        right => right,
    }),
];

// ---- what was met

/// What the grounds of a test were like.
#[derive(Default)]
struct Tally {
    tables: u64,
    lines: u64,
    /// How many processes got 0, 1 and 2.
    grounds: [u64; 3],
    /// How many of them were of each sort.
    sorts: [u64; SORTS.len()],
    /// For how many each wrong engine says something else.
    wrong: [u64; WRONG.len()],
}

const SORTS: [&str; 6] = [
    "1 with an orphan behind the position",
    "2 and failed",
    "2 with a later orphan",
    "2 behind another receipt",
    "2 by a message that stays sent, to another",
    "2 by a receipt at the next position",
];

impl Tally {
    fn note(&mut self, at: At, words: [u32; 2]) {
        let moved = words[0] == 2;
        let after = &at.own()[at.position() as usize..];
        let place = words[1].saturating_sub(at.position() + 1) as usize;
        let receipt = after.get(place).copied().unwrap_or_default();
        let stays_sent = |r: Record| at.part(at.line, r[A]).iter().any(|s| (s[KIND], s[B]) == (SEND, r[B]));
        let sorts = [
            words[0] == 1 && at.first_orphan(at.line) > 0,
            moved && at.has_failed(),
            moved && at.orphans(at.line).nth(1).is_some(),
            moved && after[..place].iter().any(|r| r[KIND] == RECEIPT),
            moved && stays_sent(receipt),
            moved && at.next() == Some(words[1]),
        ];
        self.grounds[words[0] as usize] += 1;
        self.sorts.iter_mut().zip(sorts).for_each(|(count, is)| *count += u64::from(is));
        for (count, (_, wrong)) in self.wrong.iter_mut().zip(WRONG) {
            *count += u64::from(wrong(at, words) != words);
        }
    }

    fn add(&mut self, other: &Tally) {
        let sum = |own: &mut [u64], other: &[u64]| own.iter_mut().zip(other).for_each(|(a, b)| *a += b);
        self.tables += other.tables;
        self.lines += other.lines;
        sum(&mut self.grounds, &other.grounds);
        sum(&mut self.sorts, &other.sorts);
        sum(&mut self.wrong, &other.wrong);
    }

    /// Every sort of ground was met, and every wrong engine would have been found, so many times at least.
    fn assert_varied(&self, least: u64) {
        let met = self.grounds.iter().chain(&self.sorts).chain(&self.wrong);
        assert!(self.lines > 0 && met.into_iter().all(|&count| count >= least), "{self}");
    }
}

impl fmt::Display for Tally {
    fn fmt(&self, f: &mut fmt::Formatter) -> fmt::Result {
        let Tally { tables, lines, grounds, .. } = self;
        write!(f, "{lines} lines on {tables} tables, processes that got 0, 1 and 2: {grounds:?}")?;
        write!(f, "\n  ")?;
        SORTS.iter().zip(self.sorts).try_for_each(|(name, count)| write!(f, "{name}: {count}; "))?;
        write!(f, "\n  wrong engines that differ: ")?;
        WRONG.iter().zip(self.wrong).try_for_each(|((name, _), count)| write!(f, "{name}: {count}; "))
    }
}

/// The grounds for this mask, whose failure line is this: beside the reference engine, by the document's words and by what
/// they stand for, and with the positions that `failed` answers. Answers them.
fn compare(pair: &mut Pair, history: &History, mask: u32, line: &[u32], tally: &mut Tally) -> Vec<u32> {
    let processes = || (0..line.len()).map(|p| At { history, mask, line, p });
    let (returned, answer) = pair.exact(Grounds { mask });
    let stated: Vec<u32> = processes().flat_map(At::ground).collect();
    assert_eq!((returned, &answer), (0, &stated), "mask {mask} on {history}: {}", pair.origin());
    let (returned, positions) = pair.exact(Failed { mask });
    let (positions, back) = positions.split_at(line.len());
    assert_eq!((returned, positions), (0, line), "mask {mask} on {history}: {}", pair.origin());
    for (at, words) in processes().zip(answer.chunks(2)) {
        let words = [words[0], words[1]];
        let goes_back = back[0] >> at.p & 1 == 1;
        let holds = match (words, at.next()) {
            // Nothing is lost that it might have kept.
            ([0, 0], None) => !goes_back && !at.has_failed() && at.position() == at.count(),
            ([1, 0], None) => goes_back && at.has_failed(),
            // Its receipt is at or before every position that it might have had later than its own.
            ([2, place], Some(next)) => {
                goes_back && at.position() < place && place <= next && place == at.first_orphan(line)
            }
            _ => false,
        };
        assert!(holds, "{words:?} for process {}, mask {mask} on {history}: {}", at.p, pair.origin());
        tally.note(at, words);
    }
    tally.lines += 1;
    answer
}

/// The same, with the failure line by lowering.
fn compare_lowered(pair: &mut Pair, history: &History, mask: u32, tally: &mut Tally) -> Vec<u32> {
    let (line, _) = history.lowered(mask);
    compare(pair, history, mask, &line, tally)
}

// ---- worked figures

fn worked_controller() -> Pair {
    let mut pair = Pair::fresh(3, 6, ORIGIN);
    assert!(WORKED.iter().all(|&call| pair.exact(call).0 == 0));
    pair
}

/// The grounds for masks 0, 1, .. in turn; then 11 for the mask with the next bit.
fn assert_grounds(pair: &mut Pair, stated: &[impl AsRef<[u32]>]) {
    let (table, history) = (pair.table().to_vec(), History::of(pair.table()));
    for (mask, words) in (0..).zip(stated) {
        let answer = compare_lowered(pair, &history, mask, &mut Tally::default());
        assert_eq!(answer, words.as_ref(), "mask {mask} on {history}");
    }
    assert_eq!(pair.exact(Grounds { mask: 1 << history.sections.len() }).0, 11);
    assert_eq!(pair.table(), table);
}

#[test]
fn the_worked_controller() {
    assert_grounds(&mut worked_controller(), &WORKED_GROUNDS);
    for mask in [8, 9, 15, 1 << 16, 1 << 31, MAX] {
        assert_eq!(worked_controller().exact(Grounds { mask }).0, 11, "{mask}");
    }
}

/// n = 2: a failed process without a checkpoint record is at its last checkpoint at 0, and one that just saved at its count.
#[test]
fn fresh_and_just_saved() {
    let failed: [&[u32]; 4] = [&[0, 0, 0, 0], &[1, 0, 0, 0], &[0, 0, 1, 0], &[1, 0, 1, 0]];
    let mut pair = Pair::fresh(2, 4, ORIGIN);
    assert_grounds(&mut pair, &failed);
    assert_eq!(pair.exact(Checkpoint { p: 0 }), (0, vec![1]));
    assert_grounds(&mut pair, &failed);
    for n in 1..=16 {
        let answer = Pair::fresh(n, 1, ORIGIN).exact(Grounds { mask: 1 });
        let stated = (0..2 * n).map(|i| u32::from(i == 0)).collect();
        assert_eq!(answer, (0, stated), "n = {n}");
    }
}

fn assert_grounded(tables: &[Answered]) {
    for Answered { table, stated } in tables {
        assert_grounds(&mut Pair::new(table, ORIGIN), stated);
    }
}

#[test]
fn written_out_for_two_processes() {
    assert_grounded(&grounded_of_two());
}

/// Tables that no run makes, on most of which nobody needs to fail.
#[test]
fn written_out_for_tables_of_no_run() {
    assert_grounded(&grounded_astray());
    // Process 0 has (1, 1), which went to 2, behind a receipt that is fine; its first receipt goes with process 1.
    let crossed: [&[u32]; 2] = [&[2, 4, 2, 1, 2, 1], &[1, 0, 2, 1, 2, 1]];
    let mut pair = Pair::new(&from_records(4, &self::crossed()), ORIGIN);
    for (mask, stated) in (0..).zip(crossed) {
        assert_eq!(pair.exact(Grounds { mask }), (0, stated.to_vec()), "mask {mask}");
    }
}

/// n = 2, E = 1,024: process 1 has got 1,022 messages that stay sent, the last one first, before one that doesn't, at the
/// very last place.
#[test]
fn the_last_place_of_a_full_section() {
    const E: u32 = 1024;
    let mut sender: Vec<Record> = (1..=E - 2).map(|k| send(1, k, 0)).collect();
    sender.extend([checkpoint(1), send(1, E - 1, 1)]);
    let mut receiver = vec![send(0, 1, 0)];
    receiver.extend((1..=E - 2).rev().map(|k| receipt(0, k, 0)));
    receiver.push(receipt(0, E - 1, 0));
    let stated: [&[u32]; 4] = [&[0, 0, 0, 0], &[1, 0, 2, E], &[0, 0, 1, 0], &[1, 0, 1, 0]];
    assert_grounds(&mut Pair::new(&from_records(E, &[sender, receiver]), ORIGIN), &stated);
}

/// The falls of tests/failure.rs: process 0 has checkpoint, send, receipt, and so on; process 1, or 15, begins with its
/// receipt.
#[test]
fn the_falls() {
    let assert_fall = |table: &[u8], mask: u32, words: &[u32]| {
        let mut answer = words.to_vec();
        answer.resize(32, 0);
        let (mut pair, history) = (Pair::new(table, ORIGIN), History::of(table));
        assert_eq!(compare_lowered(&mut pair, &history, mask, &mut Tally::default()), answer, "mask {mask}");
    };
    let two = ring(1024, 2, false);
    assert_fall(&two, 0, &[]);
    assert_fall(&two, 1, &[2, 3, 2, 1]);
    assert_fall(&two, 2, &[0, 0, 1, 0]);
    assert_fall(&two, 3, &[2, 3, 2, 1]);
    // One round: process 0 stays at its last checkpoint, and process 1 loses the last receipt.
    assert_fall(&ring(1024, 2, true), 1, &[1, 0, 2, 1022]);
    let all = [[2, 3]; 15].concat();
    assert_fall(&ring(256, 16, false), 1, &[&all[..], &[2, 1]].concat());
}

// ---- all and drawn tables

#[test]
fn every_mask_on_small_tables() {
    const TABLES: u64 = 18_000;
    let (seed, mut all) = (seed(), Tally::default());
    for (sort, (name, make)) in (0..).zip(MAKERS) {
        let mut tally = Tally::default();
        for case in 0..TABLES / MAKERS.len() as u64 {
            let origin =
                Origin { test: "grounds of small tables", seed, case: MAKERS.len() as u64 * case + sort };
            let mut rng = origin.rng();
            let (n, e) = (1 + rng.below(6), 1 + rng.below(12));
            let table = make(&mut rng, n, e);
            let (mut pair, history) = (Pair::new(&table, origin), History::of(&table));
            for mask in 0..1 << n {
                compare_lowered(&mut pair, &history, mask, &mut tally);
            }
            tally.tables += 1;
        }
        println!("grounds, {name}: CKPT_SEED={seed}, {tally}");
        assert!(tally.grounds.iter().all(|&count| count > tally.lines / 20), "{name}: {tally}");
        all.add(&tally);
    }
    all.assert_varied(TABLES / 10);
}

/// Every well laid table of these dimensions, but for the numbers of checkpoints and what receipts carry, with the latest
/// of all permitted cuts as the line.
#[test]
fn every_table_of_small_dimensions() {
    let mut all = Tally::default();
    for (n, e) in [(1, 4), (2, 1), (2, 2), (2, 3), (3, 1), (3, 2)] {
        let mut tally = Tally::default();
        every_table(n, e, |table| {
            let origin = Origin { test: "grounds of every table", seed: 0, case: tally.tables };
            let (mut pair, history) = (Pair::new(table, origin), History::of(table));
            let clean = history.clean_cuts();
            for mask in 0..1 << n {
                compare(&mut pair, &history, mask, &history.latest(&clean, mask), &mut tally);
            }
            tally.tables += 1;
        });
        println!("n = {n}, E = {e}: {tally}");
        all.add(&tally);
    }
    all.assert_varied(1_000);
}

/// Words of the worked controller's table changed to others: where the table is well laid still, its grounds for every mask.
#[test]
fn every_word_of_the_worked_controller() {
    let words = to_words(worked_controller().table());
    let (mut met, mut tally) = ([0u64; 4], Tally::default());
    for place in 0..words.len() {
        for word in (0..=7).chain([words[place] ^ 1 << 31, MAX]).filter(|&word| word != words[place]) {
            let mut pair = pair_of_words(&changed(&words, &[(place, word)]), ORIGIN);
            let returned = pair.call(Grounds { mask: 1 }, &[LENT; 24]).0;
            met[returned as usize] += 1;
            if returned == 0 {
                let history = History::of(pair.table());
                (0..8).for_each(|mask| drop(compare_lowered(&mut pair, &history, mask, &mut tally)));
                tally.tables += 1;
            }
        }
    }
    println!("words of the worked controller: numbers returned {met:?}, {tally}");
    assert!(
        met.iter().all(|&count| count > 0) && tally.grounds.iter().all(|&count| count > 100),
        "{met:?} {tally}"
    );
}

/// n = 16, E = 1,024: a made table while it fills up, and tables that no run makes.
#[test]
fn random_masks_on_the_largest_tables() {
    let (n, seed) = (16, seed());
    let origin = |case| Origin { test: "grounds of largest tables", seed, case };
    let (mut rng, mut case, mut all) = (origin(0).rng(), 0, Tally::default());
    for (sort, tables) in ["made", "not made"].iter().zip(largest(&mut rng)) {
        let mut tally = Tally::default();
        for table in tables {
            let (mut pair, history) = (Pair::new(&table, origin(case)), History::of(&table));
            for _ in 0..24 {
                compare_lowered(&mut pair, &history, rng.mask(n) % (1 << n), &mut tally);
            }
            tally.tables += 1;
            case += 1;
        }
        println!("largest tables, {sort}: CKPT_SEED={seed}, {tally}");
        assert!(tally.grounds.iter().all(|&count| count > 50), "{tally}");
        all.add(&tally);
    }
    // All but the last, since every process has a checkpoint.
    assert!(all.wrong[..WRONG.len() - 1].iter().chain(&all.sorts).all(|&count| count > 20), "{all}");
}

// ---- rows

/// Rows 2, 1, 2 and 3, each with all those after it met as well as with none of them.
#[test]
fn the_rows_of_the_table() {
    let check = |table: &[u8], area: usize, mask: u32, number: u32| {
        let returned = Pair::new(table, ORIGIN).call(Grounds { mask }, &vec![LENT; area]).0;
        assert_eq!(returned, number, "area of {area}, mask {mask}");
    };
    let sections = [vec![send(1, 1, 0)], vec![receipt(0, 1, 0)], vec![]];
    for (area, mask) in [(24, 0), (24, 8), (23, 1), (0, MAX)] {
        for (table, returned) in bad_tables(4, &sections) {
            check(&table, area, mask, returned);
        }
    }
    let good = from_records(4, &sections);
    check(&good, 23, 8, 4);
    check(&good, 24, 8, 11);
    check(&good, 24, 7, 0);
}

/// For every n areas of all lengths up to some above, and the lengths of other calls' areas; masks with each bit at n or
/// above alone, with others below, and all of them.
#[test]
fn the_rows_of_area_and_mask() {
    let mut met = [0u64; 12];
    for n in 1..=16u32 {
        let exact = 8 * n as usize;
        let all = (1u32 << n) - 1;
        let mut pair = Pair::new(&from_records(2, &vec![vec![checkpoint(1)]; n as usize]), ORIGIN);
        let mut check = |area: usize, mask: u32, number: u32| {
            let returned = pair.call(Grounds { mask }, &vec![LENT; area]).0;
            assert_eq!(returned, number, "n = {n}, area of {area}, mask {mask:#x}");
            met[returned as usize] += 1;
        };
        let others =
            [exact - 1, exact + 1, exact + 4, 4 * n as usize, 4 * n as usize + 8, 2 * exact, 1 << 16];
        for area in (0..exact + 20).chain(others) {
            for (mask, number) in [(0, 0), (all, 0), (1 << n, 11), (1 << 31, 11), (MAX, 11)] {
                check(area, mask, if area == exact { number } else { 4 });
            }
        }
        let beyond = (n..32).flat_map(|bit| [0, 1, all].map(|below| 1 << bit | below));
        beyond.chain([MAX, !all]).for_each(|mask| check(exact, mask, 11));
        // Who failed is at its last checkpoint, its count, and who didn't is there too.
        for mask in (0..n).map(|p| 1 << p).chain([0, all]) {
            let stated = (0..n).flat_map(|p| [mask >> p & 1, 0]).collect();
            assert_eq!(pair.exact(Grounds { mask }), (0, stated), "n = {n}, mask {mask:#x}");
        }
    }
    // Twice for every n; for n = 2 the length of failed's area is right too.
    assert!(met[0] == 34 && met[4] > 1_000 && met[11] > 1_000, "{met:?}");
}

/// Damaged tables and other lengths, of made tables and of such as no run makes.
#[test]
fn random_lengths_and_damage() {
    const TABLES: u64 = 20_000;
    let (seed, mut met) = (seed(), [0u64; 12]);
    for case in 0..TABLES {
        let origin = Origin { test: "damaged grounds", seed, case };
        let mut rng = origin.rng();
        let (n, e) = (1 + rng.below(16), 1 + rng.below(16));
        let table = if rng.one_in(2) { run(&mut rng, n, e, n * e) } else { well_laid(&mut rng, n, e) };
        let table = perhaps_damaged(&mut rng, table);
        let call: Call = Grounds { mask: rng.mask(n) };
        let length = cases::area_length(&mut rng, call.area_length(n));
        let area = rng.bytes(length);
        met[Pair::new(&table, origin).call(call, &area).0 as usize] += 1;
    }
    println!("damaged grounds: CKPT_SEED={seed}, numbers returned: {met:?}");
    assert!([0, 1, 2, 3, 4, 11].iter().all(|&number| met[number] > 200), "{met:?}");
}
