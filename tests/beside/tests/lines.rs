//! Document 02's slip 8: no line without a saved state. Every line is asked for beside the reference engine, where table
//! and area must stay as they were if it is refused, and judged here by the documents' words, from the table's bytes on.
use beside::tables::{largest, MAKERS};
use beside::{pair_of_words, seed, Origin, Pair};
use cases::chosen::{bad_tables, lined, Answered, WORKED};
use cases::cut::{has_orphan, last_line, saved, saved_position, tuples};
use cases::made::run;
use cases::table::{
    changed, checkpoint, forced, is_checkpoint, number_of, section, send, Record, A, B, CARRIED, CHECKPOINT,
    COUNT, FORCED, HEADING, KIND, NUMBER, RECEIPT, SEND, SENDS, WIDTH,
};
use cases::Call::Line;
use cases::{
    area_length, from_records, from_words, perhaps_damaged, records, table_length, to_words, well_laid,
};
use std::collections::BTreeSet;
use std::fmt;

const ORIGIN: Origin = Origin { test: "lines", seed: 0, case: 0 };
const MAX: u32 = u32::MAX;
/// What the engines find in an area.
const LENT: u8 = 0xEE;

// ---- the documents' words

/// The number of the first row that the table itself meets.
fn row_of_table(table: &[u8]) -> Option<u32> {
    let words = to_words(table);
    let &[n, e, ..] = &words[..] else {
        return Some(2);
    };
    if !(1..=16).contains(&n) || !(1..=1024).contains(&e) {
        return Some(1);
    }
    if table.len() != table_length(n, e) {
        return Some(2);
    }
    let laid = |p: u32| is_laid(n, e, p, &words[section(e, p)..section(e, p + 1)]);
    (!(0..n).all(laid)).then_some(3)
}

/// Whether these are the words of a section of process p.
fn is_laid(n: u32, e: u32, p: u32, words: &[u32]) -> bool {
    let (heading, places) = words.split_at(HEADING);
    let count = heading[COUNT] as usize;
    if count > e as usize {
        return false;
    }
    let (used, unused) = places.split_at(WIDTH * count);
    let (mut number, mut sends) = (0, 0);
    let records_are = used.chunks_exact(WIDTH).all(|r| match r[KIND] {
        CHECKPOINT | FORCED => {
            number = r[A];
            number <= n * e && r[B] == 0 && r[CARRIED] == 0
        }
        SEND => {
            sends += 1;
            r[A] < n && r[A] != p && r[B] == sends && r[CARRIED] == number
        }
        RECEIPT => r[A] < n && r[A] != p && (1..=e).contains(&r[B]) && r[CARRIED] <= number,
        _ => false,
    });
    records_are
        && heading[NUMBER] == number
        && heading[SENDS] == sends
        && unused.iter().all(|&word| word == 0)
}

/// A table, as a judge has read it: the row that it meets, or the used records.
struct Read {
    row: Option<u32>,
    sections: Vec<Vec<Record>>,
}

impl Read {
    fn of(table: &[u8]) -> Read {
        let row = row_of_table(table);
        Read { row, sections: if row.is_none() { records(table) } else { Vec::new() } }
    }

    /// The numbers in the table and those beside them.
    fn lines(&self) -> BTreeSet<u32> {
        let numbers = self.sections.iter().flat_map(|own| saved(own)).map(|(_, number)| number);
        numbers.flat_map(|number| [number.saturating_sub(1), number, number + 1]).collect()
    }
}

/// The records, unless they are many.
impl fmt::Display for Read {
    fn fmt(&self, f: &mut fmt::Formatter) -> fmt::Result {
        match (self.row, self.sections.iter().flatten().count()) {
            (Some(row), _) => write!(f, "a table that meets row {row}"),
            (None, 0..=100) => write!(f, "{:?}", self.sections),
            (None, many) => write!(f, "{many} records"),
        }
    }
}

/// A line that is asked for, and what the area holds before.
struct Asked<'a> {
    read: &'a Read,
    area: &'a [u8],
    number: u32,
}

/// What is returned, and what the area holds after.
#[derive(Debug, PartialEq, Eq)]
struct Outcome {
    returned: u32,
    area: Vec<u8>,
}

impl Asked<'_> {
    fn refused(&self, returned: u32) -> Outcome {
        Outcome { returned, area: self.area.to_vec() }
    }

    fn has_exact_area(&self) -> bool {
        self.area.len() == 4 * self.read.sections.len()
    }

    fn position(&self, own: &[Record]) -> Option<u32> {
        saved_position(own, self.number)
    }

    /// The rows up to 4, then these positions, or 15 where one is missing.
    fn answered(&self, position: impl Fn(&[Record]) -> Option<u32>) -> Outcome {
        if let Some(row) = self.read.row {
            return self.refused(row);
        }
        if !self.has_exact_area() {
            return self.refused(4);
        }
        let positions: Option<Vec<u32>> = self.read.sections.iter().map(|own| position(own)).collect();
        match positions {
            Some(positions) => Outcome { returned: 0, area: from_words(&positions) },
            None => self.refused(15),
        }
    }

    /// Whether each process lacks a state for the line.
    fn lacking(&self) -> Vec<bool> {
        self.read.sections.iter().map(|own| self.position(own).is_none()).collect()
    }

    /// As it is to be.
    fn right(&self) -> Outcome {
        self.answered(|own| self.position(own))
    }

    /// Where this process alone is asked whether it has a state; of the others the count is answered where they have none.
    fn asked_alone(&self, own: Option<&Vec<Record>>) -> Outcome {
        let lacks = own.is_some_and(|own| self.position(own).is_none());
        let or_count = |own: &[Record]| self.position(own).or(Some(own.len() as u32));
        self.answered(|own| if lacks { None } else { or_count(own) })
    }
}

// ---- wrong engines

/// What a hurried engine does. The tests count how often each does something else than what is right.
type Wrong = fn(&Asked) -> Outcome;

const BY_NUMBER_WORD: &str = "judged by the section's number word";
const BEFORE_4: &str = "15 before 4";
const WRONG: [(&str, Wrong); 8] = [
    (BY_NUMBER_WORD, |asked| {
        asked.answered(|own| if number_of(own) < asked.number { None } else { asked.position(own) })
    }),
    ("the count instead of 15", |asked| asked.answered(|own| asked.position(own).or(Some(own.len() as u32)))),
    ("15 for line 0 without a checkpoint record", |asked| {
        asked.answered(|own| if own.iter().any(is_checkpoint) { asked.position(own) } else { None })
    }),
    (BEFORE_4, |asked| if asked.lacking().contains(&true) { asked.refused(15) } else { asked.right() }),
    ("judged by the last process alone", |asked| asked.asked_alone(asked.read.sections.last())),
    ("judged by the first process alone", |asked| asked.asked_alone(asked.read.sections.first())),
    ("positions written before the refusal", |asked| {
        let mut outcome = asked.right();
        if outcome.returned == 15 {
            let positions = asked.read.sections.iter().map_while(|own| asked.position(own));
            let written = from_words(&positions.collect::<Vec<_>>());
            outcome.area[..written.len()].copy_from_slice(&written);
        }
        outcome
    }),
    ("the initial state instead of 15", |asked| asked.answered(|own| asked.position(own).or(Some(0)))),
];

// ---- what was met

/// What the lines of a test were like.
#[derive(Default)]
struct Tally {
    tables: u64,
    returned: [u64; 16],
    /// How many of them were of each sort.
    sorts: [u64; SORTS.len()],
    /// For how many each wrong engine does something else.
    wrong: [u64; WRONG.len()],
}

const ABOVE_A_NUMBER: &str = "answered above a process's number";
const SORTS: [&str; 7] = [
    "answered above 0",
    ABOVE_A_NUMBER,
    "refused for the first process alone",
    "for one in between alone",
    "for the last alone",
    "for some",
    "for all of several",
];

impl Tally {
    fn note(&mut self, asked: &Asked, outcome: &Outcome) {
        let (answered, refused) = (outcome.returned == 0, outcome.returned == 15);
        let lacking = asked.lacking();
        let (n, lack) = (lacking.len(), lacking.iter().filter(|&&lacks| lacks).count());
        let alone = |p: usize| refused && n > 1 && lack == 1 && lacking[p];
        let sorts = [
            answered && asked.number > 0,
            answered && asked.read.sections.iter().any(|own| number_of(own) < asked.number),
            alone(0),
            (1..n.max(1) - 1).any(alone),
            alone(n.max(1) - 1),
            refused && 1 < lack && lack < n,
            refused && 1 < lack && lack == n,
        ];
        self.returned[outcome.returned as usize] += 1;
        self.sorts.iter_mut().zip(sorts).for_each(|(count, is)| *count += u64::from(is));
        for (count, (_, wrong)) in self.wrong.iter_mut().zip(WRONG) {
            *count += u64::from(wrong(asked) != *outcome);
        }
    }

    /// The sorts and the wrong engines, with their counts.
    fn counts(&self) -> impl Iterator<Item = (&'static str, u64)> + '_ {
        let names = SORTS.into_iter().chain(WRONG.map(|(name, _)| name));
        names.zip(self.sorts.iter().chain(&self.wrong).copied())
    }

    /// Every sort of line but these was met, and every wrong engine but these would have been found, so many times at least;
    /// these never.
    fn assert_varied(&self, least: u64, but: &[&str]) {
        let holds = |(name, count)| if but.contains(&name) { count == 0 } else { count >= least };
        assert!(self.counts().all(holds), "{self}");
    }
}

impl fmt::Display for Tally {
    fn fmt(&self, f: &mut fmt::Formatter) -> fmt::Result {
        write!(f, "lines on {} tables, numbers returned: {:?}", self.tables, self.returned)?;
        write!(f, "\n  sorts, then wrong engines that differ: ")?;
        self.counts().try_for_each(|(name, count)| write!(f, "{name}: {count}; "))
    }
}

/// The line with an area of these bytes: beside the reference engine and by the documents' words. Answers what it does.
fn compare(pair: &mut Pair, read: &Read, area: &[u8], number: u32, tally: &mut Tally) -> Outcome {
    let (returned, after) = pair.call(Line { number }, area);
    let (outcome, asked) = (Outcome { returned, area: after }, Asked { read, area, number });
    assert_eq!(outcome, asked.right(), "line {number} on {read}: {}", pair.origin());
    tally.note(&asked, &outcome);
    outcome
}

/// These lines of a well laid table, with areas of the exact length. Each is answered up to the last line that has a saved
/// state of each process, and none above it.
fn compare_lines(
    pair: &mut Pair,
    read: &Read,
    lines: impl IntoIterator<Item = u32>,
    tally: &mut Tally,
) -> Vec<Vec<u32>> {
    let (area, last) = (vec![LENT; 4 * read.sections.len()], last_line(&read.sections));
    let mut answers = Vec::new();
    for number in lines {
        let Outcome { returned, area } = compare(pair, read, &area, number, tally);
        assert_eq!(returned == 0, number <= last, "line {number} on {read}: {}", pair.origin());
        if returned == 0 {
            answers.push(to_words(&area));
        }
    }
    tally.tables += 1;
    answers
}

// ---- worked figures

fn worked_controller() -> Pair {
    let mut pair = Pair::fresh(3, 6, ORIGIN);
    assert!(WORKED.iter().all(|&call| pair.exact(call).0 == 0));
    pair
}

/// The lines 0, 1, .. have these positions; then some that are refused.
fn assert_lines(pair: &mut Pair, stated: &[impl AsRef<[u32]>]) {
    let read = Read::of(pair.table());
    for (number, positions) in (0..).zip(stated) {
        let answer = pair.exact(Line { number });
        assert_eq!(answer, (0, positions.as_ref().to_vec()), "line {number} on {read}");
    }
    let next = stated.len() as u32;
    for number in [next, next + 1, 1 << 8, 1 << 24, 1 << 31, MAX] {
        assert_eq!(pair.exact(Line { number }).0, 15, "line {number} on {read}");
    }
}

/// P1 to P3, and the lines above.
#[test]
fn the_worked_controller() {
    assert_lines(&mut worked_controller(), &[[0, 0, 0], [1, 2, 1]]);
}

#[test]
fn written_out() {
    for Answered { table, stated } in lined() {
        assert_lines(&mut Pair::new(&table, ORIGIN), &stated);
    }
}

/// The initial checkpoint is a saved one, with the number 0: line 0 is answered for every n, and line 1 is not.
#[test]
fn fresh_tables() {
    for (n, e) in (1..=16).flat_map(|n| [(n, 1), (n, 6), (n, 1024)]) {
        assert_lines(&mut Pair::fresh(n, e, ORIGIN), &[vec![0; n as usize]]);
    }
}

/// The last checkpoint is the last record of a full section, and another process has one less.
#[test]
fn the_last_place_of_a_full_section() {
    const E: u32 = 1024;
    let saves = |count: u32| (1..=count).map(checkpoint).collect::<Vec<_>>();
    for n in [2, 16] {
        let mut sections = vec![saves(E); n as usize];
        sections[n as usize / 2] = saves(E - 1);
        let mut pair = Pair::new(&from_records(E, &sections), ORIGIN);
        assert_eq!(pair.exact(Line { number: E - 1 }), (0, vec![E - 1; n as usize]));
        assert_eq!(pair.exact(Line { number: E }).0, 15);
        let mut pair = Pair::new(&from_records(E, &vec![saves(E); n as usize]), ORIGIN);
        assert_eq!(pair.exact(Line { number: E }), (0, vec![E; n as usize]));
        assert_eq!(pair.exact(Line { number: E + 1 }).0, 15);
    }
}

/// Each wrong engine on a table that tells it from what is right, and what it does there.
#[test]
fn the_named_wrong_engines() {
    let one = vec![vec![checkpoint(1)], vec![]];
    let other = vec![vec![], vec![checkpoint(1)]];
    let falling = vec![vec![checkpoint(5), checkpoint(2)]; 2];
    let fresh = vec![vec![]; 2];
    // The records, E = 3; the area's length and the line; what is right, and what the wrong engine does.
    type Told<'a> = (&'a [Vec<Record>], usize, u32, (u32, &'a [u32]), (u32, &'a [u32]));
    const HELD: u32 = u32::from_be_bytes([LENT; 4]);
    let told: [Told; WRONG.len()] = [
        (&falling, 8, 3, (0, &[1, 1]), (15, &[HELD, HELD])),
        (&fresh, 8, 1, (15, &[HELD, HELD]), (0, &[0, 0])),
        (&fresh, 8, 0, (0, &[0, 0]), (15, &[HELD, HELD])),
        (&one, 12, 1, (4, &[HELD; 3]), (15, &[HELD; 3])),
        (&other, 8, 1, (15, &[HELD, HELD]), (0, &[0, 1])),
        (&one, 8, 1, (15, &[HELD, HELD]), (0, &[1, 0])),
        (&one, 8, 1, (15, &[HELD, HELD]), (15, &[1, HELD])),
        (&one, 8, 1, (15, &[HELD, HELD]), (0, &[1, 0])),
    ];
    for ((name, wrong), (sections, length, number, right, else_done)) in WRONG.into_iter().zip(told) {
        let table = from_records(3, sections);
        let (read, area) = (Read::of(&table), vec![LENT; length]);
        let outcome = |(returned, words): (u32, &[u32])| Outcome { returned, area: from_words(words) };
        let mut tally = Tally::default();
        let done = compare(&mut Pair::new(&table, ORIGIN), &read, &area, number, &mut tally);
        assert_eq!(done, outcome(right), "{name}");
        assert_eq!(wrong(&Asked { read: &read, area: &area, number }), outcome(else_done), "{name}");
    }
}

// ---- refusals

/// For every n: whichever processes lack the state, table and area keep all their bytes.
#[test]
fn a_refused_line_leaves_every_byte() {
    let mut tally = Tally::default();
    for n in 1..=16u32 {
        let origin = Origin { test: "refused lines", seed: seed(), case: n.into() };
        let mut rng = origin.rng();
        let alone = (0..n).map(|p| 1 << p);
        let several = [(1 << n) - 1, 1 | 1 << (n - 1)].into_iter().chain((0..8).map(|_| rng.below(1 << n)));
        for lacking in alone.chain(several.collect::<Vec<_>>()).filter(|&lacking| lacking != 0) {
            // Who lacks it has saved with smaller numbers alone, has saved nothing or done nothing; the others have it first or last.
            let own = |p: u32| {
                let other = (p + 1) % n;
                let sorts: [&[Record]; 3] = if lacking >> p & 1 == 1 {
                    [&[checkpoint(2), checkpoint(1)], &[send(other, 1, 0)], &[]]
                } else {
                    [&[checkpoint(3)], &[send(other, 1, 0), forced(4)], &[checkpoint(3), checkpoint(0)]]
                };
                // A process that is alone sends nothing.
                sorts[if n == 1 { 0 } else { rng.below(3) as usize }].to_vec()
            };
            let table = from_records(4, &(0..n).map(own).collect::<Vec<_>>());
            let (mut pair, read) = (Pair::new(&table, origin), Read::of(&table));
            assert_eq!(read.row, None, "{read}");
            for area in [rng.bytes(4 * n as usize), vec![0; 4 * n as usize], vec![0xFF; 4 * n as usize]] {
                let outcome = compare(&mut pair, &read, &area, 3, &mut tally);
                assert!(outcome == Outcome { returned: 15, area }, "{lacking:#x} on {read}: {origin}");
                assert!(pair.table() == table, "{lacking:#x} on {read}: {origin}");
            }
            tally.tables += 1;
        }
    }
    println!("refused lines: CKPT_SEED={}, {tally}", seed());
    assert!(tally.sorts[2..].iter().all(|&count| count >= 30), "{tally}");
}

/// Rows 2, 1, 2 and 3, each with all those after it met as well as with none of them, and 4 before 15.
#[test]
fn the_rows_of_the_table() {
    let check = |table: &[u8], area: usize, number: u32, returned: u32| {
        let (mut pair, read) = (Pair::new(table, ORIGIN), Read::of(table));
        let outcome = compare(&mut pair, &read, &vec![LENT; area], number, &mut Tally::default());
        assert_eq!(outcome.returned, returned, "area of {area}, line {number}");
    };
    let sections = [vec![checkpoint(1)], vec![forced(1)], vec![]];
    for (area, number) in [(12, 0), (12, 1), (11, 0), (11, 1), (0, MAX)] {
        for (table, returned) in bad_tables(4, &sections) {
            check(&table, area, number, returned);
        }
    }
    let good = from_records(4, &sections);
    check(&good, 11, 1, 4);
    check(&good, 12, 1, 15);
    check(&good, 12, 0, 0);
}

/// For every n areas of all lengths up to some above, and the lengths of other calls' areas: the area's length comes before a
/// state that isn't saved, and after it line 0 and a saved one are answered.
#[test]
fn the_area_comes_before_the_saved_state() {
    let mut tally = Tally::default();
    for n in 1..=16u32 {
        let exact = 4 * n as usize;
        let mut sections = vec![vec![checkpoint(2)]; n as usize];
        sections[n as usize / 2] = vec![checkpoint(1)];
        let table = from_records(2, &sections);
        let (mut pair, read) = (Pair::new(&table, ORIGIN), Read::of(&table));
        let others = [exact - 1, exact + 1, exact + 4, exact + 8, 2 * exact, table.len(), 1 << 16];
        for area in (0..exact + 20).chain(others) {
            for (number, at_exact) in [(0, 0), (1, 0), (2, 15), (2 * n, 15), (2 * n + 1, 15), (MAX, 15)] {
                let returned = if area == exact { at_exact } else { 4 };
                let outcome = compare(&mut pair, &read, &vec![LENT; area], number, &mut tally);
                assert_eq!(outcome.returned, returned, "n = {n}, area of {area}, line {number}");
            }
        }
        tally.tables += 1;
    }
    println!("areas of lines: {tally}");
    let before = tally.counts().find(|(name, _)| *name == BEFORE_4);
    assert!(before > Some((BEFORE_4, 1_000)) && tally.returned[0] == 32, "{tally}");
}

// ---- all and drawn tables

/// The last line is the smallest number; every line up to it is without orphans, at saved positions alone.
#[test]
fn every_line_of_made_tables() {
    const TABLES: u64 = 12_000;
    let (seed, mut tally, mut lines) = (seed(), Tally::default(), 0);
    for case in 0..TABLES {
        let origin = Origin { test: "lines of made tables", seed, case };
        let mut rng = origin.rng();
        let (n, e) = (1 + rng.below(6), 1 + rng.below(16));
        let steps = rng.below(3 * n * e + 2);
        let table = run(&mut rng, n, e, steps);
        let (mut pair, read) = (Pair::new(&table, origin), Read::of(&table));
        let smallest = read.sections.iter().map(|own| number_of(own)).min().unwrap();
        let answers = compare_lines(&mut pair, &read, (0..=n * e + 1).chain([1 << 31, MAX]), &mut tally);
        assert_eq!(answers.len() as u32, smallest + 1, "{read}: {origin}");
        for (number, cut) in (0..).zip(&answers) {
            for (own, &position) in read.sections.iter().zip(cut) {
                let mut states = saved(own);
                let own_number = states.find(|&(saved, _)| saved == position).map(|(_, number)| number);
                assert!(own_number >= Some(number), "line {number} is {cut:?} on {read}: {origin}");
            }
            assert!(!has_orphan(&read.sections, cut), "line {number} is {cut:?} on {read}: {origin}");
        }
        lines += answers.len() as u64;
    }
    println!("lines of made tables: CKPT_SEED={seed}, {lines} answered, {tally}");
    // On a made table the last number is the largest, and here all areas are exact.
    tally.assert_varied(TABLES / 40, &[ABOVE_A_NUMBER, BY_NUMBER_WORD, BEFORE_4]);
}

/// Lines around every number of small tables: of made ones and such as no run makes.
#[test]
fn lines_around_every_number() {
    const TABLES: u64 = 18_000;
    let (seed, mut all) = (seed(), Tally::default());
    for case in 0..TABLES {
        let origin = Origin { test: "lines around numbers", seed, case };
        let mut rng = origin.rng();
        let (n, e) = (1 + rng.below(6), 1 + rng.below(12));
        let (_, make) = MAKERS[case as usize % MAKERS.len()];
        let table = make(&mut rng, n, e);
        let (mut pair, read) = (Pair::new(&table, origin), Read::of(&table));
        let lines = read.lines().into_iter().chain([n * e - 1, n * e, n * e + 1, 1 << 31, MAX]);
        compare_lines(&mut pair, &read, lines, &mut all);
        // Another length of the area.
        for number in [0, 1, last_line(&read.sections), last_line(&read.sections) + 1, MAX] {
            let length = area_length(&mut rng, 4 * n as usize + 1);
            let area = rng.bytes(length);
            compare(&mut pair, &read, &area, number, &mut all);
        }
    }
    println!("lines around numbers: CKPT_SEED={seed}, {all}");
    all.assert_varied(TABLES / 10, &[]);
}

/// All sections of up to E records for one of several processes, as far as lines can tell them apart: each record a
/// checkpoint with one of the numbers or, where there is another process, a send.
fn all_sections(n: u32, e: u32, p: u32) -> Vec<Vec<Record>> {
    let top = n * e + u32::from(n > 1);
    let all = (0..=e).flat_map(|length| tuples(&vec![top; length as usize]).collect::<Vec<_>>());
    all.map(|chosen| {
        let (mut number, mut sends) = (0, 0);
        let record = |&word: &u32| {
            if word <= n * e {
                number = word;
                return [checkpoint, forced][word as usize % 2](word);
            }
            sends += 1;
            send((p + 1) % n, sends, number)
        };
        chosen.iter().map(record).collect()
    })
    .collect()
}

/// Every well laid table of these dimensions, as far as lines can tell them apart, with every line.
#[test]
fn every_table_of_small_dimensions() {
    let mut all = Tally::default();
    for (n, e) in [(1, 1), (1, 4), (2, 1), (2, 2), (3, 1), (4, 1)] {
        let sections: Vec<_> = (0..n).map(|p| all_sections(n, e, p)).collect();
        let tops: Vec<u32> = sections.iter().map(|of_one| of_one.len() as u32 - 1).collect();
        for chosen in tuples(&tops) {
            let own = |(of_one, &i): (&Vec<Vec<Record>>, &u32)| of_one[i as usize].clone();
            let table = from_records(e, &sections.iter().zip(&chosen).map(own).collect::<Vec<_>>());
            let (mut pair, read) = (Pair::new(&table, ORIGIN), Read::of(&table));
            compare_lines(&mut pair, &read, (0..=n * e + 1).chain([MAX]), &mut all);
        }
    }
    println!("lines of all small tables: {all}");
    all.assert_varied(100, &[BEFORE_4]);
}

/// Words of the worked controller's table changed to others: where the table is well laid still, its lines.
#[test]
fn every_word_of_the_worked_controller() {
    let words = to_words(worked_controller().table());
    let mut tally = Tally::default();
    for place in 0..words.len() {
        for word in (0..=7).chain([17, 18, 19, words[place] ^ 1 << 31, MAX]) {
            let mut pair = pair_of_words(&changed(&words, &[(place, word)]), ORIGIN);
            let read = Read::of(pair.table());
            for number in (0..=8).chain([17, 18, 19, MAX]) {
                compare(&mut pair, &read, &[LENT; 12], number, &mut tally);
            }
            tally.tables += 1;
        }
    }
    println!("words of the worked controller: {tally}");
    assert!([0, 1, 2, 3, 15].iter().all(|&number| tally.returned[number] > 100), "{tally}");
}

/// n = 16, E = 1,024: a made table while it fills up, and tables that no run makes.
#[test]
fn the_largest_tables() {
    let (n, e, seed) = (16, 1024, seed());
    let origin = |case| Origin { test: "lines of largest tables", seed, case };
    let (mut rng, mut case, mut all) = (origin(0).rng(), 0, Tally::default());
    let [made, mut unmade] = largest(&mut rng);
    // Each process saves under one number of its own, all along.
    unmade.extend((0..4).map(|_| {
        let sections = (0..n).map(|_| vec![checkpoint(1 + rng.below(n * e)); e as usize]);
        from_records(e, &sections.collect::<Vec<_>>())
    }));
    for table in made.into_iter().chain(unmade) {
        let (mut pair, read) = (Pair::new(&table, origin(case)), Read::of(&table));
        let last = last_line(&read.sections);
        let drawn = (0..12).map(|_| rng.below(n * e + 2)).collect::<Vec<_>>();
        let lines =
            [0, 1, 2, last / 2, last.saturating_sub(1), last, last + 1, n * e, n * e + 1, 1 << 31, MAX];
        compare_lines(&mut pair, &read, lines.into_iter().chain(drawn), &mut all);
        case += 1;
    }
    println!("lines of largest tables: CKPT_SEED={seed}, {all}");
    assert!(
        all.returned[0] > 40 && all.returned[15] > 40 && all.sorts[1..].iter().all(|&count| count > 0),
        "{all}"
    );
}

/// Damaged tables and other lengths, of made tables and of such as no run makes.
#[test]
fn random_lengths_and_damage() {
    const TABLES: u64 = 20_000;
    let (seed, mut tally) = (seed(), Tally::default());
    for case in 0..TABLES {
        let origin = Origin { test: "damaged lines", seed, case };
        let mut rng = origin.rng();
        let (n, e) = (1 + rng.below(16), 1 + rng.below(16));
        let table = if rng.one_in(2) { run(&mut rng, n, e, n * e) } else { well_laid(&mut rng, n, e) };
        let table = perhaps_damaged(&mut rng, table);
        let (mut pair, read) = (Pair::new(&table, origin), Read::of(&table));
        for number in [0, rng.below(4), rng.below(n * e + 2), rng.extreme(n, e)] {
            let length = area_length(&mut rng, 4 * n as usize);
            let area = rng.bytes(length);
            compare(&mut pair, &read, &area, number, &mut tally);
        }
        tally.tables += 1;
    }
    println!("damaged lines: CKPT_SEED={seed}, {tally}");
    assert!([0, 1, 2, 3, 4, 15].iter().all(|&number| tally.returned[number] > 1_000), "{tally}");
}
