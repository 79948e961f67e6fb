//! Document 02's slip 9: every save can be used. No call changes. On tables that the proved engine's calls made, each checkpoint is
//! looked for in all cuts that the document allows, and tried in one that needs no search; numbered lines, failure lines and
//! grounds have to fit. Tables of no run, and those of an engine that saves too late, have checkpoints of no use.
use beside::cuts::History;
use beside::tables::{made, Maker, Run, MAKERS};
use beside::{seed, Origin, Pair};
use cases::chosen::{idle_saves, WORKED};
use cases::cut::{has_orphan, last_saved, saved, saved_position};
use cases::saves::{idle, saves, used, Save};
use cases::table::{number_of, receipt, section, Record, FORCED, KIND, NUMBER};
use cases::Call::{self, Audit, Checkpoint, Failed, Grounds, Line, Receipt, Send};
use cases::{from_records, made as ruled, to_words, Rng};
use std::fmt;

const ORIGIN: Origin = Origin { test: "saves", seed: 0, case: 0 };

// ---- the document's words

/// "A cut without orphans that has its process at exactly that checkpoint and each other process at a checkpoint or at its count."
fn uses(history: &History, save: Save, cut: &[u32]) -> bool {
    let may_be = |q: usize| if q == save.p { cut[q] == save.position } else { history.permits(0, q, cut[q]) };
    (0..cut.len()).all(may_be) && !history.has_orphan(cut)
}

// ---- wrong cuts

/// Where another process with these records is put, for a checkpoint with this number.
type Wrong = fn(&[Record], u32) -> u32;

fn count(own: &[Record]) -> u32 {
    own.len() as u32
}

/// The last of its saved states whose number is as wanted.
fn last_numbered(own: &[Record], wanted: impl Fn(u32) -> bool) -> Option<u32> {
    saved(own).filter(|&(_, number)| wanted(number)).last().map(|(position, _)| position)
}

/// What a hurried engineer takes for the cut. The tests count how often each doesn't use the checkpoint.
const WRONG: [(&str, Wrong); 9] = [
    ("at the counts", |own, _| count(own)),
    ("at the last checkpoints", |own, _| last_saved(own)),
    ("the first above N", |own, number| saved_position(own, number + 1).unwrap_or(count(own))),
    ("the last below N", |own, number| last_numbered(own, |other| other < number).unwrap_or(count(own))),
    ("the last at or below N", |own, number| {
        last_numbered(own, |other| other <= number).unwrap_or(count(own))
    }),
    ("0 where there is none", |own, number| saved_position(own, number).unwrap_or(0)),
    ("the last checkpoint where there is none", |own, number| {
        saved_position(own, number).unwrap_or(last_saved(own))
    }),
    ("the initial one left out", |own, number| {
        saved(own).skip(1).find(|&(_, other)| other >= number).map_or(count(own), |(position, _)| position)
    }),
    ("forced ones left out", |own, number| {
        let is_forced = |position: u32| position > 0 && own[position as usize - 1][KIND] == FORCED;
        let found = saved(own).find(|&(position, other)| other >= number && !is_forced(position));
        found.map_or(count(own), |(position, _)| position)
    }),
];

// ---- what was tried

/// The checkpoints of a test.
#[derive(Default)]
struct Tally {
    tables: u64,
    /// How many were initial, basic and forced.
    saves: [u64; 3],
    /// For how many some process has no saved state of that number, and is at its count.
    lacking: u64,
    /// For how many each wrong cut is of no use.
    wrong: [u64; WRONG.len()],
}

impl Tally {
    fn note(&mut self, history: &History, save: Save) {
        let sections = &history.sections;
        self.saves[save.kind(sections) as usize] += 1;
        self.lacking += u64::from(sections.iter().any(|own| saved_position(own, save.number).is_none()));
    }

    /// The same, with the wrong cuts, where each receipt is looked up by the document's words too.
    fn note_wrong(&mut self, history: &History, save: Save) {
        self.note(history, save);
        for (found, (_, wrong)) in self.wrong.iter_mut().zip(WRONG) {
            let cut = save.with(&history.sections, wrong);
            assert_eq!(history.has_orphan(&cut), has_orphan(&history.sections, &cut), "{cut:?} on {history}");
            *found += u64::from(!uses(history, save, &cut));
        }
    }
}

impl fmt::Display for Tally {
    fn fmt(&self, f: &mut fmt::Formatter) -> fmt::Result {
        let Tally { tables, saves: [initial, basic, forced], lacking, wrong } = self;
        write!(f, "{tables} tables, checkpoints: {initial} initial, {basic} basic, {forced} forced; ")?;
        write!(f, "for {lacking} a process has none of that number")?;
        if wrong.iter().any(|&found| found > 0) {
            write!(f, "\n  wrong cuts that are of no use: ")?;
            WRONG.iter().zip(wrong).try_for_each(|((name, _), found)| write!(f, "{name}: {found}; "))?;
        }
        Ok(())
    }
}

/// The cut that needs no search uses the checkpoint.
fn assert_used(history: &History, save: Save, origin: Origin) {
    let cut = save.cut(&history.sections);
    assert!(uses(history, save, &cut), "{save:?} by {cut:?} on {history}: {origin}");
}

/// n and E of tables on which all cuts can be tried.
fn dimensions(rng: &mut Rng) -> (u32, u32) {
    (1 + rng.below(4), 2 + rng.below(8))
}

/// Such a table.
fn small(rng: &mut Rng, make: Maker) -> (Vec<u8>, History) {
    let (n, e) = dimensions(rng);
    let table = make(rng, n, e);
    let history = History::of(&table);
    (table, history)
}

/// So many cases of a test.
fn origins(test: &'static str, count: u64) -> impl Iterator<Item = Origin> {
    (0..count).map(move |case| Origin { test, seed: seed(), case })
}

// ---- all checkpoints

/// All cuts are tried, then the one that needs no search.
#[test]
fn every_checkpoint_of_small_made_tables() {
    let mut tally = Tally::default();
    for origin in origins("saves of small tables", 6_000) {
        let (_, history) = small(&mut origin.rng(), made);
        let used = used(&history.sections);
        for save in saves(&history.sections) {
            assert!(used[save.p].contains(&save.position), "{save:?} on {history}: {origin}");
            assert_used(&history, save, origin);
            assert!(!has_orphan(&history.sections, &save.cut(&history.sections)), "{save:?}: {origin}");
            tally.note_wrong(&history, save);
        }
        tally.tables += 1;
    }
    println!("small tables: CKPT_SEED={}, {tally}", seed());
    let [_, basic, forced] = tally.saves;
    assert!(basic > 10_000 && forced > 2_000 && tally.lacking > 2_000, "{tally}");
    assert!(tally.wrong.iter().all(|&found| found > 200), "{tally}");
}

/// Up to n = 16, E = 1,024.
#[test]
fn every_checkpoint_of_large_made_tables() {
    // The first ones are the largest there are, nearly full. The sooner messages are received, the more of them force.
    const RECENT: [usize; 3] = [2, 20, 1000];
    let mut tally = Tally::default();
    for origin in origins("saves of large tables", 200) {
        let mut rng = origin.rng();
        let run = match RECENT.get(origin.case as usize) {
            Some(&recent) => {
                let mut run = Run::new(16, 1024, recent);
                run.calls(&mut rng, 16, 1024, 20_000);
                run
            }
            None => {
                let bound = 1 << (1 + rng.below(10));
                let (n, e) = (1 + rng.below(16), 1 + rng.below(bound));
                Run::random(&mut rng, n, e)
            }
        };
        let history = History::of(&run.table);
        for save in saves(&history.sections) {
            assert_used(&history, save, origin);
            tally.note(&history, save);
        }
        tally.tables += 1;
    }
    println!("large tables: CKPT_SEED={}, {tally}", seed());
    let [_, basic, forced] = tally.saves;
    assert!(basic > 20_000 && forced > 5_000 && tally.lacking > 1_000, "{tally}");
}

/// The worked controller, where all checkpoints but the initial ones are numbered 1, and after process 2 has saved once more.
#[test]
fn the_worked_controller() {
    let mut pair = Pair::fresh(3, 6, ORIGIN);
    assert!(WORKED.iter().all(|&call| pair.exact(call).0 == 0));
    let cuts = |pair: &Pair| {
        let history = History::of(pair.table());
        saves(&history.sections).map(|save| (save.p, save.cut(&history.sections))).collect::<Vec<_>>()
    };
    let (start, line) = (vec![0, 0, 0], vec![1, 2, 1]);
    let mut stated: Vec<_> = (0..3).flat_map(|p| [(p, start.clone()), (p, line.clone())]).collect();
    assert_eq!(cuts(&pair), stated);
    assert_eq!(pair.exact(Checkpoint { p: 2 }), (0, vec![2]));
    stated.push((2, vec![2, 4, 4]));
    assert_eq!(cuts(&pair), stated);
}

// ---- lines

/// Line N, once each process that lacks a state for it has saved until it has one, in a table with room for that.
fn line_after_saves(history: &History, e: u32, number: u32, origin: Origin) -> Vec<u32> {
    let roomy = from_records(e + number, &history.sections);
    let mut pair = Pair::new(&roomy, origin);
    assert_eq!(pair.exact(Audit), (0, vec![1]), "{history}: {origin}");
    for (p, own) in (0..).zip(&history.sections) {
        for _ in number_of(own)..number {
            assert_eq!(pair.exact(Checkpoint { p }).0, 0, "{history}: {origin}");
        }
    }
    let (returned, line) = pair.exact(Line { number });
    assert_eq!(returned, 0, "line {number} on {history}: {origin}");
    line
}

/// Where line N is answered, N a checkpoint's number, it is the cut through this checkpoint. Where it returns 15, those with the
/// number N or more are at a saved state of the cut, as they are on the line once the others have saved, and the others, whose
/// number is below, are at their counts, the records before they save.
#[test]
fn lines_and_cuts() {
    let (mut tally, mut returned_by) = (Tally::default(), [0u64; 16]);
    for origin in origins("saves and lines", 1_500) {
        let (table, history) = small(&mut origin.rng(), made);
        let (mut pair, words) = (Pair::new(&table, origin), to_words(&table));
        let (n, e) = (words[0], words[1]);
        for save in saves(&history.sections) {
            let Save { number, .. } = save;
            let cut = save.cut(&history.sections);
            let (returned, line) = pair.exact(Line { number });
            let has_one = |q: u32| words[section(e, q) + NUMBER] >= number;
            assert_eq!(returned, if (0..n).all(has_one) { 0 } else { 15 }, "{save:?} on {history}: {origin}");
            let line = if returned == 0 { line } else { line_after_saves(&history, e, number, origin) };
            for q in 0..n {
                let (at, own) = (cut[q as usize], &history.sections[q as usize]);
                let holds = if has_one(q) {
                    at == line[q as usize]
                } else {
                    at == count(own) && at < line[q as usize]
                };
                assert!(holds, "process {q} of {cut:?}, line {line:?}, {save:?} on {history}: {origin}");
            }
            returned_by[returned as usize] += 1;
            tally.note(&history, save);
        }
        tally.tables += 1;
    }
    println!("lines: CKPT_SEED={}, numbers returned: {returned_by:?}, {tally}", seed());
    assert!(
        returned_by[0] > 5_000 && returned_by[15] > 1_000 && tally.saves[2] > 400,
        "{returned_by:?} {tally}"
    );
    assert_eq!(returned_by[15], tally.lacking);
}

// ---- restarts

/// Where process p is when it alone fails, and its ground.
fn failed_alone(pair: &mut Pair, p: usize) -> (u32, [u32; 2]) {
    let (failure, line) = pair.exact(Failed { mask: 1 << p });
    let (grounds, words) = pair.exact(Grounds { mask: 1 << p });
    assert_eq!((failure, grounds), (0, 0), "{}", pair.origin());
    (line[p], [words[2 * p], words[2 * p + 1]])
}

/// The cut through a checkpoint is permitted where its process failed, alone or with others that have saved with its number or
/// more; so the failure line is at least as late. A process that fails alone reloads its very last save.
#[test]
fn failure_lines_and_cuts() {
    let (mut tally, mut lines, mut later) = (Tally::default(), 0u64, 0u64);
    for origin in origins("saves and failures", 1_500) {
        let mut rng = origin.rng();
        let (table, history) = small(&mut rng, made);
        let mut pair = Pair::new(&table, origin);
        for (p, own) in history.sections.iter().enumerate() {
            let alone = (last_saved(own), [1, 0]);
            assert_eq!(failed_alone(&mut pair, p), alone, "process {p} of {history}: {origin}");
        }
        for save in saves(&history.sections) {
            let cut = save.cut(&history.sections);
            let has_one = |q: usize| saved_position(&history.sections[q], save.number).is_some();
            let all: u32 = (0..cut.len()).filter(|&q| has_one(q)).map(|q| 1 << q).sum();
            for mask in [1 << save.p, all, 1 << save.p | all & rng.below(1 << cut.len())] {
                assert!((0..cut.len()).all(|q| history.permits(mask, q, cut[q])), "{save:?} on {history}");
                let (returned, line) = pair.exact(Failed { mask });
                let as_late = cut.iter().zip(&line).all(|(own, at)| at >= own);
                assert!(returned == 0 && as_late, "{save:?}, mask {mask} on {history}: {origin}");
                lines += 1;
                later += u64::from(line[..cut.len()] != cut);
            }
            tally.note(&history, save);
        }
        tally.tables += 1;
    }
    println!("failures: CKPT_SEED={}, {lines} lines, {later} later than the cut, {tally}", seed());
    assert!(later > lines / 10 && later < lines - lines / 10, "{later} of {lines}, {tally}");
}

// ---- tables of no run

/// Both sections are well laid, no run leaves them, and the only save of process 0 is of no use: where 0 fails it is at its start.
/// Answers the cuts without orphans that have it at its save, wherever process 1 is.
fn cuts_at_idle(sections: &[Vec<Record>; 2]) -> Vec<Vec<u32>> {
    let table = from_records(3, sections);
    let (mut pair, history) = (Pair::new(&table, ORIGIN), History::of(&table));
    assert_eq!(pair.exact(Audit), (0, vec![0]), "{history}");
    let save = Save { p: 0, position: 2, number: 1 };
    assert_eq!(idle(sections), [save]);
    assert_eq!(failed_alone(&mut pair, 0), (0, [2, 1]), "{history}");
    assert!(!uses(&history, save, &save.cut(sections)), "{history}");
    history.clean_cuts().into_iter().filter(|cut| cut[0] == 2).collect()
}

/// What the audit of two sections, E = 3, returns and answers.
fn audited(sections: &[Vec<Record>; 2]) -> (u32, Vec<u32>) {
    Pair::new(&from_records(3, sections), ORIGIN).exact(Audit)
}

/// Two receipts wait for each other, so that no cut at all has process 0 at its save.
#[test]
fn a_save_between_receipts_that_wait_for_each_other() {
    let [mut waiting, carried, _] = idle_saves();
    assert!(cuts_at_idle(&waiting).is_empty() && cuts_at_idle(&carried).is_empty());
    // With what its send carried the receipt would be above its process's number.
    waiting[1][0] = receipt(0, 1, 1);
    assert_eq!(audited(&waiting).0, 3);
}

/// Saved after the receipt: process 1 would have to be behind its send and before the receipt, where it has saved nothing.
#[test]
fn a_save_behind_the_receipt_that_forced_it() {
    let [.., mut late] = idle_saves();
    assert_eq!(cuts_at_idle(&late), [[2, 1]]);
    late[1][1] = receipt(0, 1, 1);
    assert_eq!(audited(&late).0, 3);
    // Before the receipt it is as a run leaves it, and of use.
    late[1].swap(1, 2);
    assert_eq!(audited(&late), (0, vec![1]));
    assert_eq!(idle(&late), []);
}

/// Tables that no run makes have checkpoints of no use, so that the search above could have found one. A process that fails alone
/// is at its latest one that is of use, whatever the table.
#[test]
fn checkpoints_of_tables_of_no_run() {
    for (name, make) in MAKERS {
        let (mut tally, mut of_no_use, mut lower) = (Tally::default(), 0, 0u64);
        for origin in origins(name, 2_000) {
            let (table, history) = small(&mut origin.rng(), make);
            let mut pair = Pair::new(&table, origin);
            let used = used(&history.sections);
            for (p, own) in history.sections.iter().enumerate() {
                let latest = saved(own).map(|(position, _)| position).filter(|t| used[p].contains(t)).last();
                let (at, ground) = failed_alone(&mut pair, p);
                assert_eq!(Some(at), latest, "process {p} of {history}: {origin}");
                assert_eq!(
                    ground[0],
                    1 + u32::from(at < last_saved(own)),
                    "process {p} of {history}: {origin}"
                );
                lower += u64::from(at < last_saved(own));
            }
            saves(&history.sections).for_each(|save| tally.note(&history, save));
            of_no_use += idle(&history.sections).len();
            tally.tables += 1;
        }
        println!("{name}: CKPT_SEED={}, {of_no_use} of no use, {lower} that fail alone are below their last, {tally}", seed());
        let is_made = name == "made";
        assert_eq!(of_no_use == 0, is_made, "{name}: {of_no_use}, {tally}");
        assert!(is_made || of_no_use > 300 && lower > 150, "{name}: {of_no_use} {lower}, {tally}");
    }
}

// ---- an engine that saves after the receipt

/// What accepted calls leave by the rules on records or, where `late`, with the checkpoint that a receipt forces behind it. Numbers
/// and room are the same, so that the same calls are accepted.
fn left_by(n: u32, e: u32, calls: &[Call], late: bool) -> ruled::Run {
    let mut run = ruled::Run::fresh(n, e);
    for &call in calls {
        let done = match call {
            Checkpoint { p } => run.checkpoint(p),
            Send { p, q } => run.send(p, q),
            Receipt { p, q, k } => {
                let before = run.sections[p as usize].len();
                let i = run.waiting.iter().position(|m| (m.from, m.to, m.k) == (q, p, k)).expect("a message");
                let received = run.receive(i);
                // A forced checkpoint and its receipt change places; a receipt alone stays.
                let added = &mut run.sections[p as usize][before..];
                if late {
                    added.reverse();
                }
                received
            }
            _ => unreachable!("a step"),
        };
        assert!(done, "{call:?}");
    }
    run
}

/// The same calls, drawn on the proved engine: all checkpoints that it leaves are of use, and where forced ones come late some are
/// not. Such a table isn't even well laid, as the receipt before a late one carries more than the number before it.
#[test]
fn an_engine_that_saves_after_the_receipt() {
    let (mut tally, mut tables, mut of_no_use, mut refused) = (Tally::default(), 0u64, 0, 0u64);
    for origin in origins("late saves", 4_000) {
        let mut rng = origin.rng();
        let (n, e) = dimensions(&mut rng);
        let run = Run::random(&mut rng, n, e);
        let own = left_by(n, e, &run.accepted, false);
        assert!(own.table() == run.table, "{:?}: {origin}", own.sections);
        assert_eq!(idle(&own.sections), [], "{:?}: {origin}", own.sections);
        let late = left_by(n, e, &run.accepted, true);
        let lost = idle(&late.sections).len();
        let forces = late.sections.iter().flatten().any(|r| r[KIND] == FORCED);
        let returned = Pair::new(&late.table(), origin).exact(Line { number: 0 }).0;
        assert_eq!(returned, if forces { 3 } else { 0 }, "{:?}: {origin}", late.sections);
        refused += u64::from(forces);
        tables += u64::from(lost > 0);
        of_no_use += lost;
        let history = History::of(&run.table);
        saves(&history.sections).for_each(|save| tally.note(&history, save));
        tally.tables += 1;
    }
    println!(
        "late saves: CKPT_SEED={}, {of_no_use} of no use on {tables} tables, {refused} laid badly, {tally}",
        seed()
    );
    assert!(tables > 50 && refused > 500, "{tables} {refused} {tally}");
}
