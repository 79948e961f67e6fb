//! Document 02's slip 5: the audit of a table. Nearly every call is made beside the reference engine, where a refused one
//! must change nothing. What is expected is written out here, or follows from how a table came to be; for all tables of
//! small dimensions it is what the proved engine's other calls leave, with no word of the reference.
use beside::drawn::made;
use beside::{on_proved, pair_of_words, seed, Origin, Pair};
use cases::chosen::{bad_tables, crossed, full, WORKED};
use cases::cut::has_orphan;
use cases::made::{altered, down_the_ring, one_word_changed, run, sweeps};
use cases::table::{
    changed, checkpoint, forced, number_of, receipt, record, section, send, words_of_records, Record, A, B,
    CARRIED, CHECKPOINT, COUNT, KIND, RECEIPT, SEND,
};
use cases::Call::{self, Audit, Checkpoint, Line, Receipt, Send};
use cases::{
    from_records, from_words, perhaps_damaged, records, scratch_length, table_length, to_words, well_laid,
};
use std::collections::HashSet;
use std::fmt;

const ORIGIN: Origin = Origin { test: "audit", seed: 0, case: 0 };
/// What the engines find in an area.
const LENT: u8 = 0xEE;

/// What the audit says of a table.
fn verdict(table: &[u8]) -> u32 {
    Pair::new(table, ORIGIN).audited(&vec![LENT; table.len()])
}

fn worked_controller() -> Pair {
    let mut pair = Pair::fresh(3, 6, ORIGIN);
    assert!(WORKED.iter().all(|&call| pair.exact(call).0 == 0));
    pair
}

/// Tables that calls made, after each of them.
#[test]
fn a_table_that_calls_make() {
    let mut pair = Pair::fresh(3, 6, ORIGIN);
    for call in WORKED {
        assert_eq!(pair.exact(Audit), (0, vec![1]), "before {call:?}");
        assert_eq!(pair.exact(call).0, 0);
    }
    assert_eq!(pair.exact(Audit), (0, vec![1]));
    for (n, e) in [(1, 1), (1, 1024), (2, 4), (8, 256), (16, 1), (16, 1024)] {
        assert_eq!(Pair::fresh(n, e, ORIGIN).exact(Audit), (0, vec![1]), "fresh {n}, {e}");
    }
}

/// n = 3, E = 4. Each gets the verdict, and is well laid.
fn judge(sections: &[&[Record]], stated: u32) {
    let sections: Vec<_> = (0..3).map(|p| sections.get(p).map_or(Vec::new(), |s| s.to_vec())).collect();
    let table = from_records(4, &sections);
    assert_eq!(Pair::new(&table, ORIGIN).exact(Line { number: 0 }).0, 0, "{sections:?}");
    assert_eq!(verdict(&table), stated, "{sections:?}");
}

#[test]
fn tables_that_a_run_leaves() {
    judge(&[&[send(1, 1, 0), send(1, 2, 0)], &[receipt(0, 1, 0), receipt(0, 2, 0)]], 1);
    // One message overtakes another.
    judge(&[&[send(1, 1, 0), send(1, 2, 0)], &[receipt(0, 2, 0), receipt(0, 1, 0)]], 1);
    // A receipt that forces, and a later one that carried less and doesn't.
    let (old, new) = (send(1, 1, 0), send(1, 2, 1));
    judge(&[&[old, checkpoint(1), new], &[forced(1), receipt(0, 2, 1), receipt(0, 1, 0)]], 1);
    // An equal number forces nothing; one that is two above its process's forces.
    judge(&[&[checkpoint(1), send(1, 1, 1)], &[checkpoint(1), receipt(0, 1, 1)]], 1);
    judge(
        &[&[checkpoint(1), checkpoint(2), send(1, 1, 2)], &[forced(2), receipt(0, 1, 2), checkpoint(3)]],
        1,
    );
    // The messages of two processes that answer each other: each side sends first, then both do.
    judge(&[&[receipt(1, 1, 0), send(1, 1, 0)], &[send(0, 1, 0), receipt(0, 1, 0)]], 1);
    judge(&[&[send(1, 1, 0), receipt(1, 1, 0)], &[receipt(0, 1, 0), send(0, 1, 0)]], 1);
    judge(&[&[send(1, 1, 0), receipt(1, 1, 0)], &[send(0, 1, 0), receipt(0, 1, 0)]], 1);
    // A ring, the first send at process 0 and at process 1.
    judge(
        &[
            &[send(1, 1, 0), receipt(2, 1, 0)],
            &[receipt(0, 1, 0), send(2, 1, 0)],
            &[receipt(1, 1, 0), send(0, 1, 0)],
        ],
        1,
    );
    judge(
        &[
            &[receipt(2, 1, 0), send(1, 1, 0)],
            &[send(2, 1, 0), receipt(0, 1, 0)],
            &[receipt(1, 1, 0), send(0, 1, 0)],
        ],
        1,
    );
    // Every record used.
    judge(
        &[
            &[send(1, 1, 0), send(2, 2, 0), send(1, 3, 0), send(2, 4, 0)],
            &[checkpoint(1), checkpoint(2), checkpoint(3), checkpoint(4)],
        ],
        1,
    );
}

/// All of them are well laid.
#[test]
fn tables_that_no_run_leaves() {
    // "Two receipts may each wait for the other"; three in a ring; two that wait behind other records.
    judge(&[&[receipt(1, 1, 0), send(1, 1, 0)], &[receipt(0, 1, 0), send(0, 1, 0)]], 0);
    judge(
        &[
            &[receipt(2, 1, 0), send(1, 1, 0)],
            &[receipt(0, 1, 0), send(2, 1, 0)],
            &[receipt(1, 1, 0), send(0, 1, 0)],
        ],
        0,
    );
    judge(
        &[
            &[checkpoint(1), send(2, 1, 1), receipt(1, 1, 0), send(1, 2, 1)],
            &[forced(1), receipt(0, 2, 1), send(0, 1, 1)],
            &[],
        ],
        0,
    );
    // A receipt of a send that isn't there: of none at all, of one above the count.
    judge(&[&[], &[receipt(0, 1, 0)]], 0);
    judge(&[&[send(1, 1, 0)], &[receipt(0, 2, 0)]], 0);
    judge(&[&[send(1, 1, 0)], &[receipt(0, 4, 0)]], 0);
    // Of a send to another process; of another process's send.
    judge(&[&[send(2, 1, 0)], &[receipt(0, 1, 0)]], 0);
    judge(&[&[send(1, 1, 0)], &[receipt(2, 1, 0)]], 0);
    judge(&[&[send(1, 1, 0)], &[], &[receipt(0, 1, 0)]], 0);
    // Twice: one after the other, and with others between.
    judge(&[&[send(1, 1, 0)], &[receipt(0, 1, 0), receipt(0, 1, 0)]], 0);
    judge(
        &[
            &[send(1, 1, 0), send(1, 2, 0)],
            &[receipt(0, 1, 0), receipt(0, 2, 0), checkpoint(1), receipt(0, 1, 0)],
        ],
        0,
    );
    // A fourth word that the send doesn't have: less, more, and less where the right one would have forced.
    judge(&[&[checkpoint(1), send(1, 1, 1)], &[checkpoint(1), receipt(0, 1, 0)]], 0);
    judge(&[&[send(1, 1, 0)], &[checkpoint(1), receipt(0, 1, 1)]], 0);
    judge(&[&[checkpoint(1), send(1, 1, 1)], &[receipt(0, 1, 0)]], 0);
    // A receipt that should have forced, though its number came later.
    judge(&[&[checkpoint(1), send(1, 1, 1)], &[receipt(0, 1, 0), checkpoint(1)]], 0);
    // A forced checkpoint without its receipt: the last record, before a checkpoint, a send, a receipt that carried
    // less, another forced one.
    judge(&[&[checkpoint(1), send(1, 1, 1)], &[forced(1)]], 0);
    judge(&[&[checkpoint(1), send(1, 1, 1)], &[forced(1), checkpoint(2), receipt(0, 1, 1)]], 0);
    judge(&[&[checkpoint(1), send(1, 1, 1)], &[forced(1), send(0, 1, 1), receipt(0, 1, 1)]], 0);
    judge(&[&[checkpoint(1), send(1, 1, 1)], &[forced(2), receipt(0, 1, 1)]], 0);
    judge(
        &[&[send(1, 1, 0), checkpoint(1), send(1, 2, 1)], &[forced(1), receipt(0, 1, 0), receipt(0, 2, 1)]],
        0,
    );
    judge(&[&[checkpoint(1), send(1, 1, 1)], &[forced(1), forced(1), receipt(0, 1, 1)]], 0);
    // One whose number the process has already, or has passed.
    judge(&[&[checkpoint(1), send(1, 1, 1)], &[checkpoint(1), forced(1), receipt(0, 1, 1)]], 0);
    judge(
        &[&[checkpoint(1), send(1, 1, 1)], &[checkpoint(1), checkpoint(2), forced(1), receipt(0, 1, 1)]],
        0,
    );
    judge(&[&[send(1, 1, 0)], &[forced(0), receipt(0, 1, 0)]], 0);
    // A basic one where a forced one is due.
    judge(&[&[checkpoint(1), checkpoint(2), send(1, 1, 2)], &[checkpoint(2), receipt(0, 1, 2)]], 0);
    // Numbers that don't follow the rule: 0, skipped, repeated, falling.
    judge(&[&[checkpoint(0)]], 0);
    judge(&[&[checkpoint(2)]], 0);
    judge(&[&[checkpoint(1), checkpoint(1)]], 0);
    judge(&[&[checkpoint(1), checkpoint(3)]], 0);
    judge(&[&[checkpoint(1), checkpoint(2), checkpoint(1)]], 0);
    judge(&[&[checkpoint(12)]], 0);
    // At the last process too.
    judge(&[&[], &[], &[checkpoint(2)]], 0);
    judge(&[&[send(1, 1, 0)], &[receipt(0, 1, 0)], &[receipt(0, 1, 0)]], 0);
    assert_eq!(verdict(&from_records(4, &full())), 0);
    assert_eq!(verdict(&from_records(4, &crossed())), 0);
}

/// n = 3, E = 4. The last record of a full section is a forced checkpoint, and the next section's heading, with the kind
/// behind it, would pass for its receipt: 4, 2, 1, 1, of a send that is there and carried this.
#[test]
fn a_forced_checkpoint_before_the_next_section() {
    let first = vec![send(1, 1, 0), send(1, 2, 0), send(1, 3, 0), forced(1)];
    let second = vec![checkpoint(1), checkpoint(2), send(2, 1, 2), receipt(0, 1, 0)];
    let third = vec![checkpoint(1), send(0, 1, 1)];
    let words = words_of_records(4, &[first, second, third]);
    assert_eq!(words[section(4, 1)..][..4], receipt(2, 1, 1));
    assert_eq!(verdict(&from_words(&words)), 0);
}

/// Every word of the worked controller's table, changed to others. Two of these tables are made: had one of the processes
/// saved by itself before the receipt that forced it.
#[test]
fn every_word_of_the_worked_controller() {
    let words = to_words(worked_controller().table());
    let (mut met, mut made) = ([0u64; 4], Vec::new());
    for place in 0..words.len() {
        for word in (0..=7).chain([words[place] ^ 1 << 31, u32::MAX]).filter(|&word| word != words[place]) {
            let (returned, answer) = pair_of_words(&changed(&words, &[(place, word)]), ORIGIN).exact(Audit);
            met[returned as usize] += 1;
            made.extend([(place, word)].into_iter().filter(|_| answer == [1]));
        }
    }
    println!("words of the worked controller: numbers returned {met:?}");
    assert_eq!(made, [(record(6, 1, 1) + KIND, CHECKPOINT), (record(6, 2, 0) + KIND, CHECKPOINT)]);
    assert!(met.iter().all(|&count| count > 0) && met[0] > 20, "{met:?}");
}

/// Rows 2, 1, 2, 3, 4 and 14: each case meets its row, and all those after it as well as none of them.
#[test]
fn the_rows_of_area_and_scratch() {
    let check = |table: &[u8], area: usize, scratch: usize, number: u32| {
        let returned = Pair::new(table, ORIGIN).call_on(Audit, &[&vec![LENT; area], &vec![LENT; scratch]]);
        assert_eq!(returned, number, "area of {area}, scratch of {scratch}");
    };
    let made = worked_controller().table().to_vec();
    let unmade = from_records(6, &[vec![checkpoint(2)], vec![], vec![]]);
    let length = made.len();
    for (area, scratch) in [(4, length), (4, 0), (0, length), (5, length + 1)] {
        for (table, returned) in bad_tables(6, &records(&made)) {
            check(&table, area, scratch, returned);
        }
    }
    // A scratch that is as long as a table that has the wrong length.
    check(&made[..length - 4], 4, length - 4, 2);
    for table in [&made, &unmade] {
        for area in (0..=24).filter(|&area| area != 4).chain([length]) {
            for scratch in [0, 4, length - 1, length, length + 1] {
                check(table, area, scratch, 4);
            }
        }
        let long = [2 * length, 8 + length, table_length(16, 1024)];
        for scratch in (0..=length + 32).chain(long).filter(|&scratch| scratch != length) {
            check(table, 4, scratch, 14);
        }
        check(table, 4, length, 0);
    }
}

/// What the scratch held before: a byte everywhere, the table itself, another table, what an earlier audit left,
/// anything.
#[test]
fn whatever_the_scratch_held() {
    const TABLES: u64 = 3_000;
    let (seed, mut verdicts) = (seed(), [0u64; 2]);
    let mut left = Vec::new();
    for case in 0..TABLES {
        let origin = Origin { test: "scratches", seed, case };
        let mut rng = origin.rng();
        let (n, e) = (1 + rng.below(6), 1 + rng.below(12));
        let made = run(&mut rng, n, e, 2 * n * e);
        let table = if rng.one_in(2) { made.clone() } else { altered(&mut rng, &made) };
        let length = table.len();
        let stated = Pair::new(&table, origin).audited(&vec![0; length]);
        let mut pair = Pair::new(&table, origin);
        for held in [0xFF, 0x01, 0x80, rng.below(256) as u8] {
            assert_eq!(pair.audited(&vec![held; length]), stated, "{held}: {origin}");
        }
        left.resize(length, 0);
        let other = well_laid(&mut rng, n, e);
        for held in [&table, &made, &other, &left, &rng.bytes(length)] {
            assert_eq!(pair.audited(held), stated, "{origin}");
        }
        left = pair.areas().last().expect("a scratch").to_vec();
        verdicts[stated as usize] += 1;
    }
    println!("scratches: CKPT_SEED={seed}, tables that got 0 and 1: {verdicts:?}");
    assert!(verdicts.iter().all(|&count| count > TABLES / 8), "{verdicts:?}");
}

// ---- all tables of small dimensions

/// The proved engine's audit alone, on tables of one length, with guard bytes around area and scratch.
struct Auditor {
    lent: Vec<u8>,
    length: usize,
}

impl Auditor {
    const GUARD: [u8; 8] = [0xC3; 8];

    fn of(n: u32, e: u32) -> Auditor {
        let length = table_length(n, e);
        let (guard, area, scratch) = (Self::GUARD, [LENT; 4], vec![0; length]);
        Auditor { lent: [&guard[..], &area, &guard, &scratch, &guard].concat(), length }
    }

    fn guards_stand(&self) -> bool {
        [0, 12, 20 + self.length].iter().all(|&at| self.lent[at..at + 8] == Self::GUARD)
    }

    /// What the audit says of a well laid table. The scratch holds what the audit before left.
    fn verdict(&mut self, table: &[u8]) -> bool {
        let (first, last) = self.lent.split_at_mut(20);
        first[8..12].fill(LENT);
        let returned = ckpt::audit(table, &mut first[8..12], &mut last[..self.length]);
        let area: [u8; 4] = first[8..12].try_into().unwrap();
        assert!(returned == 0 && self.guards_stand(), "{returned} {:?}", records(table));
        match u32::from_be_bytes(area) {
            verdict @ (0 | 1) => verdict == 1,
            other => panic!("{other} {:?}", records(table)),
        }
    }
}

/// All tables that lists of calls leave: from fresh on, each call is made on each table that was reached, until none is
/// new.
fn reached(n: u32, e: u32) -> HashSet<Vec<u8>> {
    let (ps, ks) = (0..=n, 0..=e + 1);
    let pairs = ps.clone().flat_map(|p| (0..=n).map(move |q| (p, q)));
    let mut calls: Vec<Call> = ps.map(|p| Checkpoint { p }).collect();
    calls.extend(pairs.clone().map(|(p, q)| Send { p, q }));
    calls.extend(pairs.flat_map(|(p, q)| ks.clone().map(move |k| Receipt { p, q, k })));
    let mut fresh = vec![LENT; table_length(n, e)];
    assert_eq!(ckpt::fresh(&mut fresh, n, e), 0);
    let mut seen = HashSet::from([fresh.clone()]);
    let mut open = vec![fresh];
    while let Some(table) = open.pop() {
        for &call in &calls {
            let (mut next, mut area) = (table.clone(), vec![LENT; call.area_length(n)]);
            if on_proved(call, &mut [&mut next, &mut area]) == 0 && !seen.contains(&next) {
                seen.insert(next.clone());
                open.push(next);
            }
        }
    }
    seen
}

/// All records that leave a section of process p well laid behind these, with numbers of at most `top`.
fn next_records(own: &[Record], n: u32, e: u32, p: u32, top: u32) -> Vec<Record> {
    let number = number_of(own);
    let sends = own.iter().filter(|r| r[KIND] == SEND).count() as u32;
    let mut next: Vec<Record> = (0..=top).flat_map(|a| [checkpoint(a), forced(a)]).collect();
    for q in (0..n).filter(|&q| q != p) {
        next.push(send(q, sends + 1, number));
        next.extend((1..=e).flat_map(|k| (0..=number).map(move |carried| receipt(q, k, carried))));
    }
    next
}

/// All well laid sections of process p with numbers of at most `top`.
fn sections_of(n: u32, e: u32, p: u32, top: u32) -> Vec<Vec<Record>> {
    let mut sections = vec![Vec::new()];
    let mut done = 0;
    while done < sections.len() {
        let own: Vec<Record> = sections[done].clone();
        done += 1;
        if own.len() < e as usize {
            let next = next_records(&own, n, e, p, top);
            sections.extend(next.into_iter().map(|r| [&own[..], &[r]].concat()));
        }
    }
    sections
}

/// The bytes of these sections of process p.
fn bytes_of(n: u32, e: u32, p: u32, sections: Vec<Vec<Record>>) -> Vec<Vec<u8>> {
    let bytes = |own: Vec<Record>| {
        let mut all = vec![Vec::new(); n as usize];
        all[p as usize] = own;
        from_words(&words_of_records(e, &all)[section(e, p)..section(e, p + 1)])
    };
    sections.into_iter().map(bytes).collect()
}

/// Visits every well laid table with numbers of at most `top`, and answers how many there are.
fn each_table(n: u32, e: u32, top: u32, mut visit: impl FnMut(&[u8])) -> u64 {
    let sections: Vec<_> = (0..n).map(|p| bytes_of(n, e, p, sections_of(n, e, p, top))).collect();
    let mut chosen = vec![0; n as usize];
    let mut table = from_words(&[n, e]);
    table.extend(sections.iter().flat_map(|own| &own[0]));
    let mut count = 0;
    loop {
        visit(&table);
        count += 1;
        // The next one: the first section that has a next, those before it anew.
        let mut p = 0;
        loop {
            if p == n as usize {
                return count;
            }
            chosen[p] = (chosen[p] + 1) % sections[p].len();
            let own = &sections[p][chosen[p]];
            let at = 4 * section(e, p as u32);
            table[at..at + own.len()].copy_from_slice(own);
            if chosen[p] > 0 {
                break;
            }
            p += 1;
        }
    }
}

/// The sections that are tried below are all that are well laid: with the others empty, every section of words up to 4 is
/// looked at.
#[test]
fn the_sections_are_all_that_are_well_laid() {
    const E: u32 = 1;
    for n in 1..=3 {
        for p in 0..n {
            let all: HashSet<_> = bytes_of(n, E, p, sections_of(n, E, p, n * E)).into_iter().collect();
            let (mut table, at) = (from_words(&[n, E]), 4 * section(E, p));
            table.resize(table_length(n, E), 0);
            let mut found = 0;
            for number in 0..5u32.pow(7) {
                let words: Vec<u32> = (0..7).map(|digit| number / 5u32.pow(digit) % 5).collect();
                let own = from_words(&words);
                table[at..at + own.len()].copy_from_slice(&own);
                let laid = ckpt::line(&table, &mut vec![0; 4 * n as usize], 0) == 0;
                assert_eq!(laid, all.contains(&own), "process {p} of {n}: {words:?}");
                found += usize::from(laid);
            }
            assert_eq!(found, all.len(), "process {p} of {n}");
        }
    }
}

/// The tables that get 1 are those that lists of calls leave, and no others. For n = 2, E = 2 and the smaller dimensions
/// here all well laid tables are audited; for n = 2, E = 3 and n = 3, E = 2 those with numbers up to the largest that any
/// list of calls reaches.
#[test]
fn all_small_tables() {
    let cases = [(1, 1, 1), (1, 2, 2), (1, 3, 3), (2, 1, 2), (3, 1, 3), (2, 2, 4), (2, 3, 3), (3, 2, 2)];
    for (n, e, top) in cases {
        let reached = reached(n, e);
        let largest = |table: &Vec<u8>| {
            let sections = records(table);
            sections.iter().flatten().filter(|r| r[KIND] < SEND).map(|r| r[A]).max().unwrap_or(0)
        };
        assert!(reached.iter().map(largest).all(|number| number <= top), "n = {n}, E = {e}");
        let (mut auditor, mut made) = (Auditor::of(n, e), 0);
        let all = each_table(n, e, top, |table| {
            let verdict = auditor.verdict(table);
            assert_eq!(verdict, reached.contains(table), "{:?}", records(table));
            made += u64::from(verdict);
        });
        println!("n = {n}, E = {e}, numbers up to {top}: {made} of {all} well laid tables get 1");
        assert_eq!(made, reached.len() as u64, "n = {n}, E = {e}");
        // A process alone makes checkpoints and nothing else.
        assert!(n > 1 || made == u64::from(e) + 1, "n = {n}, E = {e}: {made}");
    }
}

/// All well laid tables of n = 2, E = 2 beside the reference engine, and those of n = 2, E = 3 with numbers up to 1, of which
/// there are half a million; with larger numbers the test above has them, beside the archive's own calls.
#[test]
fn all_small_tables_beside_the_reference() {
    for (e, top, least) in [(2, 4, [40_000, 50]), (3, 1, [500_000, 200])] {
        let mut verdicts = [0u64; 2];
        let all = each_table(2, e, top, |table| verdicts[verdict(table) as usize] += 1);
        println!("n = 2, E = {e}, numbers up to {top}: tables that got 0 and 1: {verdicts:?}");
        assert!(verdicts[0] > least[0] && verdicts[1] > least[1], "{verdicts:?}");
        assert_eq!(verdicts.iter().sum::<u64>(), all);
    }
}

// ---- drawn tables

/// How many tables of each sort got 0 and 1.
#[derive(Default)]
struct Tally([(&'static str, [u64; 2]); 6]);

impl Tally {
    fn note(&mut self, sort: usize, name: &'static str, verdict: u32) {
        self.0[sort].0 = name;
        self.0[sort].1[verdict as usize] += 1;
    }
}

impl fmt::Display for Tally {
    fn fmt(&self, f: &mut fmt::Formatter) -> fmt::Result {
        self.0
            .iter()
            .try_for_each(|(name, [unmade, made])| write!(f, "\n{name}: {made} got 1, {unmade} got 0"))
    }
}

/// The next call of the process whose records these are, or none where they are used up or begin with a forced checkpoint
/// without a receipt.
fn call_of(p: u32, left: &[Record]) -> Option<Call> {
    let of_receipt = |r: &Record| Receipt { p, q: r[A], k: r[B] };
    match left {
        [r, ..] if r[KIND] == CHECKPOINT => Some(Checkpoint { p }),
        [r, ..] if r[KIND] == SEND => Some(Send { p, q: r[A] }),
        [r, ..] if r[KIND] == RECEIPT => Some(of_receipt(r)),
        [_, r, ..] if r[KIND] == RECEIPT => Some(of_receipt(r)),
        _ => None,
    }
}

/// What the calls that the table's records name leave, made on the proved engine: the processes take turns, each in its own
/// order for as long as its calls are accepted.
fn made_again(table: &[u8]) -> Vec<u8> {
    let (sections, head) = (records(table), to_words(&table[..8]));
    let (n, e) = (head[0], head[1]);
    let mut again = vec![LENT; table.len()];
    assert_eq!(ckpt::fresh(&mut again, n, e), 0);
    loop {
        let mut added = false;
        for (p, own) in (0..n).zip(&sections) {
            loop {
                let count = 4 * (section(e, p) + COUNT);
                let done = to_words(&again[count..count + 4])[0] as usize;
                let Some(call) = own.get(done..).and_then(|left| call_of(p, left)) else { break };
                let mut area = vec![LENT; call.area_length(n)];
                if on_proved(call, &mut [&mut again, &mut area]) != 0 {
                    break;
                }
                added = true;
            }
        }
        if !added {
            return again;
        }
    }
}

/// Tables made by calls and by the rules alone, the same with a word changed or with other records, and those of no run.
/// A made one gets 1, and no table gets 1 but those that the calls of its records leave.
#[test]
fn random_tables() {
    const TABLES: u64 = 60_000;
    let (seed, mut tally, mut refused) = (seed(), Tally::default(), 0u64);
    for case in 0..TABLES {
        let origin = Origin { test: "audits", seed, case };
        let mut rng = origin.rng();
        let (n, e) = (1 + rng.below(6), 1 + rng.below(12));
        let steps = rng.below(3 * n * e + 2);
        let ruled = run(&mut rng, n, e, steps);
        let sort = rng.below(6) as usize;
        let (name, table) = match sort {
            0 => ("made by calls", made(&mut rng, n, e, origin).table().to_vec()),
            1 => ("made by the rules", ruled),
            2 => ("with a word changed", one_word_changed(&mut rng, &ruled)),
            3 => ("altered", altered(&mut rng, &ruled)),
            4 => {
                let once = altered(&mut rng, &ruled);
                ("altered twice", altered(&mut rng, &once))
            }
            _ => ("of no run", well_laid(&mut rng, n, e)),
        };
        let mut pair = Pair::new(&table, origin);
        let held = rng.bytes(table.len());
        if pair.exact(Line { number: 0 }).0 != 0 {
            assert_eq!(pair.call_on(Audit, &[&[LENT; 4], &held]), 3, "{origin}");
            assert_eq!(sort, 2, "{name}: {origin}");
            refused += 1;
            continue;
        }
        let verdict = pair.audited(&held);
        assert!(sort > 1 || verdict == 1, "{name}: {origin}");
        assert_eq!(verdict == 1, made_again(&table) == table, "{name}: {origin}");
        tally.note(sort, name, verdict);
    }
    println!("audits: CKPT_SEED={seed}, {refused} changed tables refused{tally}");
    let sum = |verdict: usize| tally.0.iter().map(|(_, counts)| counts[verdict]).sum::<u64>();
    assert!(sum(0) > 10_000 && sum(1) > 20_000 && refused > 1_000, "{tally}");
    for sort in [3, 4] {
        assert!(tally.0[sort].1.iter().all(|&count| count > 1_000), "{tally}");
    }
}

/// Whether something that was shown for made tables doesn't hold of this one: numbered lines are answered up to the smallest
/// of the processes' numbers and none above it, none of them has an orphan, row 10 isn't met, and no message is received
/// twice.
fn lacks_what_made_tables_have(pair: &mut Pair, n: u32, e: u32) -> bool {
    let table = pair.table().to_vec();
    let sections = records(&table);
    let lines = (0..=n * e).map(|number| pair.exact(Line { number })).collect::<Vec<_>>();
    let smallest = sections.iter().map(|section| number_of(section)).min().unwrap();
    let answered = |(number, line): (u32, &(u32, Vec<u32>))| (number <= smallest) == (line.0 == 0);
    let mut got = HashSet::new();
    let receipts = sections.iter().flatten().filter(|r| r[KIND] == RECEIPT);
    !(0..).zip(&lines).all(answered)
        || lines.iter().any(|(returned, cut)| *returned == 0 && has_orphan(&sections, cut))
        || (0..n).any(|p| pair.on_other(&table).exact(Checkpoint { p }).0 == 10)
        || !receipts.into_iter().all(|r| got.insert((r[A], r[B])))
}

/// "A table that gets 1 has everything that was shown for made tables", though it is a changed one. Of those that get 0 many
/// lack it.
#[test]
fn what_tables_that_get_1_have() {
    const TABLES: u64 = 10_000;
    let (seed, mut verdicts, mut lacking) = (seed(), [0u64; 2], 0u64);
    for case in 0..TABLES {
        let origin = Origin { test: "what 1 stands for", seed, case };
        let mut rng = origin.rng();
        let (n, e) = (2 + rng.below(3), 1 + rng.below(6));
        let table = if rng.one_in(4) {
            well_laid(&mut rng, n, e)
        } else {
            let made = run(&mut rng, n, e, 2 * n * e);
            altered(&mut rng, &made)
        };
        let mut pair = Pair::new(&table, origin);
        let verdict = pair.audited(&vec![LENT; table.len()]);
        let lacks = lacks_what_made_tables_have(&mut pair, n, e);
        assert!(verdict == 0 || !lacks, "{origin}");
        verdicts[verdict as usize] += 1;
        lacking += u64::from(lacks);
    }
    println!("what 1 stands for: CKPT_SEED={seed}, tables that got 0 and 1: {verdicts:?}, {lacking} lack something");
    assert!(
        verdicts.iter().all(|&count| count > TABLES / 5) && lacking > TABLES / 10,
        "{verdicts:?} {lacking}"
    );
}

/// Damaged tables and other lengths, of tables that a run made.
#[test]
fn random_lengths_and_damage() {
    const TABLES: u64 = 20_000;
    let (seed, mut met) = (seed(), [0u64; 15]);
    for case in 0..TABLES {
        let origin = Origin { test: "damage", seed, case };
        let mut rng = origin.rng();
        let (n, e) = (1 + rng.below(16), 1 + rng.below(16));
        let made = run(&mut rng, n, e, n * e);
        let table = perhaps_damaged(&mut rng, made);
        let area = cases::area_length(&mut rng, 4);
        let scratch = scratch_length(&mut rng, n, table.len());
        let (area, scratch) = (rng.bytes(area), rng.bytes(scratch));
        met[Pair::new(&table, origin).call_on(Audit, &[&area, &scratch]) as usize] += 1;
    }
    println!("damage: CKPT_SEED={seed}, numbers returned: {met:?}");
    assert!([0, 1, 2, 3, 4, 14].iter().all(|&number| met[number] > 200), "{met:?}");
}

// ---- large tables

/// All send numbers that there are, received backwards. Then one of them twice, at the edges of bytes and words, in which
/// a receiver may note them; and one of another sender, which is another message.
#[test]
fn every_send_number_once() {
    const E: u32 = 1024;
    let sends: Vec<Record> = (1..=E).map(|k| send(2, k, 0)).collect();
    let backwards: Vec<Record> = (1..=E).rev().map(|k| receipt(0, k, 0)).collect();
    let judged = |place: usize, other: Record| {
        let mut receipts = backwards.clone();
        receipts[place] = other;
        verdict(&from_records(E, &[sends.clone(), sends.clone(), receipts]))
    };
    let edges = [1, 2, 7, 8, 9, 31, 32, 33, 63, 64, 65, 127, 128, 129, 511, 512, 513, 1022, 1023, 1024];
    for k in edges {
        // In the place of the first one, of (0, 1024), then in that of the last, of (0, 1).
        assert_eq!(judged(0, receipt(0, k, 0)), u32::from(k == E), "{k}");
        assert_eq!(judged(E as usize - 1, receipt(0, k, 0)), u32::from(k == 1), "{k}");
        assert_eq!(judged(0, receipt(1, k, 0)), 1, "{k}");
    }
}

/// Process 0 saves 1,023 times and then sends; process 2 is forced to this number. Then a number differs in one bit: of the
/// receipt, of the forced checkpoint, of both, of a save, and of a save that the send comes right behind.
#[test]
fn every_bit_of_large_numbers() {
    const E: u32 = 1024;
    let last = E - 1;
    let saves: Vec<Record> = (1..=last).map(checkpoint).collect();
    let judged = |saves: &[Record], carried: u32, got: [Record; 2]| {
        let sender = [saves, &[send(2, 1, carried)]].concat();
        verdict(&from_records(E, &[sender, vec![], got.to_vec()]))
    };
    let got = [forced(last), receipt(0, 1, last)];
    assert_eq!(judged(&saves, last, got), 1);
    for bit in 0..10 {
        // All bits of 1,023 are set, so the other number is less.
        let other = last ^ 1 << bit;
        assert_eq!(judged(&saves, last, [got[0], receipt(0, 1, other)]), 0, "{bit}");
        assert_eq!(judged(&saves, last, [forced(other), receipt(0, 1, other)]), 0, "{bit}");
        assert_eq!(judged(&saves, last, [forced(last + (1 << bit)), got[1]]), 0, "{bit}");
        let mut early = saves.clone();
        early[600] = checkpoint(601 ^ 1 << bit);
        assert_eq!(judged(&early, last, got), 0, "{bit}");
        let mut late = saves.clone();
        late[last as usize - 1] = checkpoint(other);
        assert_eq!(judged(&late, other, [forced(other), receipt(0, 1, other)]), 0, "{bit}");
    }
    // The forced checkpoint alone.
    let alone = from_records(E, &[saves.clone(), vec![], vec![forced(last)]]);
    assert_eq!(verdict(&alone), 0);
}

/// A record of the kind, the last of its section.
fn last_of(sections: &[Vec<Record>], p: usize, kind: u32) -> Option<usize> {
    sections[p].iter().rposition(|r| r[KIND] == kind)
}

/// n = 16, E = 1,024 and others: tables of long runs, the same with the last receipt of each process changed, and with
/// changes that are drawn.
#[test]
fn the_largest_tables() {
    let (seed, mut verdicts, mut receipts) = (seed(), [0u64; 2], 0);
    for (case, (n, e)) in [(16, 1024), (2, 1024), (3, 700), (9, 300), (16, 64)].into_iter().enumerate() {
        let origin = Origin { test: "large audits", seed, case: case as u64 };
        let mut rng = origin.rng();
        let table = run(&mut rng, n, e, 3 * n * e);
        let sections = records(&table);
        assert!(sections.iter().all(|own| own.len() as u32 >= e - 1), "{origin}");
        receipts += sections.iter().flatten().filter(|r| r[KIND] == RECEIPT).count();
        let mut judged = |table: &[u8], stated: Option<u32>| {
            let verdict = Pair::new(table, origin).audited(&vec![LENT; table.len()]);
            assert!(stated.is_none_or(|stated| verdict == stated), "{verdict}: {origin}");
            verdicts[verdict as usize] += 1;
        };
        judged(&table, Some(1));
        for p in 0..n as usize {
            let at = last_of(&sections, p, RECEIPT).expect("a receipt");
            let mut words = to_words(&table);
            let place = record(e, p as u32, at as u32);
            let carried = words[place + CARRIED];
            words[place + CARRIED] = if carried > 0 { carried - 1 } else { number_of(&sections[p][..at]) };
            let kept = words[place + CARRIED] == carried;
            judged(&from_words(&words), Some(u32::from(kept)));
            words[place + CARRIED] = carried;
            words[place + B] = 1;
            words[place + A] = (p as u32 + 1) % n;
            judged(&from_words(&words), None);
        }
        for _ in 0..40 {
            judged(&altered(&mut rng, &table), None);
        }
    }
    println!("large audits: CKPT_SEED={seed}, {receipts} receipts, tables that got 0 and 1: {verdicts:?}");
    assert!(verdicts[0] > 80 && verdicts[1] > 5 && receipts > 5_000, "{verdicts:?} {receipts}");
}

/// A message that goes down the ring of processes takes the most sweeps over them. Then the first one is missing, so that
/// none can begin, and the last.
#[test]
fn the_most_sweeps() {
    for (n, e, least) in [(2, 1024, 500), (3, 6, 4), (16, 64, 400), (16, 1024, 7_600)] {
        let ring = down_the_ring(n, e);
        let count = sweeps(&ring);
        assert!(count >= least, "{count} sweeps at n = {n}, E = {e}");
        assert_eq!(verdict(&ring), 1, "n = {n}, E = {e}");
        // The first send stands behind the first receipt of its process.
        let mut sections = records(&ring);
        let last = n as usize - 1;
        sections[last].swap(0, 1);
        assert_eq!(sections[last][0][KIND], RECEIPT);
        assert_eq!(verdict(&from_records(e, &sections)), 0, "n = {n}, E = {e}");
        // A last receipt is of a send that isn't there.
        let mut sections = records(&ring);
        let p = (0..n as usize).max_by_key(|&p| sections[p].len()).unwrap();
        let at = last_of(&sections, p, RECEIPT).unwrap();
        sections[p][at][B] = e;
        assert_eq!(verdict(&from_records(e, &sections)), 0, "n = {n}, E = {e}");
        println!("n = {n}, E = {e}: {count} sweeps");
    }
}
