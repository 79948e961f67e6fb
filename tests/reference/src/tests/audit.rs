//! Slip 5.
use super::*;
use std::collections::HashSet;

/// On an area and a scratch filled with marks.
fn audited(table: &[u8]) -> u32 {
    let (mut area, mut scratch) = ([0xA5; 4], vec![0x5A; table.len()]);
    assert_eq!(audit(table, &mut area, &mut scratch), 0);
    u32::from_be_bytes(area)
}

/// Every step whose numbers aren't refused out of hand.
fn steps(n: u32, e: u32) -> Vec<Step> {
    let mut steps = Vec::new();
    for p in 0..n {
        steps.push(Step::Checkpoint { p });
        for q in (0..n).filter(|&q| q != p) {
            steps.push(Step::Send { p, q });
            steps.extend((1..=e).map(|k| Step::Receipt { p, q, k }));
        }
    }
    steps
}

/// The tables that all runs leave, as bytes. There is no end but the records'.
pub fn all_made(n: u32, e: u32) -> HashSet<Vec<u8>> {
    let steps = steps(n, e);
    let first = Table::fresh(Dimensions::checked(n, e).unwrap());
    let mut seen = HashSet::from([bytes_of(&first)]);
    let mut open = vec![first];
    while let Some(model) = open.pop() {
        for &step in &steps {
            let mut next = model.clone();
            if next.take(step).is_ok() && seen.insert(bytes_of(&next)) {
                open.push(next);
            }
        }
    }
    seen
}

/// All well laid sections of process p whose numbers are at most `top`.
fn all_sections(n: usize, e: usize, top: u32, p: usize) -> Vec<Vec<Record>> {
    let mut sections = vec![Vec::new()];
    let mut done = 0;
    while done < sections.len() {
        let section: Vec<Record> = sections[done].clone();
        done += 1;
        if section.len() == e {
            continue;
        }
        let own = section.iter().rev().find_map(|r| match *r {
            Record::Basic { number } | Record::Forced { number } => Some(number),
            _ => None,
        });
        let own = own.unwrap_or(0);
        let sends = section.iter().filter(|r| matches!(r, Record::Send { .. })).count() as u32;
        let mut add = |record| sections.push([&section[..], &[record]].concat());
        for number in 0..=top {
            add(Record::Basic { number });
            add(Record::Forced { number });
        }
        for other in (0..n).filter(|&q| q != p) {
            add(Record::Send { to: other, number: sends + 1, carried: own });
            for number in 1..=e as u32 {
                for carried in 0..=own {
                    add(Record::Receipt { from: other, number, carried });
                }
            }
        }
    }
    sections
}

/// Audits every well laid table with numbers up to `top`; gives how many
/// there are and how many get 1.
fn audit_all(n: u32, e: u32, top: u32) -> (usize, usize) {
    let made = all_made(n, e);
    let dimensions = Dimensions::checked(n, e).unwrap();
    let sections: Vec<_> = (0..n as usize).map(|p| all_sections(n as usize, e as usize, top, p)).collect();
    let all: usize = sections.iter().map(Vec::len).product();
    let mut ones = 0;
    for mut index in 0..all {
        let mut choose = |own: &Vec<Vec<Record>>| {
            let section = own[index % own.len()].clone();
            index /= own.len();
            section
        };
        let model = Table { dimensions, sections: sections.iter().map(&mut choose).collect() };
        let table = bytes_of(&model);
        let one = audited(&table);
        assert_eq!(one == 1, made.contains(&table), "{model:?}");
        ones += one as usize;
    }
    (all, ones)
}

fn table_of(n: u32, e: u32, sections: &[&[Record]]) -> Vec<u8> {
    let dimensions = Dimensions::checked(n, e).unwrap();
    bytes_of(&Table { dimensions, sections: sections.iter().map(|s| s.to_vec()).collect() })
}

#[test]
fn audit_of_receipts_that_wait_for_each_other() {
    let sent = |to| Record::Send { to, number: 1, carried: 0 };
    let got = |from| Record::Receipt { from, number: 1, carried: 0 };
    assert_eq!(audited(&table_of(2, 2, &[&[got(1), sent(1)], &[got(0), sent(0)]])), 0);
    assert_eq!(audited(&table_of(2, 2, &[&[sent(1), got(1)], &[got(0), sent(0)]])), 1);
    assert_eq!(audited(&table_of(2, 2, &[&[sent(1), got(1)], &[sent(0), got(0)]])), 1);
    assert_eq!(audited(&table_of(2, 2, &[&[sent(1)], &[got(0), got(0)]])), 0); // twice
    assert_eq!(audited(&table_of(2, 2, &[&[], &[got(0)]])), 0); // never sent
    assert_eq!(audited(&table_of(3, 2, &[&[sent(1)], &[], &[got(0)]])), 0); // sent to another
    let ring = |first: [Record; 2]| [first, [got(0), sent(2)], [got(1), sent(0)]];
    let [a, b, c] = ring([got(2), sent(1)]);
    assert_eq!(audited(&table_of(3, 2, &[&a, &b, &c])), 0);
    let [a, b, c] = ring([sent(1), got(2)]);
    assert_eq!(audited(&table_of(3, 2, &[&a, &b, &c])), 1);
}

#[test]
fn audit_order_of_checks() {
    let table = worked_controller();
    assert_eq!(audited(&table), 1);
    let mut bad = table.clone();
    bad[11] = 1;
    let length = table.len();
    for (table, area, scratch, returned) in [
        (&table[..7], 0, 0, 2),
        (&bad[..], 0, 0, 3),
        (&bad, 4, length, 3),
        (&table, 0, 0, 4),
        (&table, 3, length, 4),
        (&table, 5, length, 4),
        (&table, 4, 0, 14),
        (&table, 4, length - 1, 14),
        (&table, 4, length + 1, 14),
    ] {
        let (mut area, mut scratch) = (vec![0xA5; area], vec![0x5A; scratch]);
        assert_eq!(audit(table, &mut area, &mut scratch), returned);
        assert!(area.iter().all(|&b| b == 0xA5) && scratch.iter().all(|&b| b == 0x5A));
    }
}

#[test]
fn audit_agrees_with_all_runs_on_all_small_tables() {
    for e in 1..=3 {
        audit_all(1, e, e);
    }
    assert_eq!(audit_all(1, 2, 2), (43, 3));
    audit_all(2, 1, 2);
    audit_all(3, 1, 3);
    let (all, ones) = audit_all(2, 2, 4);
    assert!(all > 40_000 && ones > 50, "{all} {ones}");
    let (all, ones) = audit_all(2, 3, 1);
    assert!(all > 500_000 && ones > 200, "{all} {ones}");
}

#[test]
fn audit_agrees_with_all_runs_on_mutated_tables() {
    let mut rng = rng(501);
    for (n, e) in [(2, 3), (2, 4), (3, 2)] {
        let made = all_made(n, e);
        let mut sorted: Vec<&Vec<u8>> = made.iter().collect();
        sorted.sort();
        let mut answers = [0, 0];
        for table in &sorted {
            if made.len() < 20_000 || rng.below(20) == 0 {
                assert_eq!(audited(table), 1);
            }
        }
        for _ in 0..150_000 {
            let chosen = sorted[rng.below(sorted.len() as u32) as usize];
            let mut model = Table::parse(chosen).unwrap();
            for _ in 0..1 + rng.below(2) {
                mutate(&mut rng, &mut model);
            }
            let table = bytes_of(&model);
            if Table::parse(&table).is_ok() && &table != chosen {
                let one = audited(&table);
                assert_eq!(one == 1, made.contains(&table), "{model:?}");
                answers[one as usize] += 1;
            }
        }
        assert!(answers[0] > 5_000 && answers[1] > 500, "{n} {e} {} {answers:?}", made.len());
    }
}

/// One small change that often leaves the table well laid.
fn mutate(rng: &mut Xorshift, model: &mut Table) {
    let n = model.n() as u32;
    let p = rng.below(n) as usize;
    let other = (p + 1 + rng.below(n.max(2) - 1) as usize) % n as usize;
    let records = &mut model.sections[p];
    let Some(last) = records.len().checked_sub(1) else { return };
    let at = rng.below(last as u32 + 1) as usize;
    match rng.below(6) {
        0 => records.swap(at, last),
        1 if at < last => records.swap(at, at + 1),
        2 => drop(records.remove(at)),
        3 if records.len() < model.dimensions.e => {
            let (number, carried) = (1 + rng.below(2), rng.below(2));
            records.insert(at, Record::Receipt { from: other, number, carried });
        }
        _ => {
            let small = rng.below(3);
            match &mut records[at] {
                Record::Basic { number } | Record::Forced { number } => *number = small,
                Record::Send { to, .. } => *to = other,
                Record::Receipt { from, number, carried } => match small {
                    0 => *carried = rng.below(2),
                    1 => *number = 1 + rng.below(3),
                    _ => *from = other,
                },
            }
        }
    }
    // Mend what the other records fix.
    let (mut own, mut sends) = (0, 0);
    for record in records {
        match record {
            Record::Basic { number } | Record::Forced { number } => own = *number,
            Record::Send { number, carried, .. } => {
                sends += 1;
                (*number, *carried) = (sends, own);
            }
            Record::Receipt { .. } => {}
        }
    }
}

#[test]
fn audit_of_the_largest_tables() {
    // One message at a time goes round, checkpoints in between.
    let mut model = Table::fresh(Dimensions::checked(16, 1024).unwrap());
    let mut hops = 0;
    'rounds: for round in 1.. {
        for p in 0..16 {
            let next = (p + 1) % 16;
            if round > 2 && (p + round) % 7 == 0 && model.take(Step::Checkpoint { p }).is_err() {
                break 'rounds;
            }
            let taken = model.take(Step::Send { p, q: next });
            if taken.and_then(|()| model.take(Step::Receipt { p: next, q: p, k: round })).is_err() {
                break 'rounds;
            }
            hops += 1;
        }
    }
    assert!(hops > 5_000, "{hops}");
    assert_eq!(audited(&bytes_of(&model)), 1);
    model.sections[0].swap(0, 1); // its first send and its first receipt
    let table = bytes_of(&model);
    assert!(well_laid(&table));
    assert_eq!(audited(&table), 0);
}
