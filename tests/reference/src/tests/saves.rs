//! Slip 9. No call changes; what is to be shown is tried on small tables.
use super::*;

fn is_checkpoint(record: &Record) -> bool {
    matches!(record, Record::Basic { .. } | Record::Forced { .. })
}

/// Whether some cut without orphans has p at exactly t and each other process
/// at a checkpoint, the initial one included, or at its count.
fn has_use(model: &Table, p: usize, t: usize) -> bool {
    let mut cuts: Vec<Vec<usize>> = vec![Vec::new()];
    for (q, records) in model.sections.iter().enumerate() {
        let positions: Vec<usize> = match q == p {
            true => vec![t],
            false => (0..=records.len())
                .filter(|&t| t == 0 || t == records.len() || is_checkpoint(&records[t - 1]))
                .collect(),
        };
        let longer =
            |cut: &Vec<usize>| positions.iter().map(|&t| [&cut[..], &[t]].concat()).collect::<Vec<_>>();
        cuts = cuts.iter().flat_map(longer).collect();
    }
    cuts.iter().any(|cut| !has_orphan(model, cut))
}

fn number_at(records: &[Record], t: usize) -> Option<u32> {
    match t.checked_sub(1).map(|i| records[i]) {
        None => Some(0),
        Some(Record::Basic { number } | Record::Forced { number }) => Some(number),
        _ => None,
    }
}

/// One such cut without a search: each other process at its first checkpoint
/// whose number is that of this one or more, else at its count.
fn direct_cut(model: &Table, p: usize, t: usize) -> Vec<usize> {
    let number = number_at(&model.sections[p], t);
    let position = |(q, records): (usize, &Vec<Record>)| match q == p {
        true => t,
        false => (0..=records.len()).find(|&t| number_at(records, t) >= number).unwrap_or(records.len()),
    };
    model.sections.iter().enumerate().map(position).collect()
}

/// Saves of the table, basic and forced, all of them of use.
fn all_have_use(model: &Table) -> [usize; 2] {
    let mut saves = [0, 0];
    for (p, records) in model.sections.iter().enumerate() {
        assert!(has_use(model, p, 0));
        for (i, record) in records.iter().enumerate().filter(|(_, r)| is_checkpoint(r)) {
            saves[usize::from(matches!(record, Record::Forced { .. }))] += 1;
            assert!(has_use(model, p, i + 1), "place {} of process {p} in {model:?}", i + 1);
            assert!(!has_orphan(model, &direct_cut(model, p, i + 1)));
        }
    }
    saves
}

#[test]
fn every_save_of_all_small_made_tables_has_a_use() {
    for (n, e) in [(1, 4), (2, 3), (2, 4), (3, 2)] {
        for table in super::audit::all_made(n, e) {
            all_have_use(&Table::parse(&table).unwrap());
        }
    }
}

#[test]
fn every_save_of_random_made_tables_has_a_use() {
    let mut rng = rng(901);
    let (mut basic, mut forced) = (0, 0);
    for _ in 0..3_000 {
        let (n, e) = rng.dimensions(4, 9);
        let saves = all_have_use(&Table::parse(&random_run(&mut rng, n, e)).unwrap());
        basic += saves[0];
        forced += saves[1];
    }
    assert!(basic > 3_000 && forced > 1_000, "{basic} {forced}");
}

#[test]
fn a_table_of_no_run_may_hold_an_idle_save() {
    // The save lies between a receipt and the send that the other's receipt
    // before its own send needed.
    let sent = |to| Record::Send { to, number: 1, carried: 0 };
    let got = |from| Record::Receipt { from, number: 1, carried: 0 };
    let sections = vec![vec![got(1), Record::Basic { number: 0 }, sent(1)], vec![got(0), sent(0)]];
    let model = Table { dimensions: Dimensions::checked(2, 3).unwrap(), sections };
    assert!(well_laid(&bytes_of(&model)) && !has_use(&model, 0, 2));
}
