//! Slip 7.
use super::*;

fn asked(table: &[u8], n: u32, mask: u32) -> (u32, Vec<u32>) {
    let mut area = vec![0xA5; 8 * n as usize];
    let returned = grounds(table, &mut area, mask);
    assert!(returned == 0 || area.iter().all(|&b| b == 0xA5));
    (returned, if returned == 0 { words_of(&area).collect() } else { Vec::new() })
}

#[test]
fn grounds_on_the_worked_controller() {
    let table = worked_controller();
    for (mask, answer) in [
        (0, [0, 0, 0, 0, 0, 0]),
        (1, [1, 0, 2, 3, 2, 2]), // P5: 1 falls by (0, 1), then 2 by (1, 2)
        (2, [0, 0, 1, 0, 2, 2]),
        (3, [1, 0, 1, 0, 2, 2]),
        (4, [0, 0, 0, 0, 1, 0]),
        (5, [1, 0, 2, 3, 1, 0]),
        (6, [0, 0, 1, 0, 1, 0]),
        (7, [1, 0, 1, 0, 1, 0]),
    ] {
        assert_eq!(asked(&table, 3, mask), (0, answer.to_vec()), "{mask}");
    }
    assert_eq!(asked(&table, 3, 8).0, 11);
    assert_eq!(asked(&table, 3, 1 << 31).0, 11);
    // A failed process whose last checkpoint is its count, or the initial one.
    let mut table = made(2, 4);
    assert_eq!(asked(&table, 2, 3), (0, vec![1, 0, 1, 0]));
    assert_eq!(Checkpoint { p: 0 }.run(&mut table, 2).0, 0);
    assert_eq!(asked(&table, 2, 0), (0, vec![0, 0, 0, 0]));
    assert_eq!(asked(&table, 2, 1), (0, vec![1, 0, 0, 0]));
}

#[test]
fn grounds_order_of_checks() {
    let table = worked_controller();
    let mut bad = table.clone();
    bad[11] = 1;
    for (table, length, returned) in [
        (&table[..7], 0, 2),
        (&bad[..], 0, 3),
        (&table, 0, 4),
        (&table, 20, 4),
        (&table, 25, 4),
        (&table, 24, 11),
    ] {
        let mut area = vec![0xA5; length];
        assert_eq!(grounds(table, &mut area, 8), returned);
        assert!(area.iter().all(|&b| b == 0xA5));
    }
}

#[test]
fn grounds_agree_with_brute_force() {
    let mut rng = rng(701);
    let mut seen = [0; 3];
    for round in 0..3_000 {
        let (n, e) = rng.dimensions(4, 6);
        let model = if round % 2 == 0 {
            random_well_laid(&mut rng, n, e)
        } else {
            Table::parse(&random_run(&mut rng, n, e)).unwrap()
        };
        for mask in 0..1 << n {
            let cut = brute_failure_line(&model, mask);
            let (returned, answer) = asked(&bytes_of(&model), n, mask);
            assert_eq!(returned, 0);
            for p in 0..n as usize {
                let (records, failed) = (&model.sections[p], mask & (1 << p) != 0);
                let is_saved = |t: usize| {
                    t == 0 || matches!(records[t - 1], Record::Basic { .. } | Record::Forced { .. })
                };
                let is_outside = |place: usize| match records[place - 1] {
                    Record::Receipt { from, number, .. } => {
                        !model.sections[from][..cut[from]].iter().any(|r| r.is_send(p, number))
                    }
                    _ => false,
                };
                let (ground, place) = (answer[2 * p], answer[2 * p + 1] as usize);
                seen[ground as usize] += 1;
                let at_last = (cut[p] + 1..=records.len()).all(|t| !is_saved(t));
                match ground {
                    0 => assert!(!failed && cut[p] == records.len() && place == 0),
                    1 => assert!(failed && at_last && place == 0),
                    _ => {
                        assert!(if failed { !at_last } else { cut[p] < records.len() });
                        assert!(place > cut[p] && is_outside(place));
                        assert!((cut[p] + 1..place).all(|t| !is_outside(t)));
                        let mut later = cut[p] + 1..=records.len();
                        let next = later.find(|&t| is_saved(t) || !failed && t == records.len());
                        assert!(place <= next.unwrap());
                    }
                }
            }
        }
    }
    assert!(seen.iter().all(|&times| times > 3_000), "{seen:?}");
}
