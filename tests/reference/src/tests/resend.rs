//! Slip 1.
use super::*;

/// On an area of the given length filled with a mark.
fn asked(table: &[u8], positions: &[u32], length: usize) -> (u32, Vec<u8>) {
    let mut area = vec![0xA5; length];
    let returned = resend(table, &from_words(positions), &mut area);
    (returned, area)
}

/// The wording, judged for every sender, send number and receiver there can be.
fn brute(model: &Table, cut: &[usize]) -> Vec<u32> {
    let mut list = vec![0];
    for q in 0..model.n() {
        for k in 1..=model.dimensions.e as u32 {
            for p in 0..model.n() {
                let sent = model.sections[q][..cut[q]].iter().any(|r| r.is_send(p, k));
                let got = model.sections[p][..cut[p]].iter().any(|r| r.is_receipt(q, k));
                if sent && !got {
                    list[0] += 1;
                    list.extend([q as u32, k, p as u32]);
                }
            }
        }
    }
    list
}

#[test]
fn resend_on_the_worked_controller() {
    let table = worked_controller();
    let cases: [([u32; 3], &[u32]); 7] = [
        ([0, 0, 0], &[0]),
        ([2, 4, 3], &[0]),
        ([1, 2, 1], &[1, 1, 1, 2]),          // P5: (1, 1) is in transit
        ([2, 2, 1], &[2, 0, 1, 1, 1, 1, 2]), // P6
        ([2, 4, 1], &[2, 1, 1, 2, 1, 2, 2]), // P7
        ([0, 4, 2], &[1, 1, 1, 2]),          // (0, 1) is an orphan and not listed
        ([2, 1, 3], &[1, 0, 1, 1]),          // (1, 2) is an orphan
    ];
    for (positions, list) in cases {
        let exact = 4 * list.len();
        for length in [exact, exact + 1, exact + 50] {
            let mut area = from_words(list);
            area.resize(length, 0xA5);
            assert_eq!(asked(&table, &positions, length), (0, area), "{positions:?}");
        }
        assert_eq!(asked(&table, &positions, exact - 1), (13, vec![0xA5; exact - 1]));
        assert_eq!(asked(&table, &positions, 0).0, 13);
    }
}

#[test]
fn resend_order_of_checks() {
    let table = worked_controller();
    let mut bad = table.clone();
    bad[11] = 1;
    assert_eq!(asked(&bad, &[9], 0).0, 3);
    assert_eq!(asked(&table[..7], &[9], 0).0, 2);
    for positions in [&[][..], &[0, 0], &[0, 0, 0, 0], &[3, 0, 0], &[0, 5, 0], &[0, 0, u32::MAX]] {
        assert_eq!(asked(&table, positions, 0).0, 12); // 12 before 13
        assert_eq!(asked(&table, positions, 100), (12, vec![0xA5; 100]));
    }
    let mut area = [0xA5; 100];
    assert_eq!(resend(&table, &[0; 13], &mut area), 12);
    assert_eq!(resend(&table, &[0; 11], &mut area), 12);
    assert_eq!(area, [0xA5; 100]);
}

#[test]
fn resend_agrees_with_its_wording_on_any_cut() {
    let mut rng = rng(101);
    let (mut listed, mut with_orphans) = (0, 0);
    for round in 0..6_000 {
        let (n, e) = rng.dimensions(4, 6);
        let table = match round % 2 {
            0 => random_run(&mut rng, n, e),
            _ => bytes_of(&random_well_laid(&mut rng, n, e)),
        };
        let model = Table::parse(&table).unwrap();
        let cut: Vec<usize> = model.sections.iter().map(|s| rng.below(s.len() as u32 + 1) as usize).collect();
        let list = brute(&model, &cut);
        listed += list[0];
        with_orphans += u32::from(has_orphan(&model, &cut));
        let positions: Vec<u32> = cut.iter().map(|&t| t as u32).collect();
        let exact = 4 * list.len();
        let length = exact + rng.below(20) as usize;
        let (returned, area) = asked(&table, &positions, length);
        assert_eq!(returned, 0);
        assert_eq!(area[..exact], from_words(&list));
        assert!(area[exact..].iter().all(|&b| b == 0xA5));
        let short = rng.below(exact as u32) as usize;
        assert_eq!(asked(&table, &positions, short), (13, vec![0xA5; short]));
        let mut above = positions.clone();
        let p = rng.below(n) as usize;
        above[p] = model.sections[p].len() as u32 + 1 + rng.below(3);
        assert_eq!(asked(&table, &above, length), (12, vec![0xA5; length]));
    }
    assert!(listed > 3_000 && with_orphans > 1_000, "{listed} {with_orphans}");
}
