//! Document 01's own cases and its table of checks. Each number is asserted as the document has it, and every call is
//! made beside the reference engine. Tables have document 02's fourth word, and receipts its places: tests/carried.rs and
//! tests/places.rs have more of these.
use beside::{pair_of_words, Origin, Pair};
use cases::chosen::{bad_tables, count_into_next_section, full, one_free_at, ONE_OF_EACH};
use cases::table::{
    changed, checkpoint, forced, record, section, words_of_records, A, B, CARRIED, COUNT, KIND, NUMBER,
    SENDS, WIDTH,
};
use cases::Call::{self, Audit, Checkpoint, Failed, Fresh, Grounds, Line, Receipt, Resend, Send};
use cases::{from_records, from_words, records, table_length, to_words};

const ORIGIN: Origin = Origin { test: "document 01", seed: 0, case: 0 };
const MAX: u32 = u32::MAX;

fn accept(pair: &mut Pair, calls: &[(Call, &[u32])]) {
    for &(call, answer) in calls {
        assert_eq!(pair.exact(call), (0, answer.to_vec()), "{call:?}");
    }
}

fn worked_controller() -> Pair {
    let mut pair = Pair::fresh(3, 6, ORIGIN);
    accept(
        &mut pair,
        &[
            (Checkpoint { p: 0 }, &[1]),
            (Send { p: 0, q: 1 }, &[1, 1]),
            (Send { p: 1, q: 2 }, &[1, 0]),
            (Receipt { p: 1, q: 0, k: 1 }, &[1, 1, 2, 3]),
            (Send { p: 1, q: 2 }, &[2, 1]),
            (Receipt { p: 2, q: 1, k: 2 }, &[1, 1, 4, 2]),
            (Receipt { p: 2, q: 1, k: 1 }, &[0, 0, 1, 3]),
        ],
    );
    pair
}

#[test]
fn the_worked_controller() {
    let mut pair = worked_controller();
    #[rustfmt::skip]
    let table = from_words(&[
        3, 6,
        2, 1, 1,  1, 1, 0, 0,  3, 1, 1, 1,  0, 0, 0, 0,  0, 0, 0, 0,  0, 0, 0, 0,  0, 0, 0, 0,
        4, 1, 2,  3, 2, 1, 0,  2, 1, 0, 0,  4, 0, 1, 1,  3, 2, 2, 1,  0, 0, 0, 0,  0, 0, 0, 0,
        3, 1, 0,  2, 1, 0, 0,  4, 1, 2, 1,  4, 1, 1, 0,  0, 0, 0, 0,  0, 0, 0, 0,  0, 0, 0, 0,
    ]);
    assert_eq!(pair.table(), table);
    let counts: Vec<usize> = records(pair.table()).iter().map(Vec::len).collect();
    assert_eq!(counts, [2, 4, 3]);
    let cases: [(Call, u32, &[u32]); 10] = [
        (Line { number: 0 }, 0, &[0, 0, 0]),       // P1
        (Line { number: 1 }, 0, &[1, 2, 1]),       // P2
        (Line { number: 2 }, 15, &[]),             // P3, by document 02's slip 8
        (Failed { mask: 0 }, 0, &[2, 4, 3, 0, 0]), // P4
        (Failed { mask: 1 }, 0, &[1, 2, 1, 7, 3]), // P5
        (Failed { mask: 2 }, 0, &[2, 2, 1, 6, 2]), // P6
        (Failed { mask: 4 }, 0, &[2, 4, 1, 4, 1]), // P7
        (Failed { mask: 8 }, 11, &[]),             // P8
        (Receipt { p: 2, q: 1, k: 1 }, 8, &[]),    // P9
        (Receipt { p: 1, q: 0, k: 2 }, 7, &[]),    // P10
    ];
    for (call, returned, answer) in cases {
        assert_eq!(pair.exact(call), (returned, answer.to_vec()), "{call:?}");
        assert_eq!(pair.table(), table, "{call:?}");
    }
}

/// The listing of the text program, by the calls that it makes.
#[test]
fn the_text_listing() {
    let mut pair = Pair::fresh(2, 4, ORIGIN);
    accept(
        &mut pair,
        &[
            (Checkpoint { p: 0 }, &[1]),
            (Send { p: 0, q: 1 }, &[1, 1]),
            (Receipt { p: 1, q: 0, k: 1 }, &[1, 1, 2, 2]),
            (Line { number: 1 }, &[1, 1]),
            (Failed { mask: 1 }, &[1, 1, 3, 2]),
        ],
    );
}

/// Document 02, slip 2: the mask and the count after a failure have every process that failed, at its count too.
#[test]
fn a_failed_process_always_goes_back() {
    let mut pair = Pair::fresh(2, 4, ORIGIN);
    accept(
        &mut pair,
        &[
            (Failed { mask: 3 }, &[0, 0, 3, 2]),
            (Checkpoint { p: 0 }, &[1]),
            (Failed { mask: 1 }, &[1, 0, 1, 1]),
            (Failed { mask: 2 }, &[1, 0, 2, 1]),
            (Failed { mask: 3 }, &[1, 0, 3, 2]),
            (Failed { mask: 0 }, &[1, 0, 0, 0]),
        ],
    );
}

#[test]
fn nine_when_too_few_records_are_free() {
    let mut pair = Pair::fresh(2, 2, ORIGIN);
    accept(&mut pair, &[(Checkpoint { p: 0 }, &[1]), (Send { p: 0, q: 1 }, &[1, 1])]);
    assert_eq!(pair.exact(Checkpoint { p: 0 }).0, 9);
    let mut unsent = Pair::new(pair.table(), ORIGIN);
    accept(&mut pair, &[(Send { p: 1, q: 0 }, &[1, 0])]);
    assert_eq!(pair.exact(Receipt { p: 1, q: 0, k: 1 }).0, 9);
    // Without that send two records are free, which is enough to force.
    accept(&mut unsent, &[(Receipt { p: 1, q: 0, k: 1 }, &[1, 1, 2, 2])]);
    // One free record is enough where nothing is forced.
    let mut pair = Pair::fresh(2, 2, ORIGIN);
    accept(
        &mut pair,
        &[
            (Send { p: 0, q: 1 }, &[1, 0]),
            (Send { p: 1, q: 0 }, &[1, 0]),
            (Receipt { p: 1, q: 0, k: 1 }, &[0, 0, 1, 2]),
            (Checkpoint { p: 0 }, &[1]),
        ],
    );
    assert_eq!(pair.exact(Checkpoint { p: 1 }).0, 9);
    assert_eq!(pair.exact(Send { p: 1, q: 0 }).0, 9);
}

#[test]
fn ten_on_a_table_that_no_run_makes() {
    let numbered = |number| Pair::new(&from_records(2, &[vec![checkpoint(number)]]), ORIGIN);
    assert_eq!(numbered(2).exact(Checkpoint { p: 0 }).0, 10);
    assert_eq!(numbered(1).exact(Checkpoint { p: 0 }), (0, vec![2]));
}

/// Document 01's dimensions and slip 3's, with the lengths that slip 3 gives.
#[test]
fn the_lengths() {
    for (n, e, length) in [(1, 1, 36), (2, 4, 160), (8, 256, 32_872), (16, 1024, 262_344)] {
        let mut zeros = vec![0; length / 4];
        zeros[..2].copy_from_slice(&[n, e]);
        let mut pair = Pair::new(&vec![0xEE; length], ORIGIN);
        assert_eq!(pair.call(Fresh { n, e }, &[]).0, 0);
        assert_eq!(pair.table(), from_words(&zeros));
        assert_eq!(pair.exact(Line { number: 0 }), (0, vec![0; n as usize]));
        assert_eq!(pair.exact(Line { number: 1 }).0, 15);
        let failed = [vec![0; n as usize], vec![1, 1]].concat();
        assert_eq!(pair.exact(Failed { mask: 1 }), (0, failed));
        for other in [length - 1, length + 1] {
            assert_eq!(Pair::new(&vec![0xEE; other], ORIGIN).call(Fresh { n, e }, &[]).0, 2);
            // The other calls too, on what would be a fresh table.
            let mut table = from_words(&zeros);
            table.resize(other, 0);
            for call in ONE_OF_EACH {
                assert_eq!(Pair::new(&table, ORIGIN).call(call, &vec![0; call.area_length(n)]).0, 2);
            }
        }
    }
}

#[test]
fn tables_under_eight_bytes() {
    for length in 0..8 {
        // The bytes that are there begin a good table, or one whose dimensions are out of range.
        for head in [[3, 6], [17, 6], [0, 0]] {
            let table = &from_words(&head)[..length];
            for call in ONE_OF_EACH {
                for area in [0, 4, 8, 12, 20] {
                    assert_eq!(Pair::new(table, ORIGIN).call(call, &vec![0; area]).0, 2, "{call:?}");
                }
            }
            for (n, e) in [(1, 1), (3, 6), (16, 1024)] {
                assert_eq!(Pair::new(table, ORIGIN).call(Fresh { n, e }, &[]).0, 2);
            }
            for (n, e) in [(0, 1), (1, 0), (17, 1), (1, 1025), (MAX, MAX), (1 << 31, 1)] {
                assert_eq!(Pair::new(table, ORIGIN).call(Fresh { n, e }, &[]).0, 1);
            }
        }
    }
    // Eight bytes have dimensions: those out of range come first, the length is wrong for all others.
    for (head, returned) in [([3, 6], 2), ([1, 1], 2), ([17, 6], 1), ([0, 1], 1), ([1, 0], 1), ([1, 1025], 1)]
    {
        for call in ONE_OF_EACH {
            assert_eq!(
                Pair::new(&from_words(&head), ORIGIN).call(call, &[]).0,
                returned,
                "{call:?} {head:?}"
            );
        }
    }
}

#[test]
fn empty_slices_without_bytes_behind_them() {
    assert_eq!(ckpt::fresh(&mut [], 1, 1), 2);
    assert_eq!(ckpt::fresh(&mut [], 0, 1), 1);
    assert_eq!(ckpt::checkpoint(&mut [], &mut [], 0), 2);
    assert_eq!(ckpt::send(&mut [], &mut [], 0, 1), 2);
    assert_eq!(ckpt::receipt(&mut [], &mut [], 0, 1, 1), 2);
    assert_eq!(ckpt::line(&[], &mut [], 0), 2);
    assert_eq!(ckpt::failed(&[], &mut [], 0), 2);
    assert_eq!(ckpt::grounds(&[], &mut [], 0), 2);
    assert_eq!(ckpt::resend(&[], &[], &mut []), 2);
    assert_eq!(ckpt::audit(&[], &mut [], &mut []), 2);
    let mut table = worked_controller().table().to_vec();
    let before = table.clone();
    assert_eq!(ckpt::checkpoint(&mut table, &mut [], 0), 4);
    assert_eq!(ckpt::send(&mut table, &mut [], 0, 1), 4);
    assert_eq!(ckpt::receipt(&mut table, &mut [], 0, 1, 1), 4);
    assert_eq!(ckpt::line(&table, &mut [], 0), 4);
    assert_eq!(ckpt::failed(&table, &mut [], 0), 4);
    assert_eq!(ckpt::grounds(&table, &mut [], 0), 4);
    assert_eq!(ckpt::resend(&table, &[], &mut []), 12);
    assert_eq!(ckpt::resend(&table, &[0; 12], &mut []), 13);
    assert_eq!(ckpt::audit(&table, &mut [], &mut []), 4);
    assert_eq!(ckpt::audit(&table, &mut [0; 4], &mut []), 14);
    assert_eq!(table, before);
}

#[test]
fn both_of_two_overtaking_messages_are_received() {
    let mut pair = Pair::fresh(2, 4, ORIGIN);
    accept(
        &mut pair,
        &[
            (Send { p: 0, q: 1 }, &[1, 0]),
            (Checkpoint { p: 0 }, &[1]),
            (Send { p: 0, q: 1 }, &[2, 1]),
            (Receipt { p: 1, q: 0, k: 2 }, &[1, 1, 3, 2]),
            (Receipt { p: 1, q: 0, k: 1 }, &[0, 0, 1, 3]),
        ],
    );
    assert_eq!(pair.exact(Receipt { p: 1, q: 0, k: 2 }).0, 8);
    assert_eq!(pair.exact(Receipt { p: 1, q: 0, k: 1 }).0, 8);
    assert_eq!(records(pair.table())[1], [[2, 1, 0, 0], [4, 0, 2, 1], [4, 0, 1, 0]]);
}

#[test]
fn an_equal_number_forces_nothing() {
    let mut pair = Pair::fresh(2, 4, ORIGIN);
    accept(
        &mut pair,
        &[
            (Checkpoint { p: 0 }, &[1]),
            (Checkpoint { p: 1 }, &[1]),
            (Send { p: 0, q: 1 }, &[1, 1]),
            (Receipt { p: 1, q: 0, k: 1 }, &[1, 0, 2, 2]),
            (Checkpoint { p: 0 }, &[2]),
            (Send { p: 0, q: 1 }, &[2, 2]),
            (Receipt { p: 1, q: 0, k: 2 }, &[2, 1, 4, 4]),
        ],
    );
    assert_eq!(records(pair.table())[1], [[1, 1, 0, 0], [4, 0, 1, 1], [2, 2, 0, 0], [4, 0, 2, 2]]);
}

/// Each case meets its row and, as far as they can be met together, all rows after it. Repaired row by row, they show
/// the next number each time.
#[test]
fn the_first_row_met_is_returned() {
    let (bad, full) = (bad_tables(4, &full()), from_records(4, &full()));
    let check = |table: &[u8], call: Call, area: usize, returned: u32| {
        assert_eq!(
            Pair::new(table, ORIGIN).call(call, &vec![0xEE; area]).0,
            returned,
            "{call:?}, area of {area}"
        );
    };
    let outside = [
        Checkpoint { p: 3 },
        Send { p: 3, q: 3 },
        Receipt { p: 3, q: 3, k: 0 },
        Line { number: MAX },
        Failed { mask: 8 },
        Grounds { mask: 8 },
        Audit,
    ];
    for call in outside {
        for (table, returned) in &bad {
            check(table, call, 7, *returned);
        }
        // Areas of another call's length among them.
        for area in (0..=24).filter(|&area| area != call.area_length(3)) {
            check(&full, call, area, 4);
        }
    }
    // Without positions and an area: tests/resend.rs has the rows that come after.
    for (table, returned) in &bad {
        check(table, Resend, 0, *returned);
    }

    for p in [3, 4, 16, 1 << 31, MAX] {
        check(&full, Checkpoint { p }, 4, 5);
        for q in [0, 3, p] {
            check(&full, Send { p, q }, 8, 5);
            check(&full, Receipt { p, q, k: 0 }, 16, 5);
        }
    }
    for q in [0, 3, 4, 16, 1 << 31, MAX] {
        check(&full, Send { p: 0, q }, 8, 6);
        check(&full, Receipt { p: 0, q, k: 0 }, 16, 6);
    }
    // 0 and 5 and more are no send; 4 is above the send count; 2 is a send to process 2. Process 0 has receipts of
    // (1, 2) and (1, 4), and no record free.
    for k in [0, 2, 4, 5, 1 << 31, MAX] {
        check(&full, Receipt { p: 0, q: 1, k }, 16, 7);
    }
    check(&full, Receipt { p: 0, q: 1, k: 1 }, 16, 8);
    check(&full, Receipt { p: 0, q: 1, k: 3 }, 16, 9);
    check(&full, Send { p: 0, q: 1 }, 8, 9);
    check(&full, Checkpoint { p: 0 }, 4, 9);
    check(&one_free_at(12), Checkpoint { p: 0 }, 4, 10);
    for mask in [8, 9, 15, 1 << 16, 1 << 31, MAX] {
        check(&full, Failed { mask }, 20, 11);
        check(&full, Grounds { mask }, 24, 11);
    }
    // Process 2 has saved nothing. tests/lines.rs has more of these.
    for number in [1, 2, 12, 13, 1 << 31, MAX] {
        check(&full, Line { number }, 12, 15);
    }
    // The scratch has no bytes here: tests/audit.rs has other lengths.
    check(&full, Audit, 4, 14);

    // Nothing is met any more.
    check(&one_free_at(11), Checkpoint { p: 0 }, 4, 0);
    check(&one_free_at(12), Send { p: 0, q: 1 }, 8, 0);
    check(&one_free_at(12), Receipt { p: 0, q: 1, k: 3 }, 16, 0);
    check(&full, Line { number: 0 }, 12, 0);
    check(&full, Failed { mask: 7 }, 20, 0);
    check(&full, Grounds { mask: 7 }, 24, 0);
    // (1, 3) carries 2: at number 2 it takes the one record that is free, at number 1 it would force.
    check(&one_free_at(2), Receipt { p: 0, q: 1, k: 3 }, 16, 0);
    check(&one_free_at(1), Receipt { p: 0, q: 1, k: 3 }, 16, 9);
}

#[test]
fn fresh_checks_dimensions_before_the_length() {
    let out =
        [(0, 1), (1, 0), (0, 0), (17, 1), (16, 1025), (1, 1025), (MAX, MAX), (1 << 31, 1), (1, 1 << 31)];
    for (n, e) in out {
        for length in [0, 7, 8, 20, table_length(1, 1), table_length(1, 1) + 1] {
            assert_eq!(Pair::new(&vec![0xEE; length], ORIGIN).call(Fresh { n, e }, &[]).0, 1, "{n}, {e}");
        }
    }
    for (n, e) in [(1, 1), (16, 1), (1, 1024), (2, 3), (16, 1024)] {
        let exact = table_length(n, e);
        for length in [0, 7, 8, exact - 4, exact - 1, exact + 1, exact + 4, exact + 4 * WIDTH] {
            assert_eq!(Pair::new(&vec![0xEE; length], ORIGIN).call(Fresh { n, e }, &[]).0, 2, "{n}, {e}");
        }
        assert_eq!(Pair::new(&vec![0xEE; exact], ORIGIN).call(Fresh { n, e }, &[]).0, 0);
    }
}

/// Document 01's sentence on well laid tables, clause by clause: words of the worked controller's table changed.
#[test]
fn each_clause_of_well_laid() {
    let worked = to_words(worked_controller().table());
    let with = |changes: &[(usize, u32)]| pair_of_words(&changed(&worked, changes), ORIGIN);
    let heading = |p: u32, word: usize| section(6, p) + word;
    // Places are counted from 1, as in the document.
    let place = |p: u32, t: u32, word: usize| record(6, p, t - 1) + word;
    let bad: &[&[(usize, u32)]] = &[
        &[(heading(0, COUNT), 7)], // c above E
        &[(heading(0, COUNT), MAX)],
        &[(heading(0, COUNT), 3)], // a used record of kind 0
        &[(heading(0, COUNT), 1)], // an unused record that isn't 0
        &[(place(0, 1, KIND), 0)], // kinds that aren't in the table
        &[(place(0, 1, KIND), 5)],
        &[(place(0, 1, KIND), 1 << 24 | 1)],
        &[(place(2, 1, KIND), MAX)],
        &[(place(0, 1, A), 19), (heading(0, NUMBER), 19), (place(0, 2, CARRIED), 19)], // a number above n × E
        &[(place(2, 1, A), MAX), (heading(2, NUMBER), MAX)],
        &[(place(0, 1, B), 1)], // a checkpoint's b isn't 0
        &[(place(2, 1, B), 1)],
        &[(place(0, 2, A), 0)], // a send to its own process
        &[(place(0, 2, A), 3)], // a send to a process that isn't there
        &[(place(0, 2, A), MAX)],
        &[(place(0, 2, B), 0)], // send numbers that aren't the send's place
        &[(place(0, 2, B), 2)],
        &[(place(1, 4, B), 1)],
        &[(place(1, 1, B), 2), (place(1, 4, B), 1)],
        &[(place(1, 3, A), 1)], // a receipt from its own process
        &[(place(1, 3, A), 3)], // a receipt from a process that isn't there
        &[(place(1, 3, B), 0)], // a receipt's send number outside 1 to E
        &[(place(1, 3, B), 7)],
        &[(heading(0, NUMBER), 0)], // the current number isn't the last checkpoint's
        &[(heading(2, NUMBER), 2)],
        &[(heading(1, SENDS), 1)], // the send count isn't the number of sends
        &[(heading(2, SENDS), 1)],
        &[(place(0, 3, KIND), 1)], // each word of an unused record
        &[(place(0, 3, A), 1)],
        &[(place(0, 3, B), 1)],
        &[(place(0, 3, CARRIED), 1)],
        &[(worked.len() - 1, 1)],
    ];
    for &changes in bad {
        for call in ONE_OF_EACH {
            assert_eq!(with(changes).exact(call).0, 3, "{changes:?}, {call:?}");
        }
    }
    let over = count_into_next_section();
    assert_eq!(pair_of_words(&over, ORIGIN).exact(Line { number: 1 }).0, 3);
    assert_eq!(pair_of_words(&over, ORIGIN).exact(Failed { mask: 1 }).0, 3);
    // What no run makes and well laid allows.
    let good: &[&[(usize, u32)]] = &[
        &[(place(0, 1, A), 18), (heading(0, NUMBER), 18), (place(0, 2, CARRIED), 18)], // a number of n × E
        &[(place(0, 1, A), 0), (heading(0, NUMBER), 0), (place(0, 2, CARRIED), 0)],    // a number of 0
        &[(place(0, 1, KIND), 2)], // a forced checkpoint anywhere
        &[(place(1, 3, B), 6)],    // a receipt without its send
        &[(place(1, 3, A), 2)],    // a receipt from a process that sent nothing
        &[(place(2, 3, KIND), 4), (place(2, 3, A), 1), (place(2, 3, B), 2)], // the same receipt twice
        &[(place(0, 2, A), 2)],    // a send whose receipt another process has
    ];
    for &changes in good {
        assert_eq!(with(changes).exact(Line { number: 0 }), (0, vec![0, 0, 0]), "{changes:?}");
        assert_eq!(with(changes).exact(Failed { mask: 7 }).0, 0, "{changes:?}");
    }
    // Current number and send count are those of the last and not of the largest or first.
    let falling = words_of_records(3, &[vec![checkpoint(3), forced(1)]]);
    assert_eq!(pair_of_words(&falling, ORIGIN).exact(Checkpoint { p: 0 }), (0, vec![2]));
    assert_eq!(pair_of_words(&falling, ORIGIN).exact(Line { number: 2 }), (0, vec![1]));
    let largest = changed(&falling, &[(section(3, 0) + NUMBER, 3)]);
    assert_eq!(pair_of_words(&largest, ORIGIN).exact(Line { number: 1 }).0, 3);
}
