//! Document 02's slip 3: the fourth word of a record, 0 for a checkpoint and else the carried number. Every call is made
//! beside the reference engine, where a refused one must change nothing; what is expected is written out here, or read
//! from the records by the document's words.
use beside::drawn::made;
use beside::{seed, Origin, Pair};
use cases::chosen::ONE_OF_EACH;
use cases::cut::{counts, tuples};
use cases::table::{
    changed, checkpoint, forced, is_send, number_of, old_table_length, receipt, record, send,
    words_of_records, Record, A, B, CARRIED, KIND, RECEIPT, SEND,
};
use cases::Call::{self, Checkpoint, Failed, Fresh, Grounds, Line, Receipt, Resend, Send};
use cases::{carry, from_records, from_words, records, to_words, well_laid};

const ORIGIN: Origin = Origin { test: "fourth word", seed: 0, case: 0 };
const MAX: u32 = u32::MAX;
/// What the engines find in an area.
const LENT: u8 = 0xEE;

/// n = 2, E = 9, one record free: a send and a receipt before, between and after two checkpoints, whose numbers rise at
/// process 0 and fall at process 1. One call of each kind is accepted.
#[rustfmt::skip]
fn laid() -> [Vec<Record>; 2] {
    [
        vec![
            send(1, 1, 0), receipt(1, 2, 0), checkpoint(3),
            send(1, 2, 3), receipt(1, 3, 3), forced(7),
            send(1, 3, 7), receipt(1, 4, 7),
        ],
        vec![
            send(0, 1, 0), receipt(0, 2, 0), forced(7),
            send(0, 2, 7), receipt(0, 3, 7), checkpoint(3),
            send(0, 3, 3), receipt(0, 4, 3),
        ],
    ]
}

/// The number returned, by resend at the counts of `laid`, by the audit with a scratch as long as the table.
fn returned(table: &[u8], call: Call) -> u32 {
    let mut pair = Pair::new(table, ORIGIN);
    match call {
        Resend => pair.resend(&[8, 8], &[LENT; 100]).0,
        _ => pair.exact(call).0,
    }
}

/// Every record of `laid` with other fourth words. Among them are a send's that is one less or more than the number before
/// it, or that of the checkpoint after it; a receipt's that is below the number before it, or above that and not above
/// the one after it; and for each kind 1, numbers above n × E and those with the top bit set.
#[test]
fn each_clause_of_the_fourth_word() {
    let words = words_of_records(9, &laid());
    // By process and place: a checkpoint's is 0, a send's the number before it, a receipt's at most that.
    let well_laid = [
        [0..=0, 0..=0, 0..=0, 3..=3, 0..=3, 0..=0, 7..=7, 0..=7],
        [0..=0, 0..=0, 0..=0, 7..=7, 0..=7, 0..=0, 3..=3, 0..=3],
    ];
    let large = [1 << 8, 3 << 8, 1 << 16, 1 << 24, 7 << 24, 1 << 31, 1 << 31 | 3, 1 << 31 | 7, MAX - 1, MAX];
    for (p, t) in (0..2).flat_map(|p| (0..8).map(move |t| (p, t))) {
        for word in (0..=2 * 9 + 1).chain(large) {
            let changed = from_words(&changed(&words, &[(record(9, p, t) + CARRIED, word)]));
            let number = if well_laid[p as usize][t as usize].contains(&word) { 0 } else { 3 };
            for call in ONE_OF_EACH {
                let place = t + 1;
                assert_eq!(returned(&changed, call), number, "{call:?}, {word} at {p}, place {place}");
            }
        }
    }
}

/// Tables of document 01, whose records have three words, at its dimensions and others.
#[test]
fn the_old_length_is_refused() {
    let check = |table: &[u8], n: u32, e: u32| {
        for call in ONE_OF_EACH.into_iter().chain([Fresh { n, e }]) {
            let area = vec![LENT; call.area_length(n)];
            assert_eq!(Pair::new(table, ORIGIN).call(call, &area).0, 2, "{call:?}, n = {n}, E = {e}");
        }
    };
    let lengths =
        [(1, 1, 32), (1, 1024, 12_308), (2, 4, 128), (3, 6, 260), (8, 256, 24_680), (16, 1024, 196_808)];
    for (n, e, length) in lengths {
        assert_eq!(old_table_length(n, e), length);
        let mut fresh = from_words(&[n, e]);
        fresh.resize(length, 0);
        check(&fresh, n, e);
    }
    #[rustfmt::skip]
    let worked = from_words(&[
        3, 6,
        2, 1, 1,  1, 1, 0,  3, 1, 1,  0, 0, 0,  0, 0, 0,  0, 0, 0,  0, 0, 0,
        4, 1, 2,  3, 2, 1,  2, 1, 0,  4, 0, 1,  3, 2, 2,  0, 0, 0,  0, 0, 0,
        3, 1, 0,  2, 1, 0,  4, 1, 2,  4, 1, 1,  0, 0, 0,  0, 0, 0,  0, 0, 0,
    ]);
    assert_eq!(worked.len(), 260);
    check(&worked, 3, 6);
}

/// Not the number that the receiver has then, nor that which the sender has.
#[test]
fn a_receipt_has_what_its_send_carried() {
    let (first, second) = (Checkpoint { p: 0 }, Checkpoint { p: 1 });
    let (send, receipt) = (Send { p: 0, q: 1 }, Receipt { p: 1, q: 0, k: 1 });
    for calls in [[send, second, receipt, first], [send, first, second, receipt]] {
        let mut pair = Pair::fresh(2, 4, ORIGIN);
        assert!(calls.iter().all(|&call| pair.exact(call).0 == 0), "{calls:?}");
        assert_eq!(records(pair.table())[0], [[3, 1, 1, 0], [1, 1, 0, 0]], "{calls:?}");
        assert_eq!(records(pair.table())[1], [[1, 1, 0, 0], [4, 0, 1, 0]], "{calls:?}");
    }
}

/// The last records that steps add to `laid`, where the largest number of process 1 isn't its last.
#[test]
fn steps_on_a_table_of_no_run() {
    let added = |call: Call, p: usize| {
        let mut pair = Pair::new(&from_records(9, &laid()), ORIGIN);
        assert_eq!(pair.exact(call).0, 0, "{call:?}");
        records(pair.table())[p][8]
    };
    assert_eq!(added(Checkpoint { p: 1 }, 1), [1, 4, 0, 0]);
    assert_eq!(added(Send { p: 1, q: 0 }, 1), [3, 0, 4, 3]);
    assert_eq!(added(Send { p: 0, q: 1 }, 0), [3, 1, 4, 7]);
    assert_eq!(added(Receipt { p: 0, q: 1, k: 1 }, 0), [4, 1, 1, 0]);
    assert_eq!(added(Receipt { p: 1, q: 0, k: 1 }, 1), [4, 0, 1, 0]);
}

/// In tables made by calls.
#[test]
fn each_receipt_has_its_sends_word() {
    const TABLES: u64 = 4_000;
    let (seed, mut equal, mut below) = (seed(), 0u64, 0u64);
    for case in 0..TABLES {
        let origin = Origin { test: "sends' words", seed, case };
        let mut rng = origin.rng();
        let (n, e) = (1 + rng.below(6), 1 + rng.below(12));
        let sections = records(made(&mut rng, n, e, origin).table());
        let sent = |p: usize, r: &Record| {
            let sends = sections[r[A] as usize].iter();
            sends.copied().find(|s| is_send(s, p as u32, r[B])).expect("a made receipt has its send")
        };
        for (p, section) in sections.iter().enumerate() {
            for (t, r) in section.iter().enumerate() {
                let number = number_of(&section[..t]);
                let expected = match r[KIND] {
                    SEND => number,
                    RECEIPT => sent(p, r)[CARRIED],
                    _ => 0,
                };
                assert_eq!(r[CARRIED], expected, "process {p}, place {}: {origin}", t + 1);
                equal += u64::from(r[KIND] == RECEIPT && r[CARRIED] == number);
                below += u64::from(r[KIND] == RECEIPT && r[CARRIED] < number);
            }
        }
    }
    println!("sends' words: CKPT_SEED={seed}, {equal} receipts carried their process's number, {below} less");
    assert!(equal > TABLES && below > TABLES, "{equal} {below}");
}

/// What is answered on a table: lines of all numbers, failure lines of all masks and their grounds, resend at every cut, then
/// each receipt on a copy, with the number returned.
fn answers(table: &[u8], n: u32, e: u32, origin: Origin) -> Vec<(u32, Vec<u32>)> {
    let mut pair = Pair::new(table, origin);
    let lines = (0..=n * e + 1).chain([MAX]).map(|number| Line { number });
    let failures = (0..1 << n).flat_map(|mask| [Failed { mask }, Grounds { mask }]);
    let mut answers: Vec<_> = lines.chain(failures).map(|call| pair.exact(call)).collect();
    let area = vec![LENT; 4 + 12 * (n * e) as usize];
    answers.extend(tuples(&counts(&records(table))).map(|cut| {
        let (returned, area) = pair.resend(&cut, &area);
        (returned, to_words(&area))
    }));
    let receipts = tuples(&[n - 1, n - 1, e]).collect::<Vec<_>>();
    answers.extend(receipts.iter().map(|numbers| {
        let (p, q, k) = (numbers[0], numbers[1], numbers[2]);
        Pair::new(table, origin).exact(Receipt { p, q, k })
    }));
    answers
}

/// All of a receipt's words that are well laid: other bytes, which every call takes, and the same answers.
#[test]
fn what_a_receipt_carried_makes_another_table() {
    let table = |carried: u32| {
        let second = vec![checkpoint(3), receipt(0, 1, carried), send(0, 1, 3)];
        from_records(4, &[vec![send(1, 1, 0), checkpoint(1), send(1, 2, 1)], second])
    };
    for (a, b) in (0..=3).flat_map(|a| (0..a).map(move |b| (a, b))) {
        assert_ne!(table(a), table(b));
        assert_eq!(answers(&table(a), 2, 4, ORIGIN), answers(&table(b), 2, 4, ORIGIN), "{a} and {b}");
    }
    // Rows 7 and 8, and no row: of a message that isn't sent, is received, is not.
    let row = |k: u32| [0, 1, 2, 3].map(|carried| returned(&table(carried), Receipt { p: 1, q: 0, k }));
    assert_eq!([3, 1, 2].map(row), [[7; 4], [8; 4], [0; 4]]);
    assert_eq!([4, 5, MAX].map(|carried| returned(&table(carried), Line { number: 0 })), [3; 3]);
}

/// The same on drawn tables, with all words of receipts drawn anew.
#[test]
fn what_receipts_carried_changes_no_answer() {
    const TABLES: u64 = 2_000;
    let (seed, mut different, mut orphans) = (seed(), 0u64, 0u64);
    for case in 0..TABLES {
        let origin = Origin { test: "other words", seed, case };
        let mut rng = origin.rng();
        let (n, e) = (2 + rng.below(2), 4 + rng.below(5));
        let table = well_laid(&mut rng, n, e);
        let mut sections = records(&table);
        sections.iter_mut().for_each(|section| carry(&mut rng, section));
        let other = from_records(e, &sections);
        let own = answers(&table, n, e, origin);
        assert_eq!(own[0], (0, vec![0; n as usize]), "line 0: {origin}");
        assert!(own == answers(&other, n, e, origin), "{origin}");
        different += u64::from(table != other);
        // The failure line of mask 0 comes after lines 0 to n × E + 1 and the last one.
        let at_counts = [counts(&sections), vec![0, 0]].concat();
        orphans += u64::from(own[(n * e + 3) as usize] != (0, at_counts));
    }
    println!("other words: CKPT_SEED={seed}, {different} of {TABLES} tables differ, {orphans} have orphans");
    assert!(different > TABLES / 4 && orphans > TABLES / 4, "{different} {orphans}");
}
