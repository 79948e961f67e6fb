//! Document 02's slip 1: the messages to send again. Each list is asked for beside the reference engine, where table and
//! positions must stay as they were, and compared with `in_transit`, which goes by the document's words.
use beside::drawn::made;
use beside::{seed, Origin, Pair};
use cases::chosen::{crossed, WORKED};
use cases::cut::{self, counts, has_orphan, in_transit, last_line, listed, tuples, Message};
use cases::table::{receipt, send, Record, A, B, KIND, RECEIPT, SEND};
use cases::Call::{self, Failed, Line};
use cases::{from_records, from_words, records, well_laid, Rng};
use std::fmt;

const ORIGIN: Origin = Origin { test: "resend", seed: 0, case: 0 };
const MAX: u32 = u32::MAX;
/// What the engines find in an area.
const LENT: u8 = 0xEE;

/// What the cuts of a test were like.
#[derive(Default)]
struct Tally {
    cuts: u64,
    messages: u64,
    with_orphans: u64,
    all_zero: u64,
    at_counts: u64,
    /// Answers of numbered lines and failure lines.
    lines: u64,
}

impl fmt::Display for Tally {
    fn fmt(&self, f: &mut fmt::Formatter) -> fmt::Result {
        let Tally { cuts, messages, with_orphans, all_zero, at_counts, lines } = self;
        write!(f, "{messages} messages at {cuts} cuts, {with_orphans} with orphans, {all_zero} all zero, ")?;
        write!(f, "{at_counts} at the counts, {lines} lines")
    }
}

/// A pair on a well laid table, whose records are known.
struct Lists {
    pair: Pair,
    sections: Vec<Vec<Record>>,
    tally: Tally,
}

impl Lists {
    fn on(pair: Pair, tally: Tally) -> Lists {
        let sections = records(pair.table());
        Lists { pair, sections, tally }
    }

    /// Resend at a cut, with areas of exactly, one byte less, one and a hundred bytes more than needed.
    fn at(&mut self, cut: &[u32]) -> Vec<Message> {
        let messages = in_transit(&self.sections, cut);
        let list = from_words(&listed(&messages));
        for more in [0, 1, 100] {
            let left = vec![LENT; more];
            let lent = vec![LENT; list.len() + more];
            let stated = (0, [&list[..], &left].concat());
            assert!(self.pair.resend(cut, &lent) == stated, "{cut:?}: {}", self.pair.origin());
        }
        let short = vec![LENT; list.len() - 1];
        assert!(self.pair.resend(cut, &short) == (13, short), "{cut:?}: {}", self.pair.origin());
        self.note(cut, messages.len());
        messages
    }

    fn note(&mut self, cut: &[u32], messages: usize) {
        self.tally.cuts += 1;
        self.tally.messages += messages as u64;
        self.tally.with_orphans += u64::from(has_orphan(&self.sections, cut));
        self.tally.all_zero += u64::from(cut.iter().all(|&at| at == 0));
        self.tally.at_counts += u64::from(cut == counts(&self.sections));
    }

    /// Drawn cuts, and the answers of drawn lines as positions. Where calls made the table, a line has no orphan, and every
    /// message is accounted for.
    fn drawn(&mut self, rng: &mut Rng, count: u32, made: bool) {
        let (n, tops) = (self.sections.len() as u32, counts(&self.sections));
        for _ in 0..count {
            self.at(&cut::draw(rng, &tops));
            let line = match rng.below(2) {
                0 => Line { number: rng.below(last_line(&self.sections).min(3) + 1) },
                _ => Failed { mask: rng.below(1 << n) },
            };
            let (returned, mut answer) = self.pair.exact(line);
            assert_eq!(returned, 0, "{line:?}");
            answer.truncate(n as usize);
            let messages = self.at(&answer);
            self.tally.lines += 1;
            if made {
                self.accounted(&answer, messages);
            }
        }
    }

    /// Each message sent inside the cut is either received inside, once, or listed, once, and there are no others.
    fn accounted(&self, cut: &[u32], messages: Vec<Message>) {
        let (mut sent, mut found) = (Vec::new(), messages);
        for (own, (section, &at)) in (0..).zip(self.sections.iter().zip(cut)) {
            let inside = &section[..at as usize];
            let of_kind = |kind: u32| inside.iter().filter(move |r| r[KIND] == kind);
            sent.extend(of_kind(SEND).map(|r| [own, r[B], r[A]]));
            found.extend(of_kind(RECEIPT).map(|r| [r[A], r[B], own]));
        }
        found.sort();
        sent.sort();
        assert!(found == sent, "{cut:?}: {}", self.pair.origin());
    }
}

fn worked_controller() -> Pair {
    let mut pair = Pair::fresh(3, 6, ORIGIN);
    assert!(WORKED.iter().all(|&call| pair.exact(call).0 == 0));
    pair
}

#[test]
fn the_worked_controller() {
    let mut lists = Lists::on(worked_controller(), Tally::default());
    let cases: [([u32; 3], &[Message]); 7] = [
        ([0, 0, 0], &[]),
        ([2, 4, 3], &[]),
        ([1, 2, 1], &[[1, 1, 2]]),            // P5
        ([2, 2, 1], &[[0, 1, 1], [1, 1, 2]]), // P6
        ([2, 4, 1], &[[1, 1, 2], [1, 2, 2]]), // P7
        ([0, 4, 2], &[[1, 1, 2]]),            // (0, 1) is an orphan
        ([2, 1, 3], &[[0, 1, 1]]),            // (1, 2) is an orphan
    ];
    for (cut, messages) in cases {
        assert_eq!(lists.at(&cut), messages, "{cut:?}");
    }
}

/// Receipts by another process than the destination, twice, after the cut, of a message that overtook another.
#[test]
fn every_cut_of_small_tables() {
    let crossed = from_records(4, &crossed());
    for pair in [worked_controller(), Pair::new(&crossed, ORIGIN)] {
        let mut lists = Lists::on(pair, Tally::default());
        for cut in tuples(&counts(&lists.sections)) {
            lists.at(&cut);
        }
        assert!(lists.tally.with_orphans > 20, "{}", lists.tally);
    }
    let mut lists = Lists::on(Pair::new(&crossed, ORIGIN), Tally::default());
    assert_eq!(lists.at(&[4, 4, 2]), [[0, 1, 1], [0, 2, 2]]);
    assert_eq!(lists.at(&[3, 4, 1]), [[0, 1, 1], [0, 2, 2], [1, 1, 2]]);
}

/// Positions of another length or above their count come before an area that is too short.
#[test]
fn the_rows_of_positions_and_area() {
    let mut pair = Pair::new(&from_records(4, &crossed()), ORIGIN);
    let mut check = |positions: &[u8], area: usize, number: u32| {
        let returned = pair.call_on(Call::Resend, &[&vec![LENT; area], positions]);
        assert_eq!(returned, number, "{positions:?}, area of {area}");
    };
    let counts = [4, 4, 2];
    let above = |p: usize| [counts[p] + 1, 5, 1 << 8, 1 << 16, 1 << 24, 1 << 31 | counts[p], MAX];
    let mut refused: Vec<Vec<u8>> =
        (0..=24).filter(|&length| length != 12).map(|length| vec![0; length]).collect();
    for (p, others) in (0..3).flat_map(|p| [(p, [0; 3]), (p, counts)]) {
        refused.extend(above(p).map(|at| {
            let mut cut = others;
            cut[p] = at;
            from_words(&cut)
        }));
    }
    for area in [0, 3, 4, 28, 128] {
        refused.iter().for_each(|positions| check(positions, area, 12));
    }
    for area in 0..50 {
        check(&[0; 12], area, if area < 4 { 13 } else { 0 });
        check(&from_words(&counts), area, if area < 28 { 13 } else { 0 });
    }
}

#[test]
fn random_cuts() {
    const TABLES: u64 = 4_000;
    let seed = seed();
    let mut tally = Tally::default();
    for case in 0..TABLES {
        let origin = Origin { test: "random cuts", seed, case };
        let mut rng = origin.rng();
        let (n, e) = (1 + rng.below(6), 1 + rng.below(12));
        let by_calls = rng.one_in(2);
        let pair = if by_calls {
            made(&mut rng, n, e, origin)
        } else {
            Pair::new(&well_laid(&mut rng, n, e), origin)
        };
        let mut lists = Lists::on(pair, tally);
        lists.drawn(&mut rng, 6, by_calls);
        tally = lists.tally;
    }
    println!("random cuts: seed {seed}, {tally}");
    let least = [tally.with_orphans, tally.all_zero, tally.at_counts].into_iter().min().unwrap();
    assert!(tally.lines == 6 * TABLES && least > TABLES && tally.messages > 10 * TABLES, "{tally}");
}

/// n = 16, E = 1,024: a table of nothing but sends, whose list is the longest there is; one of sends and then receipts of
/// two in three, in any order; and a well laid one of no run.
#[test]
fn the_largest_tables() {
    const N: u32 = 16;
    const E: u32 = 1024;
    let origin = Origin { test: "largest tables", seed: seed(), case: 0 };
    let mut rng = origin.rng();
    let sends = |p: u32, count: u32| (1..=count).map(move |k| send((p + k % (N - 1) + 1) % N, k, 0));
    let full: Vec<Vec<Record>> = (0..N).map(|p| sends(p, E).collect()).collect();
    let mut half: Vec<Vec<Record>> = (0..N).map(|p| sends(p, E / 2).collect()).collect();
    for p in 0..N {
        let sent = (0..N).flat_map(|q| sends(q, E / 2).map(move |r| (q, r))).filter(|(_, r)| r[A] == p);
        let mut got: Vec<Record> = sent.map(|(q, r)| receipt(q, r[B], 0)).collect();
        got.retain(|_| !rng.one_in(3));
        got.sort_by_cached_key(|_| rng.draw());
        half[p as usize].extend(got);
    }
    let any = well_laid(&mut rng, N, E);
    let mut tally = Tally::default();
    let [full, half] = [full, half].map(|sections| from_records(E, &sections));
    for (table, made, least) in [(full, true, N * E), (half, true, 2_000), (any, false, 2_000)] {
        let mut lists = Lists::on(Pair::new(&table, origin), tally);
        let messages = lists.at(&counts(&lists.sections)).len();
        assert!(messages >= least as usize, "{messages}");
        lists.drawn(&mut rng, 8, made);
        tally = lists.tally;
    }
    println!("largest tables: {tally}");
    assert!(tally.with_orphans > 0 && tally.messages > 100_000, "{tally}");
}
