//! Document 01, "Lists of calls": two lists leave the same table exactly when each process has the same accepted calls,
//! and after a list each numbered line is answered as long as every process has saved a state for it, at saved positions
//! without orphans.
use beside::{seed, Origin, Pair};
use cases::cut::{counts, has_orphan};
use cases::table::{is_checkpoint, number_of, FORCED, KIND};
use cases::{area_length, records, remember, step, Call, Rng};

/// How many lists each test draws.
const LISTS: u64 = 4_000;

/// A list of calls run from a fresh table.
struct Run {
    pair: Pair,
    /// The accepted calls of each process, in order.
    accepted: Vec<Vec<Call>>,
    /// All accepted calls in the order of the list, and the whole list.
    turns: Vec<Call>,
    list: Vec<Call>,
}

impl Run {
    fn new(n: u32, e: u32, origin: Origin) -> Run {
        let (accepted, turns, list) = (vec![Vec::new(); n as usize], Vec::new(), Vec::new());
        Run { pair: Pair::fresh(n, e, origin), accepted, turns, list }
    }

    /// Makes the call with an area of this length, and notes it. Answers the number returned.
    fn call(&mut self, call: Call, area: usize) -> u32 {
        let returned = self.pair.call(call, &vec![0xEE; area]).0;
        self.list.push(call);
        if returned == 0 {
            self.accepted[process(call)].push(call);
            self.turns.push(call);
        }
        returned
    }

    fn exact(&mut self, call: Call) -> u32 {
        self.call(call, call.area_length(self.accepted.len() as u32))
    }

    /// A list of random steps, in which messages overtake each other and calls are refused.
    fn random(rng: &mut Rng, n: u32, e: u32, origin: Origin) -> Run {
        let mut run = Run::new(n, e, origin);
        let mut known = Vec::new();
        for _ in 0..rng.below(4 * n * e + 2) {
            let call = step(rng, n, e, &known);
            let area = area_length(rng, call.area_length(n));
            if run.call(call, area) == 0 {
                remember(rng, &mut known, call, run.pair.table());
            }
        }
        run
    }

    fn of(n: u32, e: u32, list: &[Call], origin: Origin) -> Run {
        let mut run = Run::new(n, e, origin);
        for &call in list {
            run.exact(call);
        }
        run
    }
}

/// The acting process of a step.
fn process(call: Call) -> usize {
    match call {
        Call::Checkpoint { p } | Call::Send { p, .. } | Call::Receipt { p, .. } => p as usize,
        _ => panic!("no step: {call:?}"),
    }
}

fn dimensions(rng: &mut Rng) -> (u32, u32) {
    (1 + rng.below(6), 1 + rng.below(12))
}

/// Each process's calls in order, the processes in random turns. A receipt whose send isn't there yet returns 7 and
/// waits; now and then a call is refused for its area.
fn in_other_turns(rng: &mut Rng, n: u32, e: u32, accepted: &[Vec<Call>], origin: Origin) -> Run {
    let mut run = Run::new(n, e, origin);
    let left = |run: &Run| {
        let processes = 0..accepted.len();
        processes.filter(|&p| run.accepted[p].len() < accepted[p].len()).collect::<Vec<_>>()
    };
    let mut open = left(&run);
    while !open.is_empty() {
        let p = rng.pick(&open);
        let call = accepted[p][run.accepted[p].len()];
        if rng.one_in(8) {
            assert_eq!(run.call(call, 5), 4, "{origin}");
        }
        let returned = run.exact(call);
        let waits = returned == 7 && matches!(call, Call::Receipt { .. });
        assert!(returned == 0 || waits, "{call:?} returned {returned} in other turns: {origin}");
        open = left(&run);
    }
    run
}

#[test]
fn the_turns_between_processes_do_not_count() {
    let seed = seed();
    let (mut moved, mut receipts, mut refused) = (0u64, 0, 0);
    for case in 0..LISTS {
        let origin = Origin { test: "turns", seed, case };
        let mut rng = origin.rng();
        let (n, e) = dimensions(&mut rng);
        let first = Run::random(&mut rng, n, e, origin);
        let second = in_other_turns(&mut rng, n, e, &first.accepted, origin);
        assert_eq!(first.accepted, second.accepted, "{origin}");
        assert!(
            first.pair.table() == second.pair.table(),
            "the same accepted calls leave other tables: {origin}"
        );
        moved += u64::from(first.turns != second.turns);
        refused += first.list.len() - first.turns.len();
        receipts += first.turns.iter().filter(|c| matches!(c, Call::Receipt { .. })).count();
    }
    println!("turns: seed {seed}, {moved} of {LISTS} lists in other turns, {receipts} receipts, {refused} refused calls");
    assert!(moved > LISTS / 2 && receipts > LISTS as usize && refused > LISTS as usize);
}

/// The accepted calls of a run without one of them: the table must show which one is missing.
#[test]
fn a_missing_call_leaves_another_table() {
    let seed = seed();
    let mut tried = 0;
    for case in 0..LISTS {
        let origin = Origin { test: "missing call", seed, case };
        let mut rng = origin.rng();
        let (n, e) = dimensions(&mut rng);
        let first = Run::random(&mut rng, n, e, origin);
        if first.turns.is_empty() {
            continue;
        }
        let mut list = first.turns;
        let missing = list.remove(rng.below(list.len() as u32) as usize);
        let second = Run::of(n, e, &list, origin);
        let p = process(missing);
        assert!(second.accepted[p].len() < first.accepted[p].len(), "{origin}");
        assert!(first.pair.table() != second.pair.table(), "the table doesn't miss {missing:?}: {origin}");
        tried += 1;
    }
    assert!(tried > LISTS / 2, "{tried}");
}

/// Changes a list in one place: a call left out, doubled, replaced, or swapped with its neighbour.
fn changed(rng: &mut Rng, n: u32, e: u32, list: &[Call]) -> Vec<Call> {
    let mut list = list.to_vec();
    let i = rng.below(list.len() as u32) as usize;
    match rng.below(4) {
        0 => drop(list.remove(i)),
        1 => list.insert(i, list[i]),
        2 => list[i] = step(rng, n, e, &[]),
        _ => list.swap(i.saturating_sub(1), i),
    }
    list
}

#[test]
fn tables_are_equal_exactly_when_the_accepted_calls_are() {
    let seed = seed();
    let (mut equal, mut different) = (0u64, 0u64);
    for case in 0..LISTS {
        let origin = Origin { test: "changed list", seed, case };
        let mut rng = origin.rng();
        let (n, e) = dimensions(&mut rng);
        let drawn = Run::random(&mut rng, n, e, origin).list;
        if drawn.is_empty() {
            continue;
        }
        let first = Run::of(n, e, &drawn, origin);
        let second = Run::of(n, e, &changed(&mut rng, n, e, &drawn), origin);
        let same = first.accepted == second.accepted;
        assert_eq!(first.pair.table() == second.pair.table(), same, "{origin}");
        equal += u64::from(same);
        different += u64::from(!same);
    }
    println!("changed lists: seed {seed}, {equal} with equal tables, {different} with different ones");
    assert!(equal > LISTS / 10 && different > LISTS / 10);
}

/// Every line up to the smallest number is answered, at saved positions alone, and no other line.
#[test]
fn numbered_lines_after_a_list_have_no_orphan() {
    let seed = seed();
    let (mut lines, mut refused, mut forced, mut spoiled) = (0, 0, 0, 0u64);
    for case in 0..LISTS {
        let origin = Origin { test: "lines after a list", seed, case };
        let mut rng = origin.rng();
        let (n, e) = dimensions(&mut rng);
        let mut run = Run::random(&mut rng, n, e, origin);
        let sections = records(run.pair.table());
        forced += sections.iter().flatten().filter(|r| r[KIND] == FORCED).count();
        let smallest = sections.iter().map(|section| number_of(section)).min().unwrap();
        for number in (0..=n * e + 1).chain([1 << 31, u32::MAX]) {
            let (returned, cut) = run.pair.exact(Call::Line { number });
            if number > smallest {
                assert_eq!(returned, 15, "line {number}: {origin}");
                refused += 1;
                continue;
            }
            assert_eq!(returned, 0, "line {number}: {origin}");
            let is_saved = |(p, &at): (usize, &u32)| at == 0 || is_checkpoint(&sections[p][at as usize - 1]);
            let holds = cut.iter().enumerate().all(is_saved) && !has_orphan(&sections, &cut);
            assert!(holds, "line {number} is {cut:?}: {origin}");
            lines += 1;
        }
        // The search does find orphans where there are some: every process at its count but one at 0.
        let mut cut = counts(&sections);
        cut[rng.below(n) as usize] = 0;
        spoiled += u64::from(has_orphan(&sections, &cut));
    }
    println!(
        "lines after a list: seed {seed}, {lines} lines and {refused} refused, {forced} forced checkpoints"
    );
    assert!(forced > LISTS as usize / 4 && spoiled > LISTS / 10, "{forced} {spoiled}");
    assert!(lines > 2 * LISTS && refused > LISTS, "{lines} {refused}");
}
