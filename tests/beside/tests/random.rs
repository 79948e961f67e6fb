//! More than a million random calls, drawn as in `beside::drawn`, each made beside the reference engine.
use beside::drawn::{large, middle, run_case, small, Case, Dimensions, Tally};
use beside::{on_proved, seed, Origin, Pair};
use cases::calls::CALLS;

/// Draws cases of these dimensions until as many calls were made.
fn draw(test: &'static str, calls: u64, dimensions: Dimensions, tally: &mut Tally) {
    let end = tally.total() + calls;
    let mut case = 0;
    while tally.total() < end {
        run_case(on_proved, Origin { test, seed: seed(), case }, dimensions, tally);
        case += 1;
    }
}

#[test]
fn random_calls() {
    let mut tally = Tally::default();
    draw("small tables", 3_000_000, small, &mut tally);
    draw("middle tables", 400_000, middle, &mut tally);
    draw("large tables", 60_000, large, &mut tally);
    println!("random calls: {} with CKPT_SEED={}\n{tally}", tally.total(), seed());
    println!("of these on tables with n = 16, E = 1024: {}", tally.largest);
    assert!(tally.total() >= 1_000_000 && tally.largest >= 1_000);
    assert!(tally.verdicts.iter().all(|&count| count >= 20_000), "{:?}", tally.verdicts);
    assert!(tally.grounds.iter().all(|&count| count >= 20_000), "{:?}", tally.grounds);
    for call in CALLS {
        assert_eq!(tally.met(call.name), call.numbers(), "numbers that {} returned", call.name);
    }
}

/// Runs that fill the largest tables: every process's records are used up, and each call reads all of them.
#[test]
fn long_runs() {
    let mut tally = Tally::default();
    for (case, (n, e)) in [(2, 1024), (3, 512), (16, 64)].into_iter().enumerate() {
        let origin = Origin { test: "long runs", seed: seed(), case: case as u64 };
        let mut case = Case { pair: Pair::fresh(n, e, origin), rng: origin.rng(), n, e, tally: &mut tally };
        case.steps(5 * n * e, Vec::new());
        let full = cases::records(case.pair.table()).iter().all(|s| s.len() as u32 >= e - 1);
        assert!(full, "the run left records free: {origin}");
    }
    println!("long runs: {} calls with CKPT_SEED={}\n{tally}", tally.total(), seed());
    let receipts = |number| tally.count("receipt", number);
    assert!(receipts(0) > 500 && receipts(9) > 0 && receipts(8) > 0);
}
