//! Document 02's slip 4: a receipt answers the place of its send and that of its own record, both counted from 1. Every
//! call is made beside the reference engine; the places are also read from the records before and after it.
use beside::drawn::made;
use beside::{seed, Origin, Pair};
use cases::table::{checkpoint, forced, receipt, send, Record, KIND, SEND};
use cases::Call::{self, Receipt};
use cases::{from_records, messages, records, well_laid};

const ORIGIN: Origin = Origin { test: "places", seed: 0, case: 0 };

/// Carried number, 1 if forced, place of the send, place of the receipt.
type Answer = [u32; 4];

/// The place of the k-th send among these records, by counting sends.
fn place_of_send(records: &[Record], k: u32) -> usize {
    let mut sends = records.iter().enumerate().filter(|(_, r)| r[KIND] == SEND);
    sends.nth(k as usize - 1).expect("a message has its send").0 + 1
}

/// Makes the receipt. Where it is accepted, its answer, which is held against the records before and after it.
fn received(pair: &mut Pair, call: Call) -> Option<Answer> {
    let Receipt { p, q, k } = call else { unreachable!("{call:?} is no receipt") };
    let before = records(pair.table());
    let (returned, answer) = pair.exact(call);
    if returned != 0 {
        return None;
    }
    let answer: Answer = answer[..].try_into().unwrap();
    let [carried, forces, sent_at, received_at] = answer;
    let after = records(pair.table());
    let (receiver, sender) = (p as usize, q as usize);
    assert_eq!(sent_at as usize, place_of_send(&before[sender], k), "{call:?}: {}", pair.origin());
    assert_eq!(after[sender], before[sender], "{call:?}: {}", pair.origin());
    assert_eq!(after[sender][sent_at as usize - 1], send(p, k, carried), "{call:?}: {}", pair.origin());
    let mut grown = before[receiver].clone();
    grown.extend([forced(carried)].into_iter().take(forces as usize));
    grown.push(receipt(q, k, carried));
    assert_eq!(after[receiver], grown, "{call:?}: {}", pair.origin());
    assert_eq!(received_at as usize, grown.len(), "{call:?}: {}", pair.origin());
    Some(answer)
}

/// On tables made by calls and on well laid ones of no run, every message once, in a drawn order.
#[test]
fn both_places_of_every_receipt() {
    const TABLES: u64 = 4_000;
    let seed = seed();
    let [mut forcing, mut earlier, mut later, mut level, mut apart] = [0u64; 5];
    for case in 0..TABLES {
        let origin = Origin { test: "places of receipts", seed, case };
        let mut rng = origin.rng();
        let (n, e) = (2 + rng.below(5), 1 + rng.below(12));
        let mut pair = if rng.one_in(2) {
            made(&mut rng, n, e, origin)
        } else {
            Pair::new(&well_laid(&mut rng, n, e), origin)
        };
        let mut waiting = messages(pair.table());
        while !waiting.is_empty() {
            let call = waiting.swap_remove(rng.below(waiting.len() as u32) as usize);
            let Receipt { k, .. } = call else { unreachable!() };
            let Some([_, forces, sent_at, received_at]) = received(&mut pair, call) else { continue };
            forcing += u64::from(forces);
            earlier += u64::from(received_at < sent_at);
            later += u64::from(received_at > sent_at);
            level += u64::from(received_at == sent_at);
            apart += u64::from(sent_at != k);
        }
    }
    println!(
        "places: CKPT_SEED={seed}, {earlier} receipts at an earlier place than their send, {later} at a later, {level} at \
         the same; {forcing} forced, {apart} sends whose place isn't their number"
    );
    assert!([forcing, earlier, later, level, apart].iter().all(|&count| count > TABLES / 8));
}

/// The last places that there are: send and receipt are record 1,024 of their processes, the receipt behind a forced
/// checkpoint and without one, and the first and last process of sixteen.
#[test]
fn the_largest_places() {
    const E: u32 = 1024;
    let saves = |count: u32| (1..=count).map(checkpoint);
    for (own, answer) in [(E - 2, [E - 1, 1, E, E]), (E - 1, [E - 1, 0, E, E])] {
        let sender: Vec<Record> = saves(E - 1).chain([send(15, 1, E - 1)]).collect();
        let receiver: Vec<Record> = saves(own).collect();
        let sections = [vec![sender], vec![vec![]; 14], vec![receiver]].concat();
        let mut pair = Pair::new(&from_records(E, &sections), ORIGIN);
        assert_eq!(received(&mut pair, Receipt { p: 15, q: 0, k: 1 }), Some(answer), "{own} saves");
    }
    // The last of 1,024 sends.
    let sends: Vec<Record> = (1..=E).map(|k| send(1, k, 0)).collect();
    let mut pair = Pair::new(&from_records(E, &[sends, vec![]]), ORIGIN);
    assert_eq!(received(&mut pair, Receipt { p: 1, q: 0, k: E }), Some([0, 0, E, 1]));
}

/// A receipt that meets no other row takes an area of 16 bytes and of no other length, 8 among them, which was document
/// 01's.
#[test]
fn an_area_of_sixteen_bytes_and_no_other() {
    let table = from_records(2, &[vec![checkpoint(1), send(1, 1, 1)], vec![]]);
    for length in 0..=64 {
        let (returned, area) =
            Pair::new(&table, ORIGIN).call(Receipt { p: 1, q: 0, k: 1 }, &vec![0xEE; length]);
        assert_eq!(returned, if length == 16 { 0 } else { 4 }, "{length}");
        assert!(length == 16 || area.iter().all(|&byte| byte == 0xEE), "{length}");
    }
}
