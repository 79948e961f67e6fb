//! Tables for failure lines and their grounds: by calls, and well laid ones that no run makes.
use crate::on_proved;
use cases::cut::tuples;
use cases::table::{checkpoint, forced, number_of, receipt, send, Record, A, B, KIND, RECEIPT, SEND};
use cases::Call::{self, Fresh};
use cases::{carry, from_records, records, remember, step, table_length, well_laid, Rng};

/// A run of calls on the proved engine alone, from fresh. The fewer recent messages it receives from, the sooner a
/// message is received, and the more processes go back together.
pub struct Run {
    pub table: Vec<u8>,
    /// The accepted calls after fresh.
    pub accepted: Vec<Call>,
    known: Vec<Call>,
    recent: usize,
}

impl Run {
    pub fn new(n: u32, e: u32, recent: usize) -> Run {
        let mut table = vec![0xEE; table_length(n, e)];
        assert_eq!(on_proved(Fresh { n, e }, &mut [&mut table]), 0);
        Run { table, accepted: Vec::new(), known: Vec::new(), recent }
    }

    pub fn calls(&mut self, rng: &mut Rng, n: u32, e: u32, count: u32) {
        for _ in 0..count {
            let recent = &self.known[self.known.len().saturating_sub(self.recent)..];
            let call = step(rng, n, e, recent);
            let mut area = vec![0xEE; call.area_length(n)];
            if on_proved(call, &mut [&mut self.table, &mut area]) == 0 {
                remember(rng, &mut self.known, call, &self.table);
                self.accepted.push(call);
            }
        }
    }

    /// So many calls that the table may be nearly empty or full.
    pub fn random(rng: &mut Rng, n: u32, e: u32) -> Run {
        let mut run = Run::new(n, e, rng.pick(&[2, 4, 1000]));
        let count = rng.below(4 * n * e + 2);
        run.calls(rng, n, e, count);
        run
    }
}

pub fn made(rng: &mut Rng, n: u32, e: u32) -> Vec<u8> {
    Run::random(rng, n, e).table
}

/// A well laid table that no run makes, in which most receipts have their send, not long before their own place: a
/// failed process takes others back with it, and these others. Numbers fall, receipts repeat, and a few are of a later
/// send, lack their send or are of a send to another process.
pub fn linked(rng: &mut Rng, n: u32, e: u32) -> Vec<u8> {
    let (checkpoints, delay) = (rng.pick(&[3, 6, 12]), rng.pick(&[0, e / 64, e / 16]));
    let mut sections: Vec<Vec<Record>> = (0..n).map(|p| unlinked(rng, n, e, p, checkpoints)).collect();
    for p in 0..n as usize {
        for t in 0..sections[p].len() {
            let q = sections[p][t][A];
            if sections[p][t][KIND] == RECEIPT {
                let until = if rng.one_in(e) { e } else { (t as u32).saturating_sub(delay) };
                let sent = some_send(rng, &sections[q as usize][..until as usize], p as u32);
                let k = if rng.one_in(n * e) { Some(1 + rng.below(e)) } else { sent };
                sections[p][t] = k.map_or(checkpoint(0), |k| receipt(q, k, 0));
            }
        }
    }
    sections.iter_mut().for_each(|section| carry(rng, section));
    from_records(e, &sections)
}

/// Records of process p, one in so many a checkpoint. The receipts name no send yet, and nothing is carried.
fn unlinked(rng: &mut Rng, n: u32, e: u32, p: u32, checkpoints: u32) -> Vec<Record> {
    let mut sends = 0;
    let record = |t: u32| {
        if n == 1 || rng.one_in(checkpoints) {
            return rng.pick(&[checkpoint, forced])(n * e - t);
        }
        let other = (p + 1 + rng.below(n - 1)) % n;
        if rng.one_in(2) {
            return receipt(other, 0, 0);
        }
        sends += 1;
        send(other, sends, 0)
    };
    (0..e).map(record).collect()
}

/// The number of one of the last three sends to p among these records.
fn some_send(rng: &mut Rng, records: &[Record], p: u32) -> Option<u32> {
    let sends = records.iter().rev().filter(|r| r[KIND] == SEND && r[A] == p);
    let last: Vec<u32> = sends.take(3).map(|r| r[B]).collect();
    (!last.is_empty()).then(|| rng.pick(&last))
}

pub type Maker = fn(&mut Rng, u32, u32) -> Vec<u8>;
pub const MAKERS: [(&str, Maker); 3] = [("made", made), ("well laid", well_laid), ("linked", linked)];

/// The sections of process p that have one record more than this one. Numbers of checkpoints fall, and receipts carry
/// as much as they may.
fn longer(n: u32, e: u32, p: u32, section: &[Record]) -> Vec<Vec<Record>> {
    let (before, number) = (number_of(section), n * e - section.len() as u32);
    let sends = section.iter().filter(|r| r[KIND] == SEND).count() as u32;
    let mut next = vec![checkpoint(number), forced(number)];
    for other in (0..n).filter(|&q| q != p) {
        next.push(send(other, sends + 1, before));
        next.extend((1..=e).map(|k| receipt(other, k, before)));
    }
    next.into_iter().map(|record| [section, &[record]].concat()).collect()
}

/// All sections of process p, from the empty one to the full ones.
fn all_sections(n: u32, e: u32, p: u32) -> Vec<Vec<Record>> {
    let mut all = vec![Vec::new()];
    let mut shorter = 0;
    for _ in 0..e {
        let added: Vec<_> = all[shorter..].iter().flat_map(|s| longer(n, e, p, s)).collect();
        shorter = all.len();
        all.extend(added);
    }
    all
}

/// Visits every well laid table of these dimensions, but for the numbers of checkpoints and what receipts carry.
pub fn every_table(n: u32, e: u32, mut visit: impl FnMut(&[u8])) {
    let sections: Vec<_> = (0..n).map(|p| all_sections(n, e, p)).collect();
    let tops: Vec<u32> = sections.iter().map(|all| all.len() as u32 - 1).collect();
    for chosen in tuples(&tops) {
        let of = |(all, &i): (&Vec<Vec<Record>>, &u32)| all[i as usize].clone();
        visit(&from_records(e, &sections.iter().zip(&chosen).map(of).collect::<Vec<_>>()));
    }
}

/// n = 16. Processes 0 to m - 1 hang on each other in a ring: each receives from the next one and sends to the one
/// before it. Step i of a process is a receipt, a checkpoint and send i, or the checkpoint first. The receipt is of
/// send i - 1, none in step 1, but at process m - 1 it is of send i. It carries i - 1 in any case, as no more is well laid
/// before the checkpoint.
pub fn ring(e: u32, m: u32, checkpoint_first: bool) -> Vec<u8> {
    let step = |p: u32, i: u32| {
        let k = if p == m - 1 { i } else { i - 1 };
        let receipt = (k > 0).then(|| receipt((p + 1) % m, k, i - 1));
        let checkpoint = Some(checkpoint(i));
        let send = Some(send((p + m - 1) % m, i, i));
        let step = if checkpoint_first { [checkpoint, receipt, send] } else { [receipt, checkpoint, send] };
        step.into_iter().flatten()
    };
    let section = |p: u32| (1..=if p < m { e / 3 } else { 0 }).flat_map(|i| step(p, i)).collect();
    from_records(e, &(0..16).map(section).collect::<Vec<_>>())
}

/// Tables of the largest dimensions: a made one while it fills up, four times, then those that no run makes.
pub fn largest(rng: &mut Rng) -> [Vec<Vec<u8>>; 2] {
    let (n, e) = (16, 1024);
    let mut run = Run::new(n, e, 4);
    let filled = |_| {
        run.calls(rng, n, e, 5_000);
        run.table.clone()
    };
    let made: Vec<_> = (0..4).map(filled).collect();
    let used: usize = records(&made[3]).iter().map(Vec::len).sum();
    assert!(used > 15_000, "{used} records are used");
    let mut unmade: Vec<_> = (0..2).map(|_| well_laid(rng, n, e)).collect();
    unmade.extend((0..12).map(|_| linked(rng, n, e)));
    [made, unmade]
}
