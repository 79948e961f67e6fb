//! Failure lines by document 01's words, read from a table's bytes.
use cases::cut::{self, has_orphan, tuples};
use cases::records;
use cases::table::{is_send, Record, A, B, KIND, RECEIPT};
use std::fmt;

/// Whether bit p of the mask is set.
pub fn failed(mask: u32, p: usize) -> bool {
    mask >> p & 1 == 1
}

/// A receipt: its place and that of its send, counted from 1, and the sender.
struct Received {
    place: u32,
    sender: usize,
    sent: u32,
}

/// The receipts of process p. A send to p that isn't there has a place behind every cut.
fn received(sections: &[Vec<Record>], p: usize) -> Vec<Received> {
    let place = |i: usize| i as u32 + 1;
    let receipts = sections[p].iter().enumerate().filter(|(_, r)| r[KIND] == RECEIPT);
    let with_send = |(i, receipt): (usize, &Record)| {
        let sender = receipt[A] as usize;
        let sent = sections[sender].iter().position(|r| is_send(r, p as u32, receipt[B]));
        Received { place: place(i), sender, sent: sent.map_or(u32::MAX, place) }
    };
    receipts.map(with_send).collect()
}

/// The used records of a well laid table.
pub struct History {
    pub sections: Vec<Vec<Record>>,
    received: Vec<Vec<Received>>,
}

impl History {
    pub fn of(table: &[u8]) -> History {
        let sections = records(table);
        let received = (0..sections.len()).map(|p| received(&sections, p)).collect();
        History { sections, received }
    }

    pub fn counts(&self) -> Vec<u32> {
        cut::counts(&self.sections)
    }

    /// Whether process p may be at this position where those of the mask failed.
    pub fn permits(&self, mask: u32, p: usize, position: u32) -> bool {
        cut::permits(&self.sections[p], failed(mask, p), position)
    }

    /// The first receipt of process p that is an orphan in the cut.
    fn first_orphan(&self, cut: &[u32], p: usize) -> Option<&Received> {
        self.received[p].iter().find(|r| r.place <= cut[p] && r.sent > cut[r.sender])
    }

    /// Whether the cut has an orphan, by a look at each receipt: quick on the largest tables too.
    pub fn has_orphan(&self, cut: &[u32]) -> bool {
        (0..cut.len()).any(|p| self.first_orphan(cut, p).is_some())
    }

    fn latest_permitted(&self, mask: u32, p: usize, top: u32) -> u32 {
        (0..=top).rev().find(|&t| self.permits(mask, p, t)).unwrap()
    }

    /// The cut, then the mask of the processes that have failed or whose position is below their count, and how many
    /// they are.
    pub fn answer(&self, mask: u32, cut: &[u32]) -> Vec<u32> {
        let counts = self.counts();
        let back: Vec<usize> = (0..cut.len()).filter(|&p| failed(mask, p) || cut[p] < counts[p]).collect();
        let bits = back.iter().map(|p| 1 << p).sum();
        [cut, &[bits, back.len() as u32]].concat()
    }

    /// The failure line by lowering the latest permitted cut: in a round each process that has an orphan, 0 first, goes
    /// to its latest permitted position before the first one. Answers the rounds that lowered something too.
    pub fn lowered(&self, mask: u32) -> (Vec<u32>, u32) {
        let tops = self.counts().into_iter().enumerate();
        let mut cut: Vec<u32> = tops.map(|(p, top)| self.latest_permitted(mask, p, top)).collect();
        let mut rounds = 0;
        loop {
            let before = cut.clone();
            for p in 0..cut.len() {
                if let Some(first) = self.first_orphan(&cut, p) {
                    cut[p] = self.latest_permitted(mask, p, first.place - 1);
                }
            }
            if cut == before {
                return (cut, rounds);
            }
            rounds += 1;
        }
    }

    /// All cuts without orphans, permitted or not.
    pub fn clean_cuts(&self) -> Vec<Vec<u32>> {
        tuples(&self.counts()).filter(|cut| !has_orphan(&self.sections, cut)).collect()
    }

    /// Of the permitted ones among these cuts the one that is at least as late as each of the others at every process.
    /// There must be exactly one.
    pub fn latest(&self, clean: &[Vec<u32>], mask: u32) -> Vec<u32> {
        let permitted = |cut: &&Vec<u32>| (0..cut.len()).all(|p| self.permits(mask, p, cut[p]));
        let cuts: Vec<&Vec<u32>> = clean.iter().filter(permitted).collect();
        let as_late = |a: &[u32], b: &[u32]| a.iter().zip(b).all(|(x, y)| x >= y);
        let latest: Vec<_> = cuts.iter().filter(|a| cuts.iter().all(|b| as_late(a, b))).collect();
        assert_eq!(latest.len(), 1, "latest cuts for mask {mask} on {self}");
        latest[0].to_vec()
    }
}

/// The records, unless they are many.
impl fmt::Display for History {
    fn fmt(&self, f: &mut fmt::Formatter) -> fmt::Result {
        match self.counts().iter().sum() {
            0..=100 => write!(f, "{:?}", self.sections),
            many => write!(f, "{many} records"),
        }
    }
}
