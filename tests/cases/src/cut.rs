//! Cuts: document 01, "Lines", and the messages in transit at them, document 02's slip 1, by these documents' words.
use crate::table::{from_words, is_checkpoint, is_send, Record, A, B, KIND, RECEIPT, SEND};
use crate::Rng;
use std::collections::BTreeSet;

/// The positions at which everything has happened.
pub fn counts(sections: &[Vec<Record>]) -> Vec<u32> {
    sections.iter().map(|s| s.len() as u32).collect()
}

/// What a process has saved, as position and number: its initial checkpoint first.
pub fn saved(own: &[Record]) -> impl Iterator<Item = (u32, u32)> + '_ {
    let recorded = (1..).zip(own).filter(|(_, r)| is_checkpoint(r)).map(|(position, r)| (position, r[A]));
    [(0, 0)].into_iter().chain(recorded)
}

/// The position of its first saved state with this number or more, if it has one.
pub fn saved_position(own: &[Record], number: u32) -> Option<u32> {
    saved(own).find(|&(_, saved)| saved >= number).map(|(position, _)| position)
}

/// The position of its last saved state.
pub fn last_saved(own: &[Record]) -> u32 {
    saved(own).last().map_or(0, |(position, _)| position)
}

/// The number of the last line that has a saved state of each process: the smallest of their largest checkpoint numbers.
pub fn last_line(sections: &[Vec<Record>]) -> u32 {
    let largest = |own: &Vec<Record>| saved(own).map(|(_, number)| number).max().unwrap_or(0);
    sections.iter().map(largest).min().unwrap_or(0)
}

/// "A failed process may be at 0 or a checkpoint; another may also be at c."
pub fn permits(own: &[Record], failed: bool, position: u32) -> bool {
    let t = position as usize;
    t == 0 || is_checkpoint(&own[t - 1]) || !failed && t == own.len()
}

/// All tuples with an element from 0 to its top at each place.
pub fn tuples(tops: &[u32]) -> impl Iterator<Item = Vec<u32>> + '_ {
    let all: u32 = tops.iter().map(|top| top + 1).product();
    (0..all).map(|mut number| {
        let digit = |&top: &u32| {
            let digit = number % (top + 1);
            number /= top + 1;
            digit
        };
        tops.iter().map(digit).collect()
    })
}

/// What the cut has of process p.
fn part<'a>(sections: &'a [Vec<Record>], cut: &[u32], p: usize) -> &'a [Record] {
    &sections[p][..cut[p] as usize]
}

/// A receipt inside the cut whose sender's part of the cut has no such send to this receiver.
pub fn has_orphan(sections: &[Vec<Record>], cut: &[u32]) -> bool {
    let part = |p: usize| part(sections, cut, p);
    let sent = |q: usize, p: usize, k: u32| part(q).iter().any(|r| is_send(r, p as u32, k));
    let orphan = |p: usize, r: &Record| r[KIND] == RECEIPT && !sent(r[A] as usize, p, r[B]);
    (0..sections.len()).any(|p| part(p).iter().any(|r| orphan(p, r)))
}

/// A message: sender, send number, receiver.
pub type Message = [u32; 3];

/// The messages that their sender's part of the cut has sent and their receiver's part hasn't got, by sender and then send
/// number.
pub fn in_transit(sections: &[Vec<Record>], cut: &[u32]) -> Vec<Message> {
    let of_kind = |p: usize, kind: u32| part(sections, cut, p).iter().filter(move |r| r[KIND] == kind);
    let processes = 0..sections.len();
    let receipts = |p: usize| of_kind(p, RECEIPT).map(move |r| [r[A], r[B], p as u32]);
    let got: BTreeSet<Message> = processes.clone().flat_map(receipts).collect();
    let sends = |q: usize| of_kind(q, SEND).map(move |r| [q as u32, r[B], r[A]]);
    processes.flat_map(sends).filter(|message| !got.contains(message)).collect()
}

/// What resend answers for these messages.
pub fn listed(messages: &[Message]) -> Vec<u32> {
    [&[messages.len() as u32], messages.as_flattened()].concat()
}

/// Any cut: all zero, at the counts, at the counts but for one process, which leaves its receivers with orphans, or at any
/// positions.
pub fn draw(rng: &mut Rng, counts: &[u32]) -> Vec<u32> {
    let mut cut = counts.to_vec();
    match rng.below(6) {
        0 => cut.fill(0),
        1 => {}
        2 => {
            let p = rng.below(cut.len() as u32) as usize;
            cut[p] = rng.below(cut[p] + 1);
        }
        _ => cut.iter_mut().for_each(|at| *at = rng.below(*at + 1)),
    }
    cut
}

/// The bytes of a cut's positions; now and then one of them is another number, or they have another length.
pub fn positions(rng: &mut Rng, cut: &[u32], n: u32, e: u32) -> Vec<u8> {
    let mut words = cut.to_vec();
    if rng.one_in(12) {
        let p = rng.below(n) as usize;
        words[p] = if rng.one_in(2) { words[p] + 1 } else { rng.extreme(n, e) };
    }
    let mut bytes = from_words(&words);
    if rng.one_in(16) {
        let exact = bytes.len();
        bytes.resize(rng.pick(&[0, 1, exact - 4, exact - 1, exact + 1, exact + 4, 64]), 0);
    }
    bytes
}

/// The length of resend's area where so many bytes are needed.
pub fn area_length(rng: &mut Rng, needed: usize) -> usize {
    match rng.below(8) {
        0 => needed - 1,
        1 => rng.below(needed as u32) as usize,
        2 => needed + 1,
        3 => needed + 100,
        4 => needed + rng.below(64) as usize,
        _ => needed,
    }
}
