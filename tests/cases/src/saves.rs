//! What can be restarted from: document 02's slip 9, by its words. Every checkpoint of a made table is to be in some cut without
//! orphans in which each other process is at a checkpoint or at its count.
use crate::cut::{has_orphan, permits, saved, saved_position, tuples};
use crate::table::{Record, KIND};
use std::collections::BTreeSet;

/// A checkpoint, maybe the initial one of its process: the position that it saves, and its number.
#[derive(Clone, Copy, Debug, PartialEq, Eq)]
pub struct Save {
    pub p: usize,
    pub position: u32,
    pub number: u32,
}

/// All checkpoints, the initial ones included.
pub fn saves(sections: &[Vec<Record>]) -> impl Iterator<Item = Save> + '_ {
    sections
        .iter()
        .enumerate()
        .flat_map(|(p, own)| saved(own).map(move |(position, number)| Save { p, position, number }))
}

impl Save {
    /// The kind of its record, 0 of the initial one, which has none.
    pub fn kind(self, sections: &[Vec<Record>]) -> u32 {
        self.position.checked_sub(1).map_or(0, |i| sections[self.p][i as usize][KIND])
    }

    /// A cut through it: its process at exactly its position, each other one where it is put for its number.
    pub fn with(self, sections: &[Vec<Record>], other: impl Fn(&[Record], u32) -> u32) -> Vec<u32> {
        let mut cut: Vec<u32> = sections.iter().map(|own| other(own, self.number)).collect();
        cut[self.p] = self.position;
        cut
    }

    /// The one that needs no search: each other process at its first checkpoint with this number or more, else at its count.
    pub fn cut(self, sections: &[Vec<Record>]) -> Vec<u32> {
        self.with(sections, |own, number| saved_position(own, number).unwrap_or(own.len() as u32))
    }
}

/// For each process the positions that it has in cuts without orphans, where each is at a checkpoint or at its count. All such
/// cuts are tried.
pub fn used(sections: &[Vec<Record>]) -> Vec<BTreeSet<u32>> {
    let of_one = |own: &Vec<Record>| (0..=own.len() as u32).filter(|&t| permits(own, false, t)).collect();
    let positions: Vec<Vec<u32>> = sections.iter().map(of_one).collect();
    let tops: Vec<u32> = positions.iter().map(|own| own.len() as u32 - 1).collect();
    let mut used = vec![BTreeSet::new(); sections.len()];
    for chosen in tuples(&tops) {
        let cut: Vec<u32> = chosen.iter().zip(&positions).map(|(&i, own)| own[i as usize]).collect();
        if !has_orphan(sections, &cut) {
            for (own, position) in used.iter_mut().zip(cut) {
                own.insert(position);
            }
        }
    }
    used
}

/// The checkpoints that none of these cuts uses.
pub fn idle(sections: &[Vec<Record>]) -> Vec<Save> {
    let used = used(sections);
    saves(sections).filter(|save| !used[save.p].contains(&save.position)).collect()
}
