//! Whether a table comes from a run.

use crate::model::{Record, Step, Table};

impl Table {
    /// Whether some run of accepted checkpoints, sends and receipts from a
    /// fresh table leaves exactly this one.
    ///
    /// The records of a process tell its calls and their order, so only the
    /// turns between processes are open. Each process goes on as long as its
    /// next call is accepted. That loses nothing: a call adds the same records
    /// whatever the others did meanwhile, once the send it may need is there.
    /// If a run left this table and not all of its calls were taken here, the
    /// first of them in the run's own order could be taken now.
    pub fn is_made(&self) -> bool {
        let mut again = Table::fresh(self.dimensions);
        loop {
            let mut went_on = false;
            for (p, records) in self.sections.iter().enumerate() {
                while let Some(step) = next_step(p as u32, &records[again.sections[p].len()..]) {
                    if again.take(step).is_err() {
                        break;
                    }
                    if !records.starts_with(&again.sections[p]) {
                        return false;
                    }
                    went_on = true;
                }
            }
            if !went_on {
                return again == *self;
            }
        }
    }
}

/// The only step of p that can add the first of the records left. A forced
/// checkpoint comes with the receipt straight after it.
fn next_step(p: u32, left: &[Record]) -> Option<Step> {
    Some(match *left {
        [Record::Basic { .. }, ..] => Step::Checkpoint { p },
        [Record::Send { to, .. }, ..] => Step::Send { p, q: to as u32 },
        [Record::Receipt { from, number, .. }, ..]
        | [Record::Forced { .. }, Record::Receipt { from, number, .. }, ..] => {
            Step::Receipt { p, q: from as u32, k: number }
        }
        [] | [Record::Forced { .. }, ..] => return None,
    })
}
