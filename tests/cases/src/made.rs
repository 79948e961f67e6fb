//! Tables that runs make, by document 01's rules on records and document 02's fourth word: no engine is asked, and a run
//! that fills the largest table takes no longer than its records. Then changes of such tables.
use crate::table::{
    checkpoint, forced, from_records, from_words, number_of, receipt, record, records, send, to_words,
    Record, A, B, CARRIED, HEAD, KIND, RECEIPT, SEND, WIDTH,
};
use crate::Rng;

/// A message that was sent and not yet received.
#[derive(Clone, Copy)]
pub struct Message {
    pub from: u32,
    pub to: u32,
    pub k: u32,
    carried: u32,
}

/// What a run has left so far. Its steps answer whether there was room for their records.
pub struct Run {
    e: u32,
    pub sections: Vec<Vec<Record>>,
    pub waiting: Vec<Message>,
    sends: Vec<u32>,
}

impl Run {
    pub fn fresh(n: u32, e: u32) -> Run {
        let of_each = n as usize;
        Run { e, sections: vec![Vec::new(); of_each], waiting: Vec::new(), sends: vec![0; of_each] }
    }

    fn add(&mut self, p: u32, added: &[Record]) -> bool {
        let section = &mut self.sections[p as usize];
        let room = section.len() + added.len() <= self.e as usize;
        if room {
            section.extend(added);
        }
        room
    }

    fn number(&self, p: u32) -> u32 {
        number_of(&self.sections[p as usize])
    }

    pub fn checkpoint(&mut self, p: u32) -> bool {
        self.add(p, &[checkpoint(self.number(p) + 1)])
    }

    pub fn send(&mut self, p: u32, q: u32) -> bool {
        let (k, carried) = (self.sends[p as usize] + 1, self.number(p));
        let sent = self.add(p, &[send(q, k, carried)]);
        if sent {
            self.sends[p as usize] = k;
            self.waiting.push(Message { from: p, to: q, k, carried });
        }
        sent
    }

    /// Receives the waiting message at this place.
    pub fn receive(&mut self, i: usize) -> bool {
        let Message { from, to, k, carried } = self.waiting[i];
        let own = [forced(carried), receipt(from, k, carried)];
        let received = self.add(to, &own[usize::from(carried <= self.number(to))..]);
        if received {
            self.waiting.swap_remove(i);
        }
        received
    }

    /// A step that is drawn: most receipts overtake others.
    fn step(&mut self, rng: &mut Rng) -> bool {
        let n = self.sections.len() as u32;
        let p = rng.below(n);
        match rng.below(8) {
            0 => self.checkpoint(p),
            1..=3 if n > 1 => self.send(p, (p + 1 + rng.below(n - 1)) % n),
            _ if self.waiting.is_empty() => self.checkpoint(p),
            _ => self.receive(rng.below(self.waiting.len() as u32) as usize),
        }
    }

    pub fn table(&self) -> Vec<u8> {
        from_records(self.e, &self.sections)
    }
}

/// The table of a run of so many drawn steps, some of which lack room.
pub fn run(rng: &mut Rng, n: u32, e: u32, steps: u32) -> Vec<u8> {
    let mut run = Run::fresh(n, e);
    for _ in 0..steps {
        run.step(rng);
    }
    run.table()
}

/// A message goes from process to process, each time to the one below, and from 0 to the last. So a sweep over the
/// processes, 0 first, gets no further than one message, but for that from 0.
pub fn down_the_ring(n: u32, e: u32) -> Vec<u8> {
    let mut run = Run::fresh(n, e);
    let mut p = n - 1;
    loop {
        let q = (p + n - 1) % n;
        if !run.send(p, q) || !run.receive(0) {
            return run.table();
        }
        p = q;
    }
}

/// The table with a word of a used record changed, if it has one. Often it is well laid no more.
pub fn one_word_changed(rng: &mut Rng, table: &[u8]) -> Vec<u8> {
    let mut words = to_words(table);
    let (n, e) = (words[0], words[1]);
    let sections = records(table);
    let (p, section) = pick_section(rng, &sections);
    if !section.is_empty() {
        let place = record(e, p, rng.below(section.len() as u32)) + rng.below(WIDTH as u32) as usize;
        let old = words[place];
        words[place] = match rng.below(6) {
            0 => rng.extreme(n, e),
            1 | 2 => rng.below(5),
            3 | 4 => old.wrapping_sub(1),
            _ => old.wrapping_add(1),
        };
    }
    from_words(&words)
}

/// Any section, mostly one that has records.
fn pick_section<'a>(rng: &mut Rng, sections: &'a [Vec<Record>]) -> (u32, &'a [Record]) {
    let n = sections.len() as u32;
    let first = rng.below(n);
    let from_there = (0..n).map(|i| (first + i) % n);
    let p = from_there.into_iter().find(|&p| !sections[p as usize].is_empty()).unwrap_or(first);
    (p, &sections[p as usize])
}

/// The table with a record changed, added, left out or in another place, made well laid again: sends are numbered anew and
/// carry the number before them, and no receipt carries more than that.
pub fn altered(rng: &mut Rng, table: &[u8]) -> Vec<u8> {
    let words = to_words(&table[..4 * HEAD]);
    let (n, e) = (words[0], words[1]);
    let mut sections = records(table);
    let (p, own) = pick_section(rng, &sections);
    let count = own.len() as u32;
    let other = if n == 1 { p } else { (p + 1 + rng.below(n - 1)) % n };
    let section = &mut sections[p as usize];
    let (i, j) = (rng.below(count.max(1)) as usize, rng.below(count.max(1)) as usize);
    match rng.below(10) {
        _ if count == 0 => section.push(checkpoint(rng.below(3))),
        0 => section.swap(i, j),
        1 | 2 => section.swap(i, i.saturating_sub(1)),
        3 => drop(section.remove(i)),
        4 if count < e => {
            let twice = section[j];
            section.insert(i, twice);
        }
        5 if count < e => section.insert(i, checkpoint(number_of(&section[..i]) + rng.below(2))),
        6 if count < e && n > 1 => section.insert(i, receipt(other, 1 + rng.below(e.min(3)), 0)),
        _ => change(rng, &mut section[i], other),
    }
    mend(&mut sections, n, e);
    from_records(e, &sections)
}

/// Changes a word of a record: one more or less, another process, the other sort of checkpoint.
fn change(rng: &mut Rng, record: &mut Record, other: u32) {
    let by_one = |rng: &mut Rng, word: u32| if rng.one_in(2) { word + 1 } else { word.saturating_sub(1) };
    match record[KIND] {
        SEND => record[A] = other,
        RECEIPT => match rng.below(4) {
            0 => record[A] = other,
            1 | 2 => record[B] = by_one(rng, record[B]),
            _ => record[CARRIED] = by_one(rng, record[CARRIED]),
        },
        _ if rng.one_in(2) => record[KIND] = 3 - record[KIND],
        _ => record[A] = by_one(rng, record[A]),
    }
}

/// Keeps the words of records in their ranges, and numbers the sends anew.
fn mend(sections: &mut [Vec<Record>], n: u32, e: u32) {
    for section in sections {
        let (mut number, mut sends) = (0, 0);
        for record in section {
            match record[KIND] {
                SEND => {
                    sends += 1;
                    *record = send(record[A], sends, number);
                }
                RECEIPT => *record = receipt(record[A], record[B].clamp(1, e), record[CARRIED].min(number)),
                _ => {
                    record[A] = record[A].min(n * e);
                    number = record[A];
                }
            }
        }
    }
}

/// How many sweeps over the processes, 0 first, add a record, where in each sweep each process goes on until its next
/// record is a receipt of a send not yet reached.
pub fn sweeps(table: &[u8]) -> u32 {
    let sections = records(table);
    let mut at = vec![0; sections.len()];
    let mut sent = vec![0; sections.len()];
    for sweeps in 0.. {
        let before = at.clone();
        for (p, section) in sections.iter().enumerate() {
            while let Some(r) = section.get(at[p]) {
                if r[KIND] == RECEIPT && r[B] > sent[r[A] as usize] {
                    break;
                }
                sent[p] += u32::from(r[KIND] == SEND);
                at[p] += 1;
            }
        }
        if at == before {
            return sweeps;
        }
    }
    unreachable!("every sweep but the last adds a record")
}
