//! Random cases, each a table and calls on it, drawn from a seed and made beside the reference engine: runs from fresh,
//! well laid tables that no run makes, damaged bytes, wrong lengths and extreme numbers.
use crate::{Engine, Origin, Pair};
use cases::calls::{numbers, CALLS};
use cases::cut::{self, in_transit, listed};
use cases::made::{altered, one_word_changed};
use cases::table::{old_table_length, WIDTH};
use cases::{
    area_length, damage, messages, records, remember, scratch_length, step, step_or_line, table_length,
    to_words, well_laid, Call, Rng,
};
use std::collections::{BTreeMap, BTreeSet};
use std::fmt;
use std::mem::replace;

/// The most steps of a run from fresh.
const MOST: u32 = 300;

/// How often each call returned each number, how often the audit said 0 and 1, how many processes got each ground, and how
/// many calls were made on tables of the largest dimensions.
#[derive(Default)]
pub struct Tally {
    counts: BTreeMap<(&'static str, u32), u64>,
    pub verdicts: [u64; 2],
    pub grounds: [u64; 3],
    pub largest: u64,
}

impl Tally {
    fn add(&mut self, call: Call, returned: u32) {
        *self.counts.entry((call.sort().name, returned)).or_default() += 1;
    }

    pub fn total(&self) -> u64 {
        self.counts.values().sum()
    }

    /// How often the call of this name returned the number.
    pub fn count(&self, name: &str, number: u32) -> u64 {
        self.counts.get(&(name, number)).copied().unwrap_or(0)
    }

    /// The numbers that the call of this name returned.
    pub fn met(&self, name: &str) -> BTreeSet<u32> {
        self.counts.keys().filter(|(own, _)| *own == name).map(|&(_, number)| number).collect()
    }
}

impl fmt::Display for Tally {
    fn fmt(&self, f: &mut fmt::Formatter) -> fmt::Result {
        write!(f, "{:10}", "returned")?;
        numbers().iter().try_for_each(|number| write!(f, "{number:>9}"))?;
        for call in CALLS {
            write!(f, "\n{:10}", call.name)?;
            numbers().iter().try_for_each(|&number| write!(f, "{:>9}", self.count(call.name, number)))?;
        }
        let [unmade, made] = self.verdicts;
        write!(f, "\naudits that said 1: {made}, 0: {unmade}")?;
        write!(f, "\nprocesses that got the grounds 0, 1 and 2: {:?}", self.grounds)
    }
}

/// A pair on a table, the calls made on it counted.
pub struct Case<'a> {
    pub pair: Pair,
    pub rng: Rng,
    pub n: u32,
    pub e: u32,
    pub tally: &'a mut Tally,
}

impl Case<'_> {
    /// A call that is lent an answer area at most.
    fn call(&mut self, call: Call) -> u32 {
        let length = area_length(&mut self.rng, call.area_length(self.n));
        let area = self.rng.bytes(length);
        self.call_on(call, call.areas(&[&area]))
    }

    /// A call that is lent areas of these bytes.
    fn call_on(&mut self, call: Call, areas: &[&[u8]]) -> u32 {
        let returned = self.pair.call_on(call, areas);
        self.tally.add(call, returned);
        self.tally.largest += u64::from((self.n, self.e) == (16, 1024));
        returned
    }

    /// Resend on a well laid table, mostly at a cut and with an area that is long enough.
    fn resend(&mut self) -> u32 {
        let sections = records(self.pair.table());
        let cut = cut::draw(&mut self.rng, &cut::counts(&sections));
        let needed = 4 * listed(&in_transit(&sections, &cut)).len();
        let length = cut::area_length(&mut self.rng, needed);
        self.resend_on(&cut, length)
    }

    /// Resend with an area of this length and positions that are mostly these.
    fn resend_on(&mut self, cut: &[u32], length: usize) -> u32 {
        let positions = cut::positions(&mut self.rng, cut, self.n, self.e);
        let area = self.rng.bytes(length);
        self.call_on(Call::Resend, &[&area, &positions])
    }

    /// The audit, mostly with an area and a scratch of the exact lengths, whatever they hold.
    fn audit(&mut self) -> u32 {
        let area = area_length(&mut self.rng, Call::Audit.area_length(self.n));
        let scratch = scratch_length(&mut self.rng, self.n, self.pair.table().len());
        let (area, scratch) = (self.rng.bytes(area), self.rng.bytes(scratch));
        let returned = self.call_on(Call::Audit, &[&area, &scratch]);
        if returned == 0 {
            let answer = to_words(self.pair.areas().next().expect("an area"));
            self.tally.verdicts[answer[0] as usize] += 1;
        }
        returned
    }

    /// Audits of the table with a place of it changed, three in four of them well laid again.
    fn audits_of_changed(&mut self) {
        for _ in 0..4 {
            let (table, rng) = (self.pair.table(), &mut self.rng);
            let changed = if rng.one_in(4) { one_word_changed(rng, table) } else { altered(rng, table) };
            let pair = self.pair.on_other(&changed);
            let own = replace(&mut self.pair, pair);
            self.audit();
            self.pair = own;
        }
    }

    /// Fresh, now and then with other dimensions than the table's.
    fn fresh(&mut self) -> u32 {
        let (n, e) = (self.n, self.e);
        let call = match self.rng.below(4) {
            0 => Call::Fresh { n: self.rng.extreme(n, e), e },
            1 => Call::Fresh { n, e: self.rng.extreme(n, e) },
            _ => Call::Fresh { n, e },
        };
        self.call(call)
    }

    /// The grounds of a failure line.
    fn grounds(&mut self) -> u32 {
        let mask = self.rng.mask(self.n);
        let returned = self.call(Call::Grounds { mask });
        if returned == 0 {
            let answer = to_words(self.pair.areas().next().expect("an area"));
            answer.chunks(2).for_each(|words| self.tally.grounds[words[0] as usize] += 1);
        }
        returned
    }

    /// Steps, lines, grounds, resends and audits on the table as it is, whose messages are known.
    pub fn steps(&mut self, count: u32, mut known: Vec<Call>) {
        for _ in 0..count {
            match self.rng.below(24) {
                0 | 1 => self.resend(),
                2 => self.audit(),
                3 | 4 => self.grounds(),
                _ => 0,
            };
            let call = step_or_line(&mut self.rng, self.n, self.e, &known);
            if self.call(call) == 0 {
                remember(&mut self.rng, &mut known, call, self.pair.table());
            }
        }
    }

    /// A run from fresh, over bytes that were anything.
    fn run_from_fresh(&mut self) {
        let (n, e) = (self.n, self.e);
        assert_eq!(self.call(Call::Fresh { n, e }), 0, "{}", self.pair.origin());
        let count = self.rng.below(2 * n * e + 8).min(MOST);
        self.steps(count, Vec::new());
        self.audits_of_changed();
    }

    /// Steps and lines on a well laid table that no run made.
    fn run_from_well_laid(&mut self) {
        let known = messages(self.pair.table());
        self.audit();
        self.steps(24, known);
        self.fresh();
    }

    /// Each kind of call once, fresh last as it would repair the table.
    fn one_of_each(&mut self) {
        let (n, e, rng) = (self.n, self.e, &mut self.rng);
        let (p, q, k) = (rng.around(n, n, e), rng.around(n, n, e), rng.around(e + 1, n, e));
        let (number, mask) = (rng.around(n * e + 2, n, e), rng.mask(n));
        let cut: Vec<u32> = (0..n).map(|_| rng.below(3)).collect();
        let length = rng.pick(&[0, 4, 100]);
        self.call(Call::Checkpoint { p });
        self.call(Call::Send { p, q });
        self.call(Call::Receipt { p, q, k });
        self.call(Call::Line { number });
        self.call(Call::Failed { mask });
        self.call(Call::Grounds { mask });
        self.resend_on(&cut, length);
        self.audit();
        self.fresh();
    }
}

/// A pair on a table that a run of steps from fresh made.
pub fn made(rng: &mut Rng, n: u32, e: u32, origin: Origin) -> Pair {
    let mut pair = Pair::fresh(n, e, origin);
    let mut known = Vec::new();
    for _ in 0..rng.below(4 * n * e + 2) {
        let call = step(rng, n, e, &known);
        let length = area_length(rng, call.area_length(n));
        if pair.call(call, &vec![0xEE; length]).0 == 0 {
            remember(rng, &mut known, call, pair.table());
        }
    }
    pair
}

fn damaged(rng: &mut Rng, n: u32, e: u32) -> Vec<u8> {
    let mut table = well_laid(rng, n, e);
    damage(rng, &mut table, n, e);
    table
}

/// A good table cut off or with bytes added, or no table at all.
fn wrong_length(rng: &mut Rng, n: u32, e: u32) -> Vec<u8> {
    let mut table = well_laid(rng, n, e);
    let length = table.len();
    let other = match rng.below(7) {
        0 => rng.below(9) as usize,
        1 => length - 1,
        2 => length + 1,
        3 => length + 4 * WIDTH,
        4 => rng.below(length as u32) as usize,
        5 => old_table_length(n, e),
        _ => length + rng.below(64) as usize,
    };
    table.resize(other, 0);
    if rng.one_in(8) {
        table = rng.bytes(other);
    }
    table
}

/// How n and E of a case are drawn.
pub type Dimensions = fn(&mut Rng) -> (u32, u32);

/// Draws the case of this origin and makes its calls, which reach the proved engine in this way.
pub fn run_case(engine: Engine, origin: Origin, dimensions: Dimensions, tally: &mut Tally) {
    let mut rng = origin.rng();
    let (n, e) = dimensions(&mut rng);
    let sort = rng.below(8);
    let table = match sort {
        0..=2 => vec![0xEE; table_length(n, e)],
        3 | 4 => well_laid(&mut rng, n, e),
        5 | 6 => damaged(&mut rng, n, e),
        _ => wrong_length(&mut rng, n, e),
    };
    let mut case = Case { pair: Pair::on(engine, &table, origin), rng, n, e, tally };
    match sort {
        0..=2 => case.run_from_fresh(),
        3 | 4 => case.run_from_well_laid(),
        _ => case.one_of_each(),
    }
}

pub fn small(rng: &mut Rng) -> (u32, u32) {
    (1 + rng.below(4), 1 + rng.below(8))
}

pub fn middle(rng: &mut Rng) -> (u32, u32) {
    (1 + rng.below(16), 1 + rng.below(64))
}

pub fn large(rng: &mut Rng) -> (u32, u32) {
    let any = (1 + rng.below(16), 1 + rng.below(1024));
    rng.pick(&[any, any, (8, 256), (1, 1024), (2, 1024), (16, 1024)])
}

/// Mostly small: a call on a large table takes as long as hundreds on small ones.
pub fn mixed(rng: &mut Rng) -> (u32, u32) {
    match rng.below(512) {
        0 => large(rng),
        1..=16 => middle(rng),
        _ => small(rng),
    }
}
