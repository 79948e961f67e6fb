//! The proved engine and the reference engine on the same bytes.
//!
//! Every call is made on both, each with a table and areas of its own. What they return and leave must be the same,
//! byte for byte, and no byte around the lent ones may change.
use cases::{from_words, on_reference, Call, Rng};
use std::env;
use std::fmt;
use std::iter::once;

pub mod cuts;
pub mod drawn;
pub mod program;
pub mod tables;
pub mod texts;

const DEFAULT_SEED: u64 = 20_260_101;
const GUARD: usize = 64;

/// The seed of all random tests: CKPT_SEED, in decimal, or a fixed one.
pub fn seed() -> u64 {
    match env::var("CKPT_SEED") {
        Ok(text) => text.parse().unwrap_or_else(|_| panic!("CKPT_SEED is no decimal number: {text:?}")),
        Err(_) => DEFAULT_SEED,
    }
}

/// Where a call comes from, for messages: the same seed and case number make it again.
#[derive(Clone, Copy)]
pub struct Origin {
    pub test: &'static str,
    pub seed: u64,
    pub case: u64,
}

impl Origin {
    /// A generator for this case alone, so that a case doesn't depend on those before it.
    pub fn rng(self) -> Rng {
        let salt = self.test.bytes().fold(0u64, |sum, b| sum.wrapping_mul(257).wrapping_add(b as u64));
        let mut seeds = Rng::new(self.seed ^ salt);
        Rng::new(seeds.draw().wrapping_add(self.case.wrapping_mul(0xD134_2543_DE82_EF95)))
    }
}

impl fmt::Display for Origin {
    fn fmt(&self, f: &mut fmt::Formatter) -> fmt::Result {
        write!(f, "{}, case {}, CKPT_SEED={}", self.test, self.case, self.seed)
    }
}

/// Lent bytes between two rows of guard bytes.
struct Guarded(Vec<u8>);

/// Guard byte i; none of them is a byte that a table of small numbers has.
fn guard(i: usize) -> u8 {
    0x80 + i as u8
}

impl Guarded {
    fn new(content: &[u8]) -> Guarded {
        let mut bytes = Vec::with_capacity(content.len() + 2 * GUARD);
        bytes.extend((0..GUARD).map(guard));
        bytes.extend(content);
        bytes.extend((0..GUARD).map(guard));
        Guarded(bytes)
    }

    fn content(&self) -> &[u8] {
        &self.0[GUARD..self.0.len() - GUARD]
    }

    fn content_mut(&mut self) -> &mut [u8] {
        let end = self.0.len() - GUARD;
        &mut self.0[GUARD..end]
    }

    fn guards_stand(&self) -> bool {
        let stand = |bytes: &[u8]| bytes.iter().enumerate().all(|(i, &b)| b == guard(i));
        stand(&self.0[..GUARD]) && stand(&self.0[self.0.len() - GUARD..])
    }
}

/// The table is kept from call to call, the areas are those of one call.
fn with_areas(lent: &mut Vec<Guarded>, areas: &[&[u8]]) {
    lent.truncate(1);
    lent.extend(areas.iter().map(|area| Guarded::new(area)));
}

fn contents(lent: &mut [Guarded]) -> Vec<&mut [u8]> {
    lent.iter_mut().map(Guarded::content_mut).collect()
}

/// How a call reaches an engine: on these bytes, lent in the order of its sort. Answers the number returned.
pub type Engine = fn(Call, &mut [&mut [u8]]) -> u32;

/// The call on the proved engine alone.
pub fn on_proved(call: Call, lent: &mut [&mut [u8]]) -> u32 {
    match (call, lent) {
        (Call::Fresh { n, e }, [table]) => ckpt::fresh(table, n, e),
        (Call::Checkpoint { p }, [table, area]) => ckpt::checkpoint(table, area, p),
        (Call::Send { p, q }, [table, area]) => ckpt::send(table, area, p, q),
        (Call::Receipt { p, q, k }, [table, area]) => ckpt::receipt(table, area, p, q, k),
        (Call::Line { number }, [table, area]) => ckpt::line(table, area, number),
        (Call::Failed { mask }, [table, area]) => ckpt::failed(table, area, mask),
        (Call::Grounds { mask }, [table, area]) => ckpt::grounds(table, area, mask),
        (Call::Resend, [table, area, positions]) => ckpt::resend(table, positions, area),
        (Call::Audit, [table, area, scratch]) => ckpt::audit(table, area, scratch),
        (_, lent) => panic!("{call:?} with {} lent areas", lent.len()),
    }
}

/// Where something doesn't hold, what is wrong with which bytes.
fn keeps(holds: bool, what: &str, which: &str) -> Result<(), String> {
    holds.then_some(()).ok_or_else(|| format!("{what} {which}"))
}

/// A table lent to the proved engine, and the same table lent to the reference engine.
pub struct Pair {
    engine: Engine,
    /// What each engine is lent: the table, then the areas of the last call.
    proved: Vec<Guarded>,
    reference: Vec<Guarded>,
    /// The table before the last call.
    before: Vec<u8>,
    origin: Origin,
}

impl Pair {
    pub fn new(table: &[u8], origin: Origin) -> Pair {
        Pair::on(on_proved, table, origin)
    }

    /// A pair whose calls reach the proved engine in this way.
    pub fn on(engine: Engine, table: &[u8], origin: Origin) -> Pair {
        let (proved, reference) = (vec![Guarded::new(table)], vec![Guarded::new(table)]);
        Pair { engine, proved, reference, before: table.to_vec(), origin }
    }

    /// A pair on another table, its calls made and named as this one's are.
    pub fn on_other(&self, table: &[u8]) -> Pair {
        Pair::on(self.engine, table, self.origin)
    }

    /// A pair on which fresh has made a table, over bytes that were no table.
    pub fn fresh(n: u32, e: u32, origin: Origin) -> Pair {
        let mut pair = Pair::new(&vec![0xEE; cases::table_length(n, e)], origin);
        assert_eq!(pair.call(Call::Fresh { n, e }, &[]).0, 0, "fresh {n}, {e}");
        pair
    }

    pub fn origin(&self) -> Origin {
        self.origin
    }

    /// The table as the proved engine left it.
    pub fn table(&self) -> &[u8] {
        self.proved[0].content()
    }

    /// The call with an answer area of these bytes, if it has one, and of no bytes where it is lent more. Answers the
    /// number returned and the area.
    pub fn call(&mut self, call: Call, area: &[u8]) -> (u32, Vec<u8>) {
        let returned = self.call_on(call, call.areas(&[area, &[]]));
        (returned, self.areas().next().unwrap_or_default().to_vec())
    }

    /// Makes the call on both tables, with areas of these bytes on each side, and compares everything that the call
    /// could touch. Answers the number returned.
    pub fn call_on(&mut self, call: Call, areas: &[&[u8]]) -> u32 {
        assert_eq!(areas.len() + 1, call.sort().lent.len(), "{call:?}: what it is lent");
        self.before.copy_from_slice(self.proved[0].content());
        with_areas(&mut self.proved, areas);
        with_areas(&mut self.reference, areas);
        let returned = (self.engine)(call, &mut contents(&mut self.proved));
        let expected = on_reference(call, &mut contents(&mut self.reference));
        if let Err(what) = self.compare(call, areas, returned, expected) {
            panic!("{}", self.failure(&what, call, areas, returned, expected));
        }
        returned
    }

    /// The areas as the proved engine left them in the last call.
    pub fn areas(&self) -> impl Iterator<Item = &[u8]> {
        self.proved[1..].iter().map(Guarded::content)
    }

    /// What is wrong with the two outcomes of a call, if anything is.
    fn compare(&self, call: Call, areas: &[&[u8]], returned: u32, expected: u32) -> Result<(), String> {
        let sides = || self.proved.iter().zip(&self.reference);
        let lent = || call.sort().lent.iter().zip(sides());
        for (bytes, (own, other)) in lent() {
            keeps(own.guards_stand() && other.guards_stand(), "bytes changed around the", bytes.name())?;
        }
        keeps(returned == expected, "the engines differ in the", "number returned")?;
        let before = once(&self.before[..]).chain(areas.iter().copied());
        for ((bytes, (own, other)), before) in lent().zip(before) {
            let kept = own.content() == before;
            let open = bytes.is_left_open() && returned == 0;
            keeps(open || own.content() == other.content(), "the engines differ in the", bytes.name())?;
            keeps(kept || returned == 0, "a refused call changed the", bytes.name())?;
            keeps(kept || bytes.may_change(), "a call that only reads it changed the", bytes.name())?;
        }
        Ok(())
    }

    /// The call with an area of the exact length, and for the audit with a scratch as long as the table. Answers the number
    /// returned and, if it is 0, the answer's words.
    pub fn exact(&mut self, call: Call) -> (u32, Vec<u32>) {
        let n = u32::from_be_bytes(self.table()[..4].try_into().unwrap());
        let scratch = if call == Call::Audit { self.table().len() } else { 0 };
        let area = vec![0xEE; call.area_length(n)];
        let returned = self.call_on(call, call.areas(&[&area, &vec![0xEE; scratch]]));
        let answer = self.areas().next().map(cases::to_words).unwrap_or_default();
        (returned, if returned == 0 { answer } else { Vec::new() })
    }

    /// What the audit, which must be accepted, says of the table: 1 or 0. The scratch holds these bytes before.
    pub fn audited(&mut self, scratch: &[u8]) -> u32 {
        let returned = self.call_on(Call::Audit, &[&[0xEE; 4], scratch]);
        assert_eq!(returned, 0, "the audit is refused: {}", self.origin);
        let verdict = cases::to_words(self.proved[1].content())[0];
        assert!(verdict <= 1, "{verdict}: {}", self.origin);
        verdict
    }

    /// Resend at these positions with an area of these bytes. Answers the number returned and the area.
    pub fn resend(&mut self, positions: &[u32], area: &[u8]) -> (u32, Vec<u8>) {
        let returned = self.call_on(Call::Resend, &[area, &from_words(positions)]);
        (returned, self.areas().next().unwrap_or_default().to_vec())
    }

    fn failure(&self, what: &str, call: Call, areas: &[&[u8]], returned: u32, expected: u32) -> String {
        let head = cases::to_words(&self.before[..self.before.len().min(8)]);
        let [proved, reference] = [&self.proved, &self.reference].map(|lent| lent[0].content());
        let place = proved.iter().zip(reference).position(|(a, b)| a != b);
        let shown = |lent: &[Guarded]| lent[1..].iter().map(|area| hex(area.content())).collect::<String>();
        format!(
            "{what}\n  {}\n  {call:?}, areas {}\n  table of {} bytes, n and E {head:?}: {}\n  \
             proved:    returned {returned}, areas {}\n  reference: returned {expected}, areas {}\n  \
             first difference of the tables: byte {place:?}",
            self.origin,
            areas.iter().map(|area| hex(area)).collect::<String>(),
            self.before.len(),
            hex(&self.before),
            shown(&self.proved),
            shown(&self.reference),
        )
    }
}

/// Bytes in hexadecimal, word by word; a long table is left out, its seed and case make it again.
fn hex(bytes: &[u8]) -> String {
    if bytes.len() > 1200 {
        return String::from("(long)");
    }
    let word = |w: &[u8]| w.iter().map(|b| format!("{b:02x}")).collect::<String>();
    format!("[{}]", bytes.chunks(4).map(word).collect::<Vec<_>>().join(" "))
}

/// A pair on these words.
pub fn pair_of_words(words: &[u32], origin: Origin) -> Pair {
    Pair::new(&from_words(words), origin)
}
