//! The calls: what each is lent, what it can return, and how it reaches the reference engine.
use std::collections::BTreeSet;

/// Bytes that a call is lent, by name: it reads them, or may write them too. What a scratch holds after an accepted call
/// is left open.
#[derive(Clone, Copy, Debug, PartialEq, Eq)]
pub enum Lent {
    Read(&'static str),
    Written(&'static str),
    Scratch(&'static str),
}

impl Lent {
    pub fn name(self) -> &'static str {
        match self {
            Lent::Read(name) | Lent::Written(name) | Lent::Scratch(name) => name,
        }
    }

    /// Whether an accepted call may change it.
    pub fn may_change(self) -> bool {
        matches!(self, Lent::Written(_) | Lent::Scratch(_))
    }

    /// Whether two engines may leave different bytes in it after an accepted call.
    pub fn is_left_open(self) -> bool {
        matches!(self, Lent::Scratch(_))
    }
}

/// A sort of call.
pub struct Sort {
    pub name: &'static str,
    /// The table, the answer area, then what else it is lent.
    pub lent: &'static [Lent],
    /// The numbers of its rows, in the order of checking.
    pub rows: &'static [u32],
}

const TABLE_READ: Lent = Lent::Read("table");
const TABLE: Lent = Lent::Written("table");
const AREA: Lent = Lent::Written("area");
const POSITIONS: Lent = Lent::Read("positions");
const SCRATCH: Lent = Lent::Scratch("scratch");

/// In the header's order.
pub static CALLS: &[Sort] = &[
    Sort { name: "fresh", lent: &[TABLE], rows: &[1, 2] },
    Sort { name: "checkpoint", lent: &[TABLE, AREA], rows: &[2, 1, 2, 3, 4, 5, 9, 10] },
    Sort { name: "send", lent: &[TABLE, AREA], rows: &[2, 1, 2, 3, 4, 5, 6, 9] },
    Sort { name: "receipt", lent: &[TABLE, AREA], rows: &[2, 1, 2, 3, 4, 5, 6, 7, 8, 9] },
    Sort { name: "line", lent: &[TABLE_READ, AREA], rows: &[2, 1, 2, 3, 4, 15] },
    Sort { name: "failed", lent: &[TABLE_READ, AREA], rows: &[2, 1, 2, 3, 4, 11] },
    Sort { name: "grounds", lent: &[TABLE_READ, AREA], rows: &[2, 1, 2, 3, 4, 11] },
    Sort { name: "resend", lent: &[TABLE_READ, AREA, POSITIONS], rows: &[2, 1, 2, 3, 12, 13] },
    Sort { name: "audit", lent: &[TABLE_READ, AREA, SCRATCH], rows: &[2, 1, 2, 3, 4, 14] },
];

impl Sort {
    /// The numbers that it can return.
    pub fn numbers(&self) -> BTreeSet<u32> {
        self.rows.iter().copied().chain([0]).collect()
    }
}

/// The numbers that some call can return.
pub fn numbers() -> BTreeSet<u32> {
    CALLS.iter().flat_map(Sort::numbers).collect()
}

#[derive(Clone, Copy, Debug, PartialEq, Eq)]
pub enum Call {
    Fresh { n: u32, e: u32 },
    Checkpoint { p: u32 },
    Send { p: u32, q: u32 },
    Receipt { p: u32, q: u32, k: u32 },
    Line { number: u32 },
    Failed { mask: u32 },
    Grounds { mask: u32 },
    Resend,
    Audit,
}

impl Call {
    /// Its name in CALLS, and its numbers in the order of its parameters.
    pub fn parts(self) -> (&'static str, [Option<u32>; 3]) {
        match self {
            Call::Fresh { n, e } => ("fresh", [Some(n), Some(e), None]),
            Call::Checkpoint { p } => ("checkpoint", [Some(p), None, None]),
            Call::Send { p, q } => ("send", [Some(p), Some(q), None]),
            Call::Receipt { p, q, k } => ("receipt", [Some(p), Some(q), Some(k)]),
            Call::Line { number } => ("line", [Some(number), None, None]),
            Call::Failed { mask } => ("failed", [Some(mask), None, None]),
            Call::Grounds { mask } => ("grounds", [Some(mask), None, None]),
            Call::Resend => ("resend", [None; 3]),
            Call::Audit => ("audit", [None; 3]),
        }
    }

    /// Its place in CALLS.
    pub fn place(self) -> usize {
        let (name, _) = self.parts();
        CALLS.iter().position(|sort| sort.name == name).expect("CALLS has every call")
    }

    pub fn sort(self) -> &'static Sort {
        &CALLS[self.place()]
    }

    /// Whether it leaves the table as it is.
    pub fn only_answers(self) -> bool {
        !self.sort().lent[0].may_change()
    }

    /// The exact length of the answer area, for a table of n processes; the least one of resend, which grows with what
    /// it lists.
    pub fn area_length(self, n: u32) -> usize {
        match self {
            Call::Fresh { .. } => 0,
            Call::Checkpoint { .. } | Call::Resend | Call::Audit => 4,
            Call::Send { .. } => 8,
            Call::Receipt { .. } => 16,
            Call::Line { .. } => 4 * n as usize,
            Call::Failed { .. } => 4 * n as usize + 8,
            Call::Grounds { .. } => 8 * n as usize,
        }
    }

    /// Of an answer area and what else may be lent, as much as the call takes.
    pub fn areas<'a>(self, areas: &'a [&'a [u8]]) -> &'a [&'a [u8]] {
        &areas[..self.sort().lent.len() - 1]
    }

    /// The call as a line of the text program has it, without the line's end. It has no word for
    /// grounds, resend and the audit.
    pub fn text(self) -> String {
        let (name, numbers) = self.parts();
        let [a, b, c] = numbers.map(|number| number.map_or_else(String::new, |number| number.to_string()));
        format!("{name},{a},{b},{c}")
    }
}

/// The call on the reference engine, on bytes that are lent in the order of its sort. Answers the number returned.
pub fn on_reference(call: Call, lent: &mut [&mut [u8]]) -> u32 {
    match (call, lent) {
        (Call::Fresh { n, e }, [table]) => reference::fresh(table, n, e),
        (Call::Checkpoint { p }, [table, area]) => reference::checkpoint(table, area, p),
        (Call::Send { p, q }, [table, area]) => reference::send(table, area, p, q),
        (Call::Receipt { p, q, k }, [table, area]) => reference::receipt(table, area, p, q, k),
        (Call::Line { number }, [table, area]) => reference::line(table, area, number),
        (Call::Failed { mask }, [table, area]) => reference::failed(table, area, mask),
        (Call::Grounds { mask }, [table, area]) => reference::grounds(table, area, mask),
        (Call::Resend, [table, area, positions]) => reference::resend(table, positions, area),
        (Call::Audit, [table, area, scratch]) => reference::audit(table, area, scratch),
        (_, lent) => panic!("{call:?} with {} lent areas", lent.len()),
    }
}
