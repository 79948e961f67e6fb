//! Prints crates/vectors/specs/Vectors.antt: scripts of calls with the outcomes that the reference engine gives, as
//! definitions and theorems that hold the rules to them. With the word `text` it prints TextVectors.antt instead.
use cases::calls::numbers;
use cases::chosen::{
    count_into_next_section, crossed, full, grounded_astray, grounded_of_two, idle_saves, lined, one_free_at,
    Answered, WORKED, WORKED_GROUNDS,
};
use cases::cut::{self, has_orphan, in_transit, last_line, listed, tuples};
use cases::made::altered;
use cases::saves::{idle, saves};
use cases::table::{
    changed, checkpoint, forced, old_table_length, receipt, record, section, send, words_of_records, Record,
    A, B, CARRIED, COUNT, FORCED, KIND, NUMBER, RECEIPT, SENDS,
};
use cases::{
    area_length, from_records, from_words, messages, on_reference, records, remember, step, table_length,
    to_words, well_laid, Call, Rng,
};
use std::collections::BTreeSet;
use std::env;

mod text;

const SEED: u64 = 1;
const COLUMNS: usize = 158;
const MAX: u32 = u32::MAX;

/// n and E of the random runs, and of the tables that no run makes.
const RUNS: [(u32, u32); 10] =
    [(1, 1), (1, 4), (2, 1), (2, 3), (2, 4), (2, 6), (3, 2), (3, 3), (3, 4), (3, 6)];
#[rustfmt::skip]
const UNMADE: [(u32, u32); 14] = [
    (1, 1), (1, 3), (2, 1), (2, 2), (2, 3), (2, 4), (2, 5), (2, 6), (3, 2), (3, 3), (3, 4), (3, 4), (3, 5), (3, 6),
];

/// n and E of the tables with checkpoints to use, of either sort. All their cuts are tried, by the prover too.
const SAVED: [(u32, u32); 8] = [(1, 3), (2, 2), (2, 3), (2, 4), (2, 4), (3, 3), (3, 4), (3, 4)];

const HEAD: &str = "\
-- Vectors for the rules. Generated: `cargo run -p vectors` in tests/ prints this file. Every number, table and answer below comes from
-- the reference engine in tests/reference, but the cuts of the last two groups from a search of all cuts in tests/cases; neither shares
-- anything with the definitions that are tried here.
use Rattle.std.specs.Prelude.{refl, true, false, List, [], ◌∷◌, ◌++◌, ℕ}
use Rattle.std.specs.Int.Count.{ones, ones_in}
use Rattle.xdr.specs.Words.{word, put_word, put_words, bytes}
use Rattle.rules.specs.Table.{layout, decoded, well_laid}
use Rattle.rules.specs.Steps.{checkpoint, send, receipt}
use Rattle.rules.specs.FailureLine.{round, rounds, failure_line}
use Rattle.rules.specs.Calls.{failure_answer, fresh_on, step_on, line_on, failed_on}
use Rattle.rules.specs.Text.{fresh, step, line, failed}
use Rattle.rules.specs.Grounds.{grounds, grounds_on}
use Rattle.rules.specs.Resend.{in_transit, resend_on}
use Rattle.rules.specs.Lists.{check}
use Rattle.rules.specs.Audit.{advance, sweep, sweeps, replayed, audited, audit_on}
use Rattle.vectors.specs.Try.{Script, script, refused, accepted, grounded, resend, audit, lent, Agree, Saves, saves, save, AgreeSaves}
";

const UNFOLDING: &str =
    "unfolding fresh_on step_on line_on failed_on resend_on layout decoded well_laid word put_word put_words failure_answer failure_line rounds round ones ones_in in_transit";

const GROUNDS_UNFOLDING: &str =
    "unfolding grounds_on grounds layout decoded well_laid word put_word put_words failure_line rounds round";

const AUDIT_UNFOLDING: &str =
    "unfolding audit_on audited replayed sweeps sweep advance check layout decoded well_laid word put_word put_words";

const SAVES_UNFOLDING: &str = "unfolding decoded word put_word put_words";

/// A list as antt has it.
fn list<T: ToString>(items: &[T]) -> String {
    items.iter().map(|item| item.to_string() + " ∷ ").collect::<String>() + "[]"
}

/// A list as an argument.
fn argument<T: ToString>(items: &[T]) -> String {
    if items.is_empty() {
        list(items)
    } else {
        format!("({})", list(items))
    }
}

/// The start of a definition and the pieces of its list, broken before a ∷ where a line would grow too long.
fn wrapped(start: &str, pieces: &[String]) -> String {
    let mut text = String::new();
    let mut line = String::from(start);
    for (i, piece) in pieces.iter().enumerate() {
        let piece = if i == 0 { piece.clone() } else { format!("∷ {piece}") };
        if line.chars().count() + 1 + piece.chars().count() > COLUMNS {
            text += &line;
            text += "\n";
            line = format!("    {piece}");
        } else {
            line += &format!(" {piece}");
        }
    }
    text + &line
}

/// The file so far. Tables are named, and written before the script that has them first.
struct File {
    text: String,
    tables: Vec<Vec<u8>>,
    /// The numbers that calls returned.
    met: BTreeSet<u32>,
}

impl File {
    fn table(&mut self, bytes: &[u8]) -> String {
        if bytes.iter().all(|&b| b == 0xFF) {
            return format!("(lent {})", bytes.len());
        }
        let known = self.tables.iter().position(|table| table == bytes);
        let number = known.unwrap_or_else(|| {
            self.tables.push(bytes.to_vec());
            self.write_table(self.tables.len() - 1, bytes);
            self.tables.len() - 1
        });
        format!("table{number}")
    }

    fn write_table(&mut self, number: usize, bytes: &[u8]) {
        let mut pieces: Vec<String> = to_words(bytes).iter().map(u32::to_string).collect();
        pieces.push(String::from("[])"));
        pieces[0] = format!("({}", pieces[0]);
        let rest = bytes.chunks_exact(4).remainder();
        let rest = if rest.is_empty() { String::new() } else { format!("\n    ++ ({})", list(rest)) };
        let words = wrapped(&format!("table{number} = bytes"), &pieces);
        self.text += &format!("\nabbrev table{number} : List ℕ\n{words}{rest}\n");
    }

    /// Writes scripts as one list, and the theorem that the rules agree with them.
    fn group(&mut self, name: &str, note: &str, scripts: Vec<Script>) {
        let each = |wanted: fn(Call) -> bool| {
            scripts.iter().flat_map(|own| &own.steps).all(|step| wanted(step.call))
        };
        let unfolding = if each(|call| call == Call::Audit) {
            AUDIT_UNFOLDING
        } else if each(|call| matches!(call, Call::Grounds { .. })) {
            GROUNDS_UNFOLDING
        } else {
            UNFOLDING
        };
        let mut bodies = Vec::new();
        for own in scripts {
            let start = self.table(&own.start);
            let steps: Vec<String> = own.steps.iter().map(|step| step.text(self)).collect();
            bodies.push((start, steps));
        }
        self.list(name, note, &SCRIPTS, unfolding, bodies);
    }

    /// Writes the checkpoints of tables as one list, each with the cut through it and whether any cut uses it, and the theorem that
    /// the rules agree.
    fn saves(&mut self, name: &str, note: &str, tables: &[Vec<u8>]) {
        let mut bodies = Vec::new();
        for table in tables {
            let (start, sections) = (self.table(table), records(table));
            let idle = idle(&sections);
            let recorded = saves(&sections).filter(|save| save.position > 0);
            let texts = recorded.map(|save| {
                let (cut, is_used) = (argument(&save.cut(&sections)), !idle.contains(&save));
                format!("save {} {} {cut} {is_used}", save.p, save.position)
            });
            bodies.push((start, texts.collect()));
        }
        self.list(name, note, &SAVES, SAVES_UNFOLDING, bodies);
    }

    /// Writes a list of this sort, each of its members on a table, and the theorem that the rules agree with it.
    fn list(
        &mut self,
        name: &str,
        note: &str,
        sort: &Listed,
        unfolding: &str,
        bodies: Vec<(String, Vec<String>)>,
    ) {
        let mut pieces = Vec::new();
        for (start, mut own) in bodies {
            own.push(String::from("[])"));
            own[0] = format!("{} {start} ({}", sort.member, own[0]);
            pieces.extend(own);
        }
        pieces.push(String::from("[]"));
        let body = wrapped(&format!("{name} ="), &pieces);
        let Listed { of, agree, .. } = sort;
        self.text += &format!(
            "\n-- {note}\nabbrev {name} : List {of}\n{body}\n\npub {name}_agree : {agree} {name}\n{unfolding}\n{name}_agree = refl\n"
        );
    }
}

/// A sort of list as antt has it: what its members are, how one is written, and what says that the rules agree with all.
struct Listed {
    of: &'static str,
    member: &'static str,
    agree: &'static str,
}

const SCRIPTS: Listed = Listed { of: "Script", member: "script", agree: "Agree" };
const SAVES: Listed = Listed { of: "Saves", member: "saves", agree: "AgreeSaves" };

/// A call, the length of its area, what else it is lent, and its outcome.
struct Step {
    call: Call,
    area: usize,
    further: Vec<u8>,
    returned: u32,
    answer: Vec<u32>,
    after: Vec<u8>,
}

impl Step {
    fn text(&self, file: &mut File) -> String {
        file.met.insert(self.returned);
        let (area, returned, answer) = (self.area, self.returned, argument(&self.answer));
        if let Call::Grounds { mask } = self.call {
            return format!("grounded {mask} {area} {returned} {answer}");
        }
        if self.call == Call::Resend {
            let words = argument(&to_words(&self.further));
            let rest = argument(self.further.chunks_exact(4).remainder());
            return format!("resend {words} {rest} {area} {returned} {answer}");
        }
        if self.call == Call::Audit {
            return format!("audit {area} {} {returned} {answer}", self.further.len());
        }
        let ask = ask(self.call);
        if returned == 0 {
            format!("accepted ({ask}) {area} {answer} {}", file.table(&self.after))
        } else {
            format!("refused ({ask}) {area} {returned}")
        }
    }
}

/// The call as antt has it.
fn ask(call: Call) -> String {
    match call {
        Call::Fresh { n, e } => format!("fresh {n} {e}"),
        Call::Checkpoint { p } => format!("step {p} checkpoint"),
        Call::Send { p, q } => format!("step {p} (send {q})"),
        Call::Receipt { p, q, k } => format!("step {p} (receipt {q} {k})"),
        Call::Line { number } => format!("line {number}"),
        Call::Failed { mask } => format!("failed {mask}"),
        Call::Grounds { .. } | Call::Resend | Call::Audit => unreachable!("a step of its own"),
    }
}

/// A lent table and the steps on it.
struct Script {
    start: Vec<u8>,
    table: Vec<u8>,
    steps: Vec<Step>,
}

impl Script {
    fn on(table: &[u8]) -> Script {
        Script { start: table.to_vec(), table: table.to_vec(), steps: Vec::new() }
    }

    fn words(words: &[u32]) -> Script {
        Script::on(&from_words(words))
    }

    fn records(e: u32, sections: &[Vec<Record>]) -> Script {
        Script::on(&from_records(e, sections))
    }

    /// On bytes that are no table, with fresh as the first step.
    fn fresh(n: u32, e: u32) -> Script {
        let mut script = Script::on(&vec![0xFF; table_length(n, e)]);
        assert_eq!(script.exact(Call::Fresh { n, e }), 0);
        script
    }

    fn n(&self) -> u32 {
        to_words(&self.table)[0]
    }

    fn call(&mut self, call: Call, length: usize) -> u32 {
        self.call_with(call, length, &[])
    }

    /// A call that is lent these bytes besides.
    fn call_with(&mut self, call: Call, length: usize, further: &[u8]) -> u32 {
        let before = self.table.clone();
        let (mut area, mut besides) = (vec![0xFF; length], further.to_vec());
        let lent = &mut [&mut self.table[..], &mut area, &mut besides];
        let returned = on_reference(call, &mut lent[..call.sort().lent.len()]);
        // What the scripts say of a refused call, and of what a call only reads or doesn't need.
        assert!(self.table == before || (returned == 0 && !call.only_answers()));
        assert!(besides == further);
        let used = match (returned, call) {
            (0, Call::Resend) => 4 + 12 * to_words(&area)[0] as usize,
            (0, _) => length,
            _ => 0,
        };
        assert!(area[used..].iter().all(|&b| b == 0xFF));
        let (answer, after) = (to_words(&area[..used]), self.table.clone());
        self.steps.push(Step { call, area: length, further: besides, returned, answer, after });
        returned
    }

    /// Resend at this cut with the area that it needs, and with others.
    fn resend(&mut self, cut: &[u32], others: &[isize]) {
        let needed = 4 * listed(&in_transit(&records(&self.table), cut)).len();
        for &more in [0].iter().chain(others) {
            self.call_with(Call::Resend, needed.saturating_add_signed(more), &from_words(cut));
        }
    }

    /// The audit with a scratch of this length.
    fn audit(&mut self, area: usize, scratch: usize) -> u32 {
        self.call_with(Call::Audit, area, &vec![0xFF; scratch])
    }

    /// The audit with an area and a scratch of the exact lengths. What it says of the table.
    fn audited(&mut self) -> u32 {
        assert_eq!(self.audit(4, self.table.len()), 0);
        self.steps.last().unwrap().answer[0]
    }

    fn exact(&mut self, call: Call) -> u32 {
        let n = if self.table.len() < 8 { 1 } else { self.n().min(16) };
        self.call(call, call.area_length(n))
    }

    fn with(mut self, calls: &[Call]) -> Script {
        for &call in calls {
            self.exact(call);
        }
        self
    }

    /// Numbered lines, then failure lines for every mask and for two that are too large.
    fn lines(&mut self, numbers: &[u32]) {
        for &number in numbers {
            self.exact(Call::Line { number });
        }
        let end = 1 << self.n();
        for mask in (0..=end).chain([MAX]) {
            self.exact(Call::Failed { mask });
        }
    }
}

fn worked_controller() -> Script {
    Script::fresh(3, 6).with(&WORKED).with(&[
        Call::Line { number: 0 },
        Call::Line { number: 1 },
        Call::Line { number: 2 },
        Call::Failed { mask: 0 },
        Call::Failed { mask: 1 },
        Call::Failed { mask: 2 },
        Call::Failed { mask: 4 },
        Call::Failed { mask: 8 },
        Call::Receipt { p: 2, q: 1, k: 1 },
        Call::Receipt { p: 1, q: 0, k: 2 },
    ])
}

/// A run from fresh with refusals and overtaking.
fn random_steps(rng: &mut Rng, n: u32, e: u32, steps: u32) -> Script {
    let mut script = Script::fresh(n, e);
    let mut known = Vec::new();
    for _ in 0..steps {
        let call = step(rng, n, e, &known);
        let area = area_length(rng, call.area_length(n));
        if script.call(call, area) == 0 {
            remember(rng, &mut known, call, &script.table);
        }
    }
    script
}

/// The same, then its lines.
fn random_run(rng: &mut Rng, n: u32, e: u32, steps: u32) -> Script {
    let mut script = random_steps(rng, n, e, steps);
    script.lines(&[0, 1, 2, 3, n * e, MAX]);
    script
}

/// A well laid table that no run makes: its lines, then steps on it.
fn random_well_laid(rng: &mut Rng, n: u32, e: u32, steps: u32) -> Script {
    let table = well_laid(rng, n, e);
    let mut script = Script::on(&table);
    script.lines(&[0, 1, 2, n * e, n * e + 1, MAX]);
    for _ in 0..steps {
        let call = step(rng, n, e, &messages(&script.table));
        let area = area_length(rng, call.area_length(n));
        script.call(call, area);
    }
    script
}

/// n = 2, E = 2: a checkpoint and a send at process 0, a receipt at process 1, which carried less than its send.
fn good() -> Vec<u32> {
    words_of_records(2, &[vec![checkpoint(1), send(1, 1, 1)], vec![receipt(0, 1, 0)]])
}

/// The same with some words changed so that it isn't well laid, for each clause of document 01's sentence.
fn badly_laid() -> Vec<Script> {
    let heading = |p: u32, word: usize| section(2, p) + word;
    // Places are counted from 1, as in the document.
    let place = |p: u32, t: u32, word: usize| record(2, p, t - 1) + word;
    let changes: &[&[(usize, u32)]] = &[
        &[(heading(0, COUNT), 3)], // c above E
        &[(heading(0, COUNT), 1 << 8)],
        &[(heading(1, COUNT), 2)],                         // a used record of kind 0
        &[(heading(0, COUNT), 1), (heading(0, SENDS), 0)], // an unused record that isn't 0
        &[(place(1, 2, KIND), 1)],
        &[(place(1, 2, A), 1)],
        &[(place(1, 2, B), 1)],
        &[(place(1, 2, CARRIED), 1)],
        &[(place(0, 1, KIND), 5)], // a kind that isn't in the table
        &[(place(1, 1, KIND), 1 << 24)],
        &[(place(0, 1, A), 5), (heading(0, NUMBER), 5), (place(0, 2, CARRIED), 5)], // a number above n × E
        &[(place(0, 1, B), 1)], // a checkpoint's b isn't 0
        &[(place(0, 1, KIND), 2), (place(0, 1, B), 1)],
        &[(place(0, 2, A), 0)], // a send to its own process
        &[(place(0, 2, A), 2)], // a send to a process that isn't there
        &[(place(0, 2, B), 0)], // a send number that isn't the send's place
        &[(place(0, 2, B), 2)],
        &[(place(1, 1, A), 1)], // a receipt from its own process
        &[(place(1, 1, A), 2)], // a receipt from a process that isn't there
        &[(place(1, 1, B), 0)], // a receipt's send number outside 1 to E
        &[(place(1, 1, B), 3)],
        &[(heading(0, NUMBER), 0)], // the current number isn't the last checkpoint's
        &[(heading(1, NUMBER), 1)],
        &[(heading(0, SENDS), 0)], // the send count isn't the number of sends
        &[(heading(1, SENDS), 1)],
    ];
    let mut tables: Vec<_> = changes.iter().map(|change| changed(&good(), change)).collect();
    tables.insert(2, count_into_next_section());
    let calls = [
        Call::Checkpoint { p: 0 },
        Call::Send { p: 1, q: 0 },
        Call::Receipt { p: 1, q: 0, k: 1 },
        Call::Line { number: 1 },
    ];
    let bad = tables.iter().enumerate().map(|(i, words)| {
        let tried = [calls[i % 4], calls[(i + 1) % 4], Call::Failed { mask: 0 }];
        let mut script = Script::words(words).with(&tried);
        script.call(Call::Resend, 0);
        assert!(script.steps.iter().all(|step| step.returned == 3), "{words:?}");
        script
    });
    bad.collect()
}

/// Document 02, slip 3. n = 2, E = 4: a send and a receipt between two checkpoints of process 0, and the fourth word of
/// a record changed. Where it is well laid, what the receipt carried plays no part.
fn fourth_words() -> Vec<Script> {
    let own = vec![forced(2), send(1, 1, 2), receipt(1, 1, 2), checkpoint(3)];
    let words = words_of_records(4, &[own, vec![send(0, 1, 0)]]);
    // Places are counted from 1, as in the document.
    let with = |t: u32, word: u32| Script::words(&changed(&words, &[(record(4, 0, t - 1) + CARRIED, word)]));
    let calls = [
        Call::Receipt { p: 0, q: 1, k: 1 },
        Call::Receipt { p: 1, q: 0, k: 1 },
        Call::Line { number: 2 },
        Call::Failed { mask: 2 },
    ];
    let good = [0, 1, 2].map(|word| {
        let script = with(3, word).with(&calls);
        assert!(script.steps.iter().map(|step| step.returned).eq([8, 0, 0, 0]), "{word}");
        script
    });
    // Below or above what is due, or the number of the checkpoint that follows.
    let bad = [(1, 1), (1, 1 << 31), (2, 1), (2, 3), (2, MAX), (3, 3), (3, 1 << 31 | 2), (4, 3), (4, MAX)];
    let bad = bad.iter().zip(calls.iter().cycle()).map(|(&(t, word), &call)| {
        let script = with(t, word).with(&[call]);
        assert_eq!(script.steps[0].returned, 3, "{word} at place {t}");
        script
    });
    good.into_iter().chain(bad).collect()
}

/// One call of each kind, each with an area of this length.
fn each(mut script: Script, area: usize) -> Script {
    let calls = [
        Call::Checkpoint { p: MAX },
        Call::Send { p: 2, q: 2 },
        Call::Receipt { p: 2, q: 2, k: 0 },
        Call::Line { number: MAX },
        Call::Failed { mask: MAX },
    ];
    for call in calls {
        script.call(call, area);
    }
    script.call_with(Call::Resend, area, &from_words(&[0, MAX]));
    script
}

/// Rows 2, 1 and 2 of the table, each with later rows met as well.
fn wrong_lengths_and_dimensions() -> Vec<Script> {
    let length = table_length(2, 2);
    let lengths = [0, 3, 7, 8, old_table_length(2, 2), length - 1, length + 1].map(|length| {
        let mut table = from_words(&good());
        table.resize(length, 9);
        let mut script = each(Script::on(&table), 8);
        script.exact(Call::Fresh { n: 2, e: 2 });
        script.exact(Call::Fresh { n: 0, e: 2 });
        script
    });
    let dimensions = [(0, 2), (17, 2), (2, 0), (2, 1025), (MAX, MAX), (1 << 24, 2)].map(|(n, e)| {
        let mut script = each(Script::words(&changed(&good(), &[(0, n), (1, e)])), 8);
        script.exact(Call::Fresh { n, e });
        script
    });
    lengths.into_iter().chain(dimensions).collect()
}

/// Rows from the answer area on, each with later rows met as well.
fn rows_of_steps() -> Vec<Script> {
    let mut areas = Script::words(&good());
    for length in [0, 3, 4, 5, 7, 8, 9, 12, 15, 16, 17] {
        areas = each(areas, length);
    }
    let mut steps = vec![Call::Checkpoint { p: 0 }, Call::Send { p: 0, q: 1 }];
    steps.extend([3, 4, MAX].map(|p| Call::Checkpoint { p }));
    steps.extend([3, MAX].map(|p| Call::Send { p, q: p }));
    steps.extend([0, 3, MAX].map(|q| Call::Send { p: 0, q }));
    steps.extend([0, 3, MAX].map(|q| Call::Receipt { p: 0, q, k: 0 }));
    steps.extend([0, 1, 2, 3, 4, 5, MAX].map(|k| Call::Receipt { p: 0, q: 1, k }));
    // At the number 2 the receipt of (1, 3) takes the one free record, at the number 1 it would force.
    let at = |number: u32| {
        let checkpoint = &[Call::Checkpoint { p: 0 }][..usize::from(number == 12)];
        Script::on(&one_free_at(number)).with(checkpoint).with(&[Call::Receipt { p: 0, q: 1, k: 3 }])
    };
    vec![areas, Script::records(4, &full()).with(&steps), at(12), at(2), at(1)]
}

/// The cases of document 01 with n = 2, E = 2 that return 9, the table that meets number 10, and an equal number.
fn small_cases() -> Vec<Script> {
    let first = [Call::Checkpoint { p: 0 }, Call::Send { p: 0, q: 1 }];
    let receipt = Call::Receipt { p: 1, q: 0, k: 1 };
    let nine = Script::fresh(2, 2).with(&first).with(&[
        Call::Checkpoint { p: 0 },
        Call::Send { p: 1, q: 0 },
        receipt,
    ]);
    let ten = Script::records(2, &[vec![checkpoint(2)]]).with(&[Call::Checkpoint { p: 0 }]);
    let both = Script::records(2, &[vec![checkpoint(2); 2]]).with(&[Call::Checkpoint { p: 0 }]);
    let equal = Script::fresh(2, 4).with(&[Call::Checkpoint { p: 1 }]).with(&first).with(&[receipt]);
    vec![nine, ten, both, equal]
}

/// n = 2, E = 6. The numbers of process 0 fall, so its sends carry 5, 2 and 0; process 1 receives them in this order.
fn falling_numbers(order: [u32; 3]) -> Script {
    let falling = vec![checkpoint(5), send(1, 1, 5), checkpoint(2), send(1, 2, 2), forced(0), send(1, 3, 0)];
    Script::records(6, &[falling, vec![]]).with(&order.map(|k| Call::Receipt { p: 1, q: 0, k }))
}

/// Document 02, slip 4. n = 3, E = 8: sends of process 0 to both others, with every kind of record between them, and
/// receipts behind records that were there: of its last send first, which forces, of one to process 2, and of the rest.
fn places() -> Script {
    let sender = vec![
        send(1, 1, 0),
        receipt(1, 1, 0),
        send(2, 2, 0),
        checkpoint(1),
        send(1, 3, 1),
        forced(3),
        receipt(2, 1, 0),
        send(1, 4, 3),
    ];
    let order = [(1, 4), (2, 2), (1, 1), (1, 3), (2, 3)];
    let script = Script::records(8, &[sender, vec![send(0, 1, 0), checkpoint(1)], vec![]]);
    let script = script.with(&order.map(|(p, k)| Call::Receipt { p, q: 0, k }));
    let answers: Vec<&[u32]> = script.steps.iter().map(|step| &step.answer[..]).collect();
    assert_eq!(answers, [&[3, 1, 8, 4][..], &[0, 0, 3, 1], &[0, 0, 1, 5], &[1, 0, 5, 6], &[]]);
    script
}

/// n = 3, E = 6: a number that is forced onto one process after another, overtaken by an older message.
fn forced_chain() -> Script {
    Script::fresh(3, 6).with(&[
        Call::Send { p: 0, q: 1 },
        Call::Checkpoint { p: 0 },
        Call::Checkpoint { p: 0 },
        Call::Send { p: 0, q: 1 },
        Call::Receipt { p: 1, q: 0, k: 2 },
        Call::Send { p: 1, q: 2 },
        Call::Receipt { p: 1, q: 0, k: 1 },
        Call::Checkpoint { p: 2 },
        Call::Receipt { p: 2, q: 1, k: 1 },
        Call::Send { p: 2, q: 0 },
        Call::Receipt { p: 0, q: 2, k: 1 },
        Call::Line { number: 1 },
        Call::Line { number: 2 },
    ])
}

/// n = 2, E = 7: each checkpoint lies between a receipt and the send that the other side's next receipt needs, so a
/// failed process takes the other one back, and that one the first, down to the start.
fn fall() -> Script {
    let round = |other: u32, received: u32, sent: u32| {
        [receipt(other, received, 0), checkpoint(0), send(other, sent, 0)]
    };
    let first = [send(1, 1, 0)].into_iter().chain((1..=2).flat_map(|k| round(1, k, k + 1)));
    let second = (1..=2).flat_map(|k| round(0, k, k)).chain([receipt(0, 3, 0)]);
    let mut script = Script::records(7, &[first.collect(), second.collect()]);
    script.lines(&[0, 1]);
    script
}

/// Every cut of the worked controller, and of a table on which receipts go astray; at some cuts other areas too.
fn cuts_of_small_tables() -> Vec<Script> {
    let mut worked = Script::on(&worked_controller().table);
    let mut astray = Script::records(4, &crossed());
    for script in [&mut worked, &mut astray] {
        let tops = cut::counts(&records(&script.table));
        for (i, cut) in tuples(&tops).enumerate() {
            let others: &[isize] = if i % 6 == 0 { &[-1, 1, 100] } else { &[] };
            script.resend(&cut, others);
        }
    }
    vec![worked, astray]
}

/// n = 2, E = 2: positions of other lengths or above their counts, 12 before 13, then areas that are too short or long.
fn rows_of_resend() -> Script {
    let mut script = Script::words(&good());
    let above = [[3, 0], [0, 2], [2, 2], [3, 1], [1 << 24, 0], [0, 1 << 24], [1 << 31, 1], [0, MAX]];
    let above = above.iter().map(|positions| from_words(positions));
    for positions in [0, 4, 7, 9, 12].map(|length| vec![0; length]).into_iter().chain(above) {
        for area in [0, 100] {
            assert_eq!(script.call_with(Call::Resend, area, &positions), 12);
        }
    }
    for cut in [[0, 0], [2, 0], [2, 1], [0, 1]] {
        script.resend(&cut, &[-1, 1, 100]);
        for area in [0, 3] {
            assert_eq!(script.call_with(Call::Resend, area, &from_words(&cut)), 13);
        }
    }
    script
}

/// Cuts of a table: all zero, at the counts, one with an orphan where a process has a receipt, and two drawn ones.
fn resends(rng: &mut Rng, table: &[u8]) -> Script {
    let mut script = Script::on(table);
    let sections = records(table);
    let counts = cut::counts(&sections);
    script.resend(&vec![0; counts.len()], &[-1]);
    script.resend(&counts, &[-1, 1]);
    if let Some(receipt) = sections.iter().flatten().find(|r| r[KIND] == RECEIPT) {
        let mut cut = counts.clone();
        cut[receipt[A] as usize] = 0;
        assert!(has_orphan(&sections, &cut));
        script.resend(&cut, &[]);
    }
    for _ in 0..2 {
        script.resend(&cut::draw(rng, &counts), &[rng.pick(&[-4, -1, 1, 100])]);
    }
    let mut above = counts;
    let p = rng.below(above.len() as u32) as usize;
    above[p] += 1;
    script.call_with(Call::Resend, 4, &from_words(&above));
    script
}

/// n = 2, E = 2: the rows of the audit in order, each with those after it met as well as with none of them, on a table that a run
/// makes and on one that none does.
fn rows_of_audit() -> Vec<Script> {
    let words = words_of_records(2, &[vec![send(1, 1, 0)], vec![receipt(0, 1, 0)]]);
    let length = table_length(2, 2);
    let bad = changed(&words, &[(section(2, 1) + COUNT, 2)]);
    let dimensions = from_words(&changed(&bad, &[(0, 17)]));
    let badly_laid = from_words(&bad);
    let both = |table: &[u8], number: u32| {
        let mut script = Script::on(table);
        for (area, scratch) in [(4, length), (3, 0)] {
            assert_eq!(script.audit(area, scratch), number);
        }
        script
    };
    let unmade = words_of_records(2, &[vec![send(1, 1, 0)], vec![receipt(0, 2, 0)]]);
    let later = [(&words, 1), (&unmade, 0)].map(|(words, verdict)| {
        let mut script = Script::words(words);
        for (area, scratch) in [(0, length), (3, 0), (5, length), (8, length + 1), (length, length)] {
            assert_eq!(script.audit(area, scratch), 4);
        }
        for scratch in [0, 8, 16, length - 1, length + 1, 2 * length] {
            assert_eq!(script.audit(4, scratch), 14);
        }
        assert_eq!(script.audited(), verdict);
        script
    });
    let earlier = [
        both(&dimensions[..7], 2),
        both(&dimensions[..length - 1], 1),
        both(&badly_laid[..length - 1], 2),
        both(&badly_laid, 3),
    ];
    earlier.into_iter().chain(later).collect()
}

/// The audit of each table. Of the first so many it says 1, then 0.
fn audits<'a>(tables: impl IntoIterator<Item = &'a Vec<u8>>, ones: usize) -> Vec<Script> {
    let script = |(i, table): (usize, &Vec<u8>)| {
        let mut script = Script::on(table);
        assert_eq!(script.audited(), u32::from(i < ones), "{:?}", records(table));
        script
    };
    tables.into_iter().enumerate().map(script).collect()
}

/// Each of the tables, a place of it changed so that it is well laid and no run makes it.
fn spoiled(rng: &mut Rng, tables: &[Vec<u8>]) -> Vec<Vec<u8>> {
    let mut spoil = |table: &Vec<u8>| loop {
        let other = altered(rng, table);
        if Script::on(&other).audited() == 0 {
            return other;
        }
    };
    tables.iter().map(&mut spoil).collect()
}

/// The grounds for every mask, for one that is too large, and in areas that are too short or too long.
fn grounds_on(table: &[u8]) -> Script {
    let mut script = Script::on(table);
    let (n, exact) = (script.n(), 8 * script.n() as usize);
    for mask in 0..1 << n {
        assert_eq!(script.exact(Call::Grounds { mask }), 0);
    }
    assert_eq!(script.exact(Call::Grounds { mask: 1 << n }), 11);
    for length in [exact - 1, exact + 1] {
        assert_eq!(script.call(Call::Grounds { mask: 1 }, length), 4);
    }
    script
}

/// Document 02's words for slip 7: the worked controller, then n = 2 fresh and after a checkpoint at 0.
fn worked_grounds() -> Vec<Script> {
    let worked = grounds_on(&worked_controller().table);
    let answers: Vec<&[u32]> = worked.steps.iter().map(|step| &step.answer[..]).collect();
    assert_eq!(answers[..8], WORKED_GROUNDS);
    let fresh = Script::fresh(2, 4);
    let saved = Script::fresh(2, 4).with(&[Call::Checkpoint { p: 0 }]);
    vec![worked, grounds_on(&fresh.table), grounds_on(&saved.table)]
}

/// n = 2, E = 2: the rows of grounds in order, each with those after it met as well as with none of them.
fn rows_of_grounds() -> Vec<Script> {
    let words = words_of_records(2, &[vec![checkpoint(1), send(1, 1, 1)], vec![receipt(0, 1, 0)]]);
    let length = table_length(2, 2);
    let bad = changed(&words, &[(section(2, 1) + COUNT, 2)]);
    let (dimensions, badly_laid) = (from_words(&changed(&bad, &[(0, 17)])), from_words(&bad));
    let on = |table: &[u8], number: u32, areas: &[usize], masks: &[u32]| {
        let mut script = Script::on(table);
        for (&area, &mask) in areas.iter().flat_map(|area| masks.iter().map(move |mask| (area, mask))) {
            assert_eq!(script.call(Call::Grounds { mask }, area), number);
        }
        script
    };
    let good = from_words(&words);
    vec![
        on(&dimensions[..7], 2, &[16, 15], &[0, MAX]),
        on(&dimensions[..length - 1], 1, &[16, 15], &[0, MAX]),
        on(&badly_laid[..length - 1], 2, &[16, 15], &[0, MAX]),
        on(&badly_laid, 3, &[16, 15], &[0, MAX]),
        on(&good, 4, &[0, 4, 8, 15, 17, 20, 24, length], &[0, 4, MAX]),
        on(&good, 11, &[16], &[4, 5, 7, 1 << 16, 1 << 31, MAX]),
        on(&good, 0, &[16], &[0, 1, 2, 3]),
    ]
}

/// Well laid tables, most of them such as no run makes.
fn tables_for_grounds() -> Vec<Vec<u8>> {
    let chosen = grounded_of_two().into_iter().chain(grounded_astray());
    let others = [from_records(4, &crossed()), from_records(4, &full()), fall().table];
    chosen.map(|grounded| grounded.table).chain(others).collect()
}

/// The lines around the last one that has a saved state of each process, and these in areas that are too short or too long.
fn lines_around(table: &[u8]) -> Script {
    let (mut script, last) = (Script::on(table), last_line(&records(table)));
    let exact = 4 * script.n() as usize;
    for number in last.saturating_sub(1)..=last + 2 {
        assert_eq!(script.exact(Call::Line { number }), if number <= last { 0 } else { 15 });
    }
    for (number, length) in [(last, exact - 1), (last + 1, exact + 1), (last + 1, exact - 4)] {
        assert_eq!(script.call(Call::Line { number }, length), 4);
    }
    script
}

/// Every line that is answered, then some that are refused.
fn lines_of(table: &[u8], stated: &[Vec<u32>]) -> Script {
    let mut script = Script::on(table);
    for (number, positions) in (0..).zip(stated) {
        script.exact(Call::Line { number });
        assert_eq!(script.steps.last().unwrap().answer, *positions);
    }
    for number in [stated.len() as u32, 1 << 31, MAX] {
        assert_eq!(script.exact(Call::Line { number }), 15);
    }
    script
}

/// Document 02, slip 8, on tables of calls: the worked controller's lines, a fresh table's, and line 1 before and after
/// each process has saved, where one after the other is the last that lacks it.
fn lines_of_runs() -> Vec<Script> {
    let worked = lines_of(&worked_controller().table, &[vec![0, 0, 0], vec![1, 2, 1]]);
    let fresh = Script::fresh(2, 4).table;
    let saved = (0..3).map(|last| {
        let mut script = Script::fresh(3, 2);
        for p in [1, 2, 3].map(|after| (last + after) % 3) {
            assert_eq!(script.exact(Call::Line { number: 1 }), 15);
            script.exact(Call::Checkpoint { p });
        }
        assert_eq!(script.exact(Call::Line { number: 1 }), 0);
        script
    });
    [worked, lines_of(&fresh, &[vec![0, 0]]), lines_around(&fresh)].into_iter().chain(saved).collect()
}

/// Document 02, slip 9: small tables with checkpoints. Those that runs leave have forced ones; of those of no run every other one has
/// a checkpoint that no cut uses.
fn tables_for_saves(rng: &mut Rng) -> [Vec<Vec<u8>>; 2] {
    let has_forced = |table: &[u8]| records(table).iter().flatten().any(|r| r[KIND] == FORCED);
    let has_idle = |table: &[u8]| !idle(&records(table)).is_empty();
    let mut left = |(n, e): (u32, u32)| loop {
        let table = random_steps(rng, n, e, 4 * n * e).table;
        if n == 1 || has_forced(&table) {
            return table;
        }
    };
    let made = SAVED.map(&mut left).to_vec();
    let mut drawn = |(i, (n, e)): (usize, (u32, u32))| loop {
        let table = well_laid(rng, n, e);
        if has_idle(&table) == (n > 1 && i % 2 == 0) && Script::on(&table).audited() == 0 {
            return table;
        }
    };
    let mut unmade: Vec<_> = idle_saves().iter().map(|sections| from_records(3, sections)).collect();
    unmade.extend(SAVED.into_iter().enumerate().map(&mut drawn));
    assert!(
        made.iter().all(|table| !has_idle(table))
            && unmade.iter().filter(|table| has_idle(table)).count() > 4
    );
    [made, unmade]
}

/// Document 02, slip 2: failed processes at their counts, on a fresh table and after a checkpoint.
fn just_saved() -> Script {
    let mut script = Script::fresh(2, 4);
    script.lines(&[]);
    script.exact(Call::Checkpoint { p: 0 });
    script.lines(&[]);
    script
}

fn main() {
    let words: Vec<String> = env::args().skip(1).collect();
    match words.iter().map(String::as_str).collect::<Vec<_>>()[..] {
        [] => print!("{}", rules()),
        ["text"] => print!("{}", text::text()),
        _ => panic!("no word, or the word text: {words:?}"),
    }
}

fn rules() -> String {
    let mut file = File { text: String::from(HEAD), tables: Vec::new(), met: BTreeSet::new() };
    let mut rng = Rng::new(SEED);
    let worked = "The worked controller: its calls, then P1 to P10.";
    file.group("worked", worked, vec![worked_controller()]);
    let small = "9 with too few records free, 10 on a table that no run makes, 9 before 10, and an equal number that forces nothing.";
    file.group("small", small, small_cases());
    let lengths = "Tables under 8 bytes, dimensions out of range, other lengths than those of n and E.";
    file.group("lengths", lengths, wrong_lengths_and_dimensions());
    file.group("laid", "Tables that are not well laid, by each clause.", badly_laid());
    let carried = "Fourth words of records: a receipt's that are well laid, then others of every kind.";
    file.group("carried", carried, fourth_words());
    file.group("rows", "The rows of the steps and of the areas, in order.", rows_of_steps());
    let forced = "Receipts that force and receipts that don't: carried numbers that fall, received in three orders, and a chain of forced ones.";
    let orders = [[1, 2, 3], [3, 2, 1], [2, 1, 3]].map(falling_numbers);
    file.group("forced", forced, orders.into_iter().chain([forced_chain()]).collect());
    let places_of = "Receipts of sends that stand between records of every kind, with the places of both.";
    file.group("places", places_of, vec![places()]);
    file.group("fall", "A failure line that falls to the start, a checkpoint a round.", vec![fall()]);
    let (mut made, mut unmade) = (Vec::new(), Vec::new());
    for (i, &(n, e)) in RUNS.iter().enumerate() {
        let run = random_run(&mut rng, n, e, 4 * n + 2 * e);
        made.push(run.table.clone());
        file.group(&format!("run{i}"), &format!("A run from fresh: n = {n}, E = {e}."), vec![run]);
    }
    for (i, &(n, e)) in UNMADE.iter().enumerate() {
        let note = format!("A well laid table that no run makes: n = {n}, E = {e}.");
        let script = random_well_laid(&mut rng, n, e, 10);
        unmade.push(script.start.clone());
        file.group(&format!("unmade{i}"), &note, vec![script]);
    }
    let cuts = "Resend at every cut of the worked controller, and of a table whose receipts are by others than the destination, or twice.";
    file.group("resend_cuts", cuts, cuts_of_small_tables());
    file.group("resend_rows", "The rows of resend, in order.", vec![rows_of_resend()]);
    let mut of = |tables: &[Vec<u8>]| tables.iter().map(|table| resends(&mut rng, table)).collect();
    file.group("resend_made", "Resend on the tables that the runs left.", of(&made));
    file.group("resend_unmade", "Resend on the well laid tables that no run makes.", of(&unmade));
    file.group("saved", "Processes that fail at their counts go back.", vec![just_saved()]);
    file.group("audit_rows", "The rows of the audit, in order.", rows_of_audit());
    let left = "The audit on the tables that the runs left, which get 1.";
    file.group("audit_made", left, audits(&made, made.len()));
    let spoilt = spoiled(&mut rng, &made);
    let changed = "The audit on these with a place changed, so that they are well laid and get 0.";
    file.group("audit_changed", changed, audits(&spoilt, 0));
    // One of so few records may be as a run leaves it.
    let of_no_run = unmade.iter().filter(|table| records(table).iter().flatten().count() > 2);
    file.group("audit_unmade", "The audit on well laid tables that no run makes.", audits(of_no_run, 0));
    let why = "The grounds of the worked controller's failure lines, of a fresh table's and of one with a checkpoint.";
    file.group("grounds_worked", why, worked_grounds());
    file.group("grounds_rows", "The rows of grounds, in order.", rows_of_grounds());
    let all = |tables: &[Vec<u8>]| tables.iter().map(|table| grounds_on(table)).collect();
    file.group(
        "grounds_stray",
        "Grounds where receipts lack their send, repeat, or stand behind what goes.",
        all(&tables_for_grounds()),
    );
    file.group("grounds_made", "Grounds on the tables that the runs left.", all(&made));
    file.group("grounds_unmade", "Grounds on the well laid tables that no run makes.", all(&unmade));
    let saved = "Numbered lines, and 15 where a process has no saved state: of the worked controller, a fresh table, and as processes save.";
    file.group("lines_saved", saved, lines_of_runs());
    let fallen = "Numbered lines where numbers fall, are skipped, or are 0.";
    file.group(
        "lines_fallen",
        fallen,
        lined().iter().map(|Answered { table, stated }| lines_of(table, stated)).collect(),
    );
    let around = |tables: &[Vec<u8>]| tables.iter().map(|table| lines_around(table)).collect();
    file.group(
        "lines_made",
        "The last numbered lines of the tables that the runs left, and 4 before 15.",
        around(&made),
    );
    let last = "The last numbered lines of the well laid tables that no run makes, and 4 before 15.";
    file.group("lines_unmade", last, around(&unmade));
    let [made, unmade] = tables_for_saves(&mut rng);
    let all_used =
        "The checkpoints of tables that runs leave: the cut through each, and that some cut uses it.";
    file.saves("saves_made", all_used, &made);
    let some_idle = "The checkpoints of well laid tables that no run makes, some of which no cut uses.";
    file.saves("saves_unmade", some_idle, &unmade);
    assert_eq!(file.met, numbers(), "the numbers that are met");
    file.text
}
