//! Texts of calls for the text program, drawn from a seed.
use cases::{on_reference, remember, step_or_line, table_length, Call, Rng};

pub const END: &[u8] = b"\r\n";

/// Calls after fresh. The steps are made on a table, so that receipts are of messages that were sent.
pub struct Calls {
    n: u32,
    e: u32,
    table: Vec<u8>,
    known: Vec<Call>,
}

impl Calls {
    pub fn new(n: u32, e: u32) -> Calls {
        let mut table = vec![0; table_length(n, e)];
        assert_eq!(on_reference(Call::Fresh { n, e }, &mut [&mut table]), 0, "fresh {n}, {e}");
        Calls { n, e, table, known: Vec::new() }
    }

    pub fn draw(&mut self, rng: &mut Rng) -> Call {
        let call = step_or_line(rng, self.n, self.e, &self.known);
        let mut area = vec![0; call.area_length(self.n)];
        if !call.only_answers() && on_reference(call, &mut [&mut self.table, &mut area]) == 0 {
            remember(rng, &mut self.known, call, &self.table);
        }
        call
    }
}

/// Fresh and then calls, one a line, until the text has this many bytes or a few more.
pub fn run(rng: &mut Rng, n: u32, e: u32, bytes: usize) -> Vec<u8> {
    let mut calls = Calls::new(n, e);
    let mut text = line(&Call::Fresh { n, e }.text());
    while text.len() < bytes {
        text.extend(line(&calls.draw(rng).text()));
    }
    text
}

fn line(text: &str) -> Vec<u8> {
    [text.as_bytes(), END].concat()
}
