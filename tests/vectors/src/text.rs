//! Prints crates/vectors/specs/TextVectors.antt: inputs of the text program with the outputs that the reference gives, and
//! theorems that the definition gives the same. The inputs are small, because the prover computes each output.
use crate::wrapped;
use cases::{on_reference, remember, step_or_line, table_length, Call, Rng};
use reference::run_text;

const SEED: u64 = 2;

/// All inputs together, and how many there are.
const MOST_BYTES: usize = 6_000;
const MOST_INPUTS: usize = 60;

const HEAD: &str = "\
-- Vectors for the text program. Generated: `cargo run -p vectors -- text` in tests/ prints this file. Every output below comes from the
-- reference in tests/reference, which shares nothing with the definition that is tried here.
use Rattle.std.specs.Prelude.{◌≡◌, refl, List, [], ◌∷◌, map, ℕ}
use Rattle.std.specs.Int.Count.{ones, ones_in}
use Rattle.xdr.specs.Words.{word, put_word, put_words}
use Rattle.rules.specs.Table.{layout, decoded, well_laid}
use Rattle.rules.specs.FailureLine.{round, rounds, failure_line}
use Rattle.rules.specs.Calls.{failure_answer, fresh_on, step_on, line_on, failed_on}
use Rattle.rules.specs.Text.{decimal, text_output, read_line}
";

const UNFOLDING: &str = "unfolding text_output read_line fresh_on step_on line_on failed_on layout decoded well_laid word put_word put_words failure_answer failure_line rounds round ones ones_in";

/// The start of a definition and its list of lists of bytes.
fn bytes_of_each(start: &str, texts: &[Vec<u8>]) -> String {
    let mut pieces = Vec::new();
    for text in texts {
        let mut own: Vec<String> = text.iter().map(u8::to_string).collect();
        if let Some(first) = own.first_mut() {
            *first = format!("({first}");
        }
        own.push(String::from(if own.is_empty() { "[]" } else { "[])" }));
        pieces.extend(own);
    }
    pieces.push(String::from("[]"));
    wrapped(start, &pieces)
}

/// The file so far.
struct File {
    text: String,
    inputs: usize,
    bytes: usize,
    outputs: Vec<u8>,
}

impl File {
    /// Writes inputs as one list, their outputs as another, and the theorem that the definition gives them.
    fn group(&mut self, name: &str, note: &str, inputs: &[Vec<u8>]) {
        let outputs: Vec<Vec<u8>> = inputs.iter().map(|input| run_text(input)).collect();
        let given = bytes_of_each(&format!("{name} ="), inputs);
        let wanted = bytes_of_each(&format!("{name}_outputs ="), &outputs);
        self.text += &format!(
            "\n-- {note}\nabbrev {name} : List (List ℕ)\n{given}\n\nabbrev {name}_outputs : List (List ℕ)\n{wanted}\n\n\
             pub {name}_agree : map text_output {name} ≡ {name}_outputs\n{UNFOLDING}\n{name}_agree = refl\n"
        );
        self.inputs += inputs.len();
        self.bytes += inputs.iter().map(Vec::len).sum::<usize>();
        self.outputs.extend(outputs.iter().flat_map(|output| [b"\r\n", output.as_slice()].concat()));
    }

    /// Writes numbers as one list, their digits as another, and the theorem that the definition gives them.
    fn decimals(&mut self, note: &str, numbers: &[u32]) {
        let digits: Vec<Vec<u8>> = numbers.iter().map(|number| number.to_string().into_bytes()).collect();
        let mut pieces: Vec<String> = numbers.iter().map(u32::to_string).collect();
        pieces.push(String::from("[]"));
        let given = wrapped("edges =", &pieces);
        let wanted = bytes_of_each("edges_digits =", &digits);
        self.text += &format!(
            "\n-- {note}\nabbrev edges : List ℕ\n{given}\n\nabbrev edges_digits : List (List ℕ)\n{wanted}\n\n\
             pub edges_agree : map decimal edges ≡ edges_digits\nedges_agree = refl\n"
        );
    }
}

/// The least and the greatest number of each length, up to 32 bits.
fn edges() -> Vec<u32> {
    let mut numbers = vec![0];
    for power in (0..10).map(|exponent| 10_u32.pow(exponent)) {
        numbers.extend([power, power.checked_mul(10).map_or(u32::MAX, |next| next - 1)]);
    }
    numbers
}

/// Each as it is.
fn whole(inputs: &[&[u8]]) -> Vec<Vec<u8>> {
    inputs.iter().map(|input| input.to_vec()).collect()
}

/// Each after a first line.
fn after(first: &[u8], inputs: &[&[u8]]) -> Vec<Vec<u8>> {
    inputs.iter().map(|input| [first, b"\r\n", *input].concat()).collect()
}

/// x as often, then the rest of a line, and a call where the line has its end.
fn long(times: usize, rest: &[u8]) -> Vec<u8> {
    [b"fresh,1,1,\r\n", vec![b'x'; times].as_slice(), rest].concat()
}

/// Runs from fresh: steps and lines as they are drawn, in every second one with a byte changed.
fn runs(rng: &mut Rng) -> Vec<Vec<u8>> {
    let mut inputs = Vec::new();
    for (case, (n, e)) in [(1, 2), (2, 3), (2, 4), (3, 2)].into_iter().enumerate() {
        let mut table = vec![0; table_length(n, e)];
        assert_eq!(on_reference(Call::Fresh { n, e }, &mut [&mut table]), 0);
        let (mut known, mut lines) = (Vec::new(), vec![Call::Fresh { n, e }.text()]);
        for _ in 0..6 {
            let call = step_or_line(rng, n, e, &known);
            lines.push(call.text());
            let mut area = vec![0; call.area_length(n)];
            if on_reference(call, &mut [&mut table, &mut area]) == 0 {
                remember(rng, &mut known, call, &table);
            }
        }
        let mut input = lines.join("\r\n").into_bytes();
        if case % 2 == 1 {
            let at = 12 + rng.below(input.len() as u32 - 12) as usize;
            input[at] = rng.pick(b"\r\n,0 x");
        }
        inputs.push(input);
    }
    inputs
}

pub fn text() -> String {
    let mut file = File { text: String::from(HEAD), inputs: 0, bytes: 0, outputs: Vec::new() };
    let note = "First lines: none, unreadable ones, another word, dimensions out of range, fresh with and without CR LF.";
    let first: [&[u8]; 15] = [
        b"",
        b"\r\n",
        b"x",
        b"line,0,,\r\nfresh,1,1,\r\n",
        b"fresh,1,1,",
        b"fresh,1,1,\r\n",
        b"fresh,3,4,\r\n",
        b"fresh,0000000002,01,",
        b"fresh,9,1,",
        b"fresh,0,1,\r\nfresh,1,1,\r\n",
        b"fresh,1,257,\r\nline,0,,",
        b"fresh,9,1,x",
        b"fresh,1,1,\r",
        b"fresh,1,1,\nline,0,,\r\n",
        b"fresh,4294967297,1,\r\n",
    ];
    file.group("opening", note, &whole(&first));

    let note =
        "Ends of lines: CR LF together, apart, doubled, missing, in the middle and at the end of the input.";
    let ends: [&[u8]; 11] = [
        b"line,0,,\r\n",
        b"line,0,,",
        b"line,0,,\r",
        b"line,0,,\n",
        b"line,0,,\r\n\r\n",
        b"\r\nline,0,,",
        b"line,0,,\nline,0,,\r\nline,0,,\r\n",
        b"line,0,,\rline,0,,",
        b"line,0,,\r\r\nline,0,,",
        b"\n\r\r\n\n\r\nline,0,,\r\n",
        b"\r\n\r",
    ];
    file.group("ending", note, &after(b"fresh,1,1,", &ends));

    let note = "Fields: too few, too many, other words, capital letters, spaces, quotes, signs, other bytes, numbers left out, unused ones not empty.";
    let fields: [&[u8]; 9] = [
        b"checkpoint,0,\r\ncheckpoint,0,,,\r\ncheckpoint\r\n,,,\r\nline,0,,",
        b"check,0,,\r\ncheckpoints,0,,\r\nlin,0,,\r\n,0,,\r\ncheckpoint,0,,",
        b"Checkpoint,0,,\r\nLINE,0,,\r\nfaileD,0,,\r\nline;0;;\r\nline,0,,",
        b" line,0,,\r\nline ,0,,\r\nline, 0,,\r\nline,0 ,,\r\nline,0,, \r\nline,0,\t,\r\nline,0,,",
        b"\"line\",0,,\r\nline,\"0\",,\r\nline,0,\"\",\r\nline,+0,,\r\nline,-0,,\r\nline,/,,\r\nline,:,,",
        b"\x00\r\nline,\x00,,\r\nline,0\x00,,\r\nline,0,,\x00\r\n\xECine,0,,\r\nline,\xB0,,\r\nline,0,,\xFF",
        b"line,,,\r\nfailed,,,\r\ncheckpoint,,,\r\nsend,,1,\r\nsend,0,,\r\nfresh,,1,",
        b"receipt,,0,1\r\nreceipt,0,,1\r\nreceipt,0,0,\r\nreceipt,0,0\r\nreceipt,0,0,1,\r\nreceipt,0,0,1",
        b"line,0,0,\r\nline,0,,0\r\nfailed,0,0,\r\ncheckpoint,0,,x\r\nsend,0,1,0\r\nfresh,1,1,1",
    ];
    file.group("fields", note, &after(b"fresh,1,1,", &fields));

    let note = "Numbers: leading zeros up to ten digits, eleven digits, 32 bits and one more.";
    let numbers: [&[u8]; 6] = [
        b"checkpoint,0000000000,,\r\nline,0000000001,,\r\nline,00000000001,,\r\nline,2,,",
        b"line,4294967295,,\r\nline,4294967296,,\r\nline,4294967297,,\r\nline,9999999999,,\r\nline,10000000000,,",
        b"failed,0000000001,,\r\nfailed,4294967295,,\r\nfailed,4294967296,,\r\nfailed,2,,\r\nfailed,4,,",
        b"checkpoint,4294967295,,\r\ncheckpoint,4294967296,,\r\ncheckpoint,2,,\r\ncheckpoint,00000000000,,",
        b"send,0,4294967295,\r\nsend,0,4294967297,\r\nsend,01,00,\r\nsend,4294967296,1,",
        b"receipt,0,1,4294967295\r\nreceipt,0,1,4294967296\r\nreceipt,0000000000,0000000001,0000000001",
    ];
    file.group("numbers", note, &after(b"fresh,2,2,", &numbers));

    let note = "Lines of 64 bytes and more, with CR LF, without it, and with CR and LF apart behind byte 64: one answer each.";
    let overlong = [
        long(64, b"\r\nline,0,,"),
        long(65, b"\r\nline,0,,"),
        long(70, b"\r\nline,0,,"),
        long(65, b""),
        long(64, b"\r"),
        long(64, b"\rline,0,,\r\nline,0,,"),
        long(64, b"\nline,0,,\r\nline,0,,"),
        long(65, b"\r\r\nline,0,,"),
        vec![b'x'; 66],
    ];
    file.group("overlong", note, &overlong);

    let note = "Each number that a call returns, a receipt that forces and one that is overtaken, and a later fresh, which changes nothing.";
    let calls: [&[u8]; 6] = [
        b"fresh,2,4,\r\ncheckpoint,0,,\r\nsend,0,1,\r\nreceipt,1,0,1\r\nline,1,,\r\nfailed,1,,\r\n",
        b"fresh,2,2,\r\ncheckpoint,2,,\r\nsend,0,0,\r\nreceipt,0,1,1\r\nfailed,4,,\r\nline,0,,",
        b"fresh,2,2,\r\ncheckpoint,0,,\r\nsend,0,1,\r\ncheckpoint,0,,\r\nsend,1,0,\r\nreceipt,1,0,1\r\nfailed,3,,\r\nline,1,,",
        b"fresh,2,3,\r\nsend,0,1,\r\ncheckpoint,0,,\r\nreceipt,1,0,1\r\nreceipt,1,0,1\r\nfresh,2,3,\r\nline,1,,",
        b"fresh,3,3,\r\nsend,0,2,\r\ncheckpoint,0,,\r\nsend,0,2,\r\nreceipt,2,0,2\r\nreceipt,2,0,1\r\nfailed,1,,",
        b"fresh,1,2,\r\ncheckpoint,0,,\r\nfresh,9,1,\r\nfresh,1,2,\r\ncheckpoint,0,,\r\nfailed,1,,",
    ];
    file.group("calls", note, &whole(&calls));

    let note = "Numbers of one to ten digits at their edges, as Rust's standard library writes them, which is how the reference does.";
    file.decimals(note, &edges());

    let mut rng = Rng::new(SEED);
    file.group("drawn", "Runs as they are drawn, a byte changed in every second one.", &runs(&mut rng));

    assert!(
        file.bytes <= MOST_BYTES && file.inputs <= MOST_INPUTS,
        "{} bytes, {} inputs",
        file.bytes,
        file.inputs
    );
    for answer in ["0,", "5,", "6,", "7,", "8,", "9,", "11,", "15,", "99,", "1\r\n", "99\r\n"] {
        let met = String::from_utf8(file.outputs.clone()).unwrap().contains(&format!("\r\n{answer}"));
        assert!(met, "no output has {answer:?}");
    }
    file.text
}
