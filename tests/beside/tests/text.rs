//! The text program as a process: document 01's listing and worked controller, every edge of its lines with the output
//! written out, generated inputs beside the reference, and how it reads and writes. CKPT_PROGRAM names another program.
use beside::program::{assert_output, output_of, path, under_sh, Running};
use beside::texts::{self, Calls, END};
use beside::{seed, Origin};
use cases::{Call, Rng};
use reference::run_text;
use std::fs::{self, File};
use std::io::{ErrorKind, Write};
use std::os::unix::process::ExitStatusExt;
use std::path::Path;
use std::process::{Command, Stdio};

const MEGABYTE: usize = 1 << 20;

/// The program writes exactly this, and so does the reference.
fn check(input: &[u8], expected: &[u8]) {
    assert_output(input, &run_text(input), expected, "the reference differs");
    assert_output(input, &output_of(input), expected, "the program differs");
}

/// The program writes what the reference does.
fn check_beside(input: &[u8], note: impl std::fmt::Display) -> Vec<u8> {
    let output = output_of(input);
    assert_output(input, &output, &run_text(input), note);
    output
}

/// Lines with their ends.
fn ended<T: AsRef<[u8]>>(lines: &[T]) -> Vec<u8> {
    lines.iter().flat_map(|line| [line.as_ref(), END].concat()).collect()
}

// ---- document 01, with document 02's places

const LISTING: &[u8] = b"fresh,2,4,\r\n\
    checkpoint,0,,\r\n\
    send,0,1,\r\n\
    receipt,1,0,1\r\n\
    line,1,,\r\n\
    failed,1,,\r\n";

const LISTING_ANSWERS: &[u8] = b"0,,,,\r\n\
    0,1,,,\r\n\
    0,1,1,,\r\n\
    0,1,1,2,2\r\n\
    0,1,1,,\r\n\
    0,1,1,3,2\r\n";

#[test]
fn the_listing() {
    check(LISTING, LISTING_ANSWERS);
}

#[test]
fn the_worked_controller_with_its_lines_and_refused_calls() {
    let calls: [(&str, &str); 18] = [
        ("fresh,3,6,", "0,,,,,"),
        ("checkpoint,0,,", "0,1,,,,"),
        ("send,0,1,", "0,1,1,,,"),
        ("send,1,2,", "0,1,0,,,"),
        ("receipt,1,0,1", "0,1,1,2,3,"),
        ("send,1,2,", "0,2,1,,,"),
        ("receipt,2,1,2", "0,1,1,4,2,"),
        ("receipt,2,1,1", "0,0,0,1,3,"),
        ("line,0,,", "0,0,0,0,,"),     // P1
        ("line,1,,", "0,1,2,1,,"),     // P2
        ("line,2,,", "15,,,,,"),       // P3
        ("failed,0,,", "0,2,4,3,0,0"), // P4
        ("failed,1,,", "0,1,2,1,7,3"), // P5
        ("failed,2,,", "0,2,2,1,6,2"), // P6
        ("failed,4,,", "0,2,4,1,4,1"), // P7
        ("failed,8,,", "11,,,,,"),     // P8
        ("receipt,2,1,1", "8,,,,,"),   // P9
        ("receipt,1,0,2", "7,,,,,"),   // P10
    ];
    check(&ended(&calls.map(|(line, _)| line)), &ended(&calls.map(|(_, answer)| answer)));
}

// ---- lines that the program can't read

/// One by one they are unreadable wherever they stand. None is empty, has CR LF inside or is over 64 bytes.
const UNREADABLE: &[&[u8]] = &[
    // other numbers of fields
    b"checkpoint",
    b"checkpoint,0",
    b"checkpoint,0,",
    b"checkpoint,0,,,",
    b"checkpoint,0,,,,",
    b"checkpoint0,,",
    b"send,0,1",
    b"send,0,1,,",
    b"send0,1,,",
    b"receipt,1,0",
    b"receipt,1,0,1,",
    b"line,0,",
    b"line,0,,,",
    b"failed,0",
    b"failed,0,,,",
    b"fresh,1,2",
    b"fresh,1,2,,",
    b",",
    b",,",
    b",,,",
    b",,,,",
    b"99",
    b"0,,,",
    // other words
    b",0,,",
    b"check,0,,",
    b"checkpoin,0,,",
    b"checkpoints,0,,",
    b"checkpointcheckpoint,0,,",
    b"c,0,,",
    b"fail,0,,",
    b"failedd,0,,",
    b"lin,0,,",
    b"lines,0,,",
    b"sen,0,1,",
    b"sends,0,1,",
    b"receipts,1,0,1",
    b"receip,1,0,1",
    b"freshe,1,2,",
    b"fres,1,2,",
    b"resend,0,1,",
    b"audit,,,",
    b"audit,0,,",
    b"0,checkpoint,,",
    b"checkpoint;0;;",
    // capital letters
    b"Checkpoint,0,,",
    b"CHECKPOINT,0,,",
    b"checkpoinT,0,,",
    b"Line,0,,",
    b"FAILED,0,,",
    b"Fresh,1,2,",
    // spaces, tabs, quotes
    b" ",
    b" checkpoint,0,,",
    b"checkpoint ,0,,",
    b"checkpoint, 0,,",
    b"checkpoint,0 ,,",
    b"checkpoint,0, ,",
    b"checkpoint,0,, ",
    b"send,0, 1,",
    b"\tcheckpoint,0,,",
    b"checkpoint,\t0,,",
    b"checkpoint,0,,\t",
    b"\"checkpoint\",0,,",
    b"checkpoint,\"0\",,",
    b"checkpoint,0,\"\",",
    b"checkpoint,0,,\"\"",
    b"\"checkpoint,0,,\"",
    b"'checkpoint',0,,",
    b"\"",
    // signs and other ways to write a number
    b"checkpoint,+0,,",
    b"checkpoint,-0,,",
    b"line,+1,,",
    b"line,-1,,",
    b"line,1-,,",
    b"line,0x1,,",
    b"line,1e3,,",
    b"line,1.0,,",
    b"line,1_000,,",
    b"line,1 000,,",
    b"line,a,,",
    b"line,/,,",
    b"line,:,,",
    b"line,1/,,",
    b"line,1:,,",
    // numbers of more than ten digits or 32 bits
    b"line,00000000000,,",
    b"line,00000000001,,",
    b"checkpoint,00000000000,,",
    b"line,10000000000,,",
    b"line,42949672950,,",
    b"line,4294967296,,",
    b"line,4294967297,,",
    b"line,5000000000,,",
    b"line,8589934592,,",
    b"line,9999999999,,",
    b"line,18446744073709551616,,",
    b"line,99999999999999999999,,",
    b"checkpoint,4294967296,,",
    b"send,4294967296,1,",
    b"send,0,4294967297,",
    b"receipt,4294967297,0,1",
    b"receipt,1,4294967296,1",
    b"receipt,1,0,4294967297",
    b"failed,4294967296,,",
    b"fresh,4294967297,1,",
    b"fresh,1,4294967297,",
    b"fresh,00000000001,1,",
    b"receipt,0000000000,0000000000,00000000001",
    // numbers left out
    b"checkpoint,,,",
    b"checkpoint,,0,",
    b"checkpoint,,,0",
    b"send,,,",
    b"send,,1,",
    b"send,0,,",
    b"send,0,,1",
    b"receipt,,,",
    b"receipt,,0,1",
    b"receipt,1,,1",
    b"receipt,1,0,",
    b"line,,,",
    b"failed,,,",
    b"fresh,,,",
    b"fresh,1,,",
    b"fresh,,2,",
    // fields that the word doesn't use
    b"checkpoint,0,0,",
    b"checkpoint,0,,0",
    b"checkpoint,0,x,",
    b"send,0,1,0",
    b"send,0,1,1",
    b"line,0,0,",
    b"line,0,,0",
    b"failed,0,0,",
    b"failed,0,,0",
    b"fresh,1,2,0",
    b"fresh,1,2,x",
    b"fresh,9,1,x",
    // bytes that are no text
    b"\x00",
    b"\x00checkpoint,0,,",
    b"checkpoint\x00,0,,",
    b"checkpoint,\x000,,",
    b"checkpoint,0\x00,,",
    b"checkpoint,0,\x00,",
    b"checkpoint,0,,\x00",
    b"checkpoint,0,,\x00,",
    b"checkpoint,\x00,,",
    b"checkpoint,\x01,,",
    b"checkpoint,0,,\x1A",
    b"checkpoint,0,,\x7F",
    b"checkpoint,0,,\x0B",
    b"checkpoint,0,,\x0C",
    b"\x80",
    b"\xFF",
    b"\xE3heckpoint,0,,",
    b"checkpoint\xAC0,,",
    b"checkpoint,\xB0,,",
    b"checkpoint,0,,\x85",
    b"checkpoint,0,,\x8A",
    b"checkpoint,0,,\x8D",
    b"checkpoint,0,,\xA0",
    b"checkpoint,\xD9\xA0,,",
    b"\xEF\xBB\xBFcheckpoint,0,,",
    // CR and LF apart
    b"\n",
    b"\n\n",
    b"\ncheckpoint,0,,",
    b"checkpoint\n,0,,",
    b"checkpoint,0\n,,",
    b"checkpoint,0,,\n",
    b"checkpoint,0,,\ncheckpoint,0,,",
    b"\r",
    b"\r\r\r",
    b"\rcheckpoint,0,,",
    b"checkpoint\r,0,,",
    b"checkpoint,0\r,,",
    b"checkpoint,0,,\r",
    b"checkpoint,0,,\r\r",
    b"checkpoint,0,,\rcheckpoint,0,,",
    b"\n\r",
    b"checkpoint,0,,\n\r",
    b"checkpoint,0,,\n\rcheckpoint,0,,",
];

#[test]
fn an_unreadable_line_gives_99_and_empty_fields_and_the_program_goes_on() {
    for line in UNREADABLE.iter().chain([&&b""[..]]) {
        let input = [b"fresh,1,2,\r\ncheckpoint,0,,\r\n", *line, b"\r\ncheckpoint,0,,\r\n"].concat();
        check(&input, b"0,,,\r\n0,1,,\r\n99,,,\r\n0,2,,\r\n");
    }
    let all = UNREADABLE.iter().flat_map(|line| [line, b"\r\nline,9,,\r\n" as &[u8]].concat());
    let input = [b"fresh,2,4,\r\n".to_vec(), all.collect()].concat();
    check(&input, &[b"0,,,,\r\n".to_vec(), b"99,,,,\r\n15,,,,\r\n".repeat(UNREADABLE.len())].concat());
}

#[test]
fn an_unreadable_line_at_the_end_may_lack_cr_lf_too() {
    for line in UNREADABLE {
        let input = [b"fresh,3,1,\r\ncheckpoint,2,,\r\n", *line].concat();
        check(&input, b"0,,,,,\r\n0,1,,,,\r\n99,,,,,\r\n");
    }
}

/// A fresh with something wrong, to be the first line: a later one gives 99 with nothing wrong as well.
const UNREADABLE_FRESH: &[&[u8]] = &[
    b"fresh",
    b"fresh,1",
    b"fresh,1,2",
    b"fresh,1,2,,",
    b"fresh1,2,,",
    b"fres,1,2,",
    b"freshh,1,2,",
    b"Fresh,1,2,",
    b"FRESH,1,2,",
    b" fresh,1,2,",
    b"fresh ,1,2,",
    b"fresh, 1,2,",
    b"fresh,1, 2,",
    b"fresh,1,2, ",
    b"fresh,1,2,\t",
    b"\"fresh\",1,2,",
    b"fresh,\"1\",2,",
    b"fresh,1,2,\"\"",
    b"fresh,+1,2,",
    b"fresh,1,-2,",
    b"fresh,,2,",
    b"fresh,1,,",
    b"fresh,,,",
    b"fresh,1,2,0",
    b"fresh,1,2,3",
    b"fresh,1,2,x",
    b"fresh,00000000001,2,",
    b"fresh,1,00000000002,",
    b"fresh,4294967297,2,",
    b"fresh,1,4294967298,",
    b"fresh,9999999999,9999999999,",
    b"\x00fresh,1,2,",
    b"fresh,1\x00,2,",
    b"fresh,1,2,\x00",
    b"\xEF\xBB\xBFfresh,1,2,",
    b"\xE6resh,1,2,",
    b"fresh,\xB1,2,",
    b"fresh,1,2\xAC",
    b"\nfresh,1,2,",
    b"fresh,1,2,\n",
    b"fresh,1,2,\nline,0,,",
    b"\rfresh,1,2,",
    b"fresh,1,2,\r",
    b"fresh,1,2,\rline,0,,",
    b"fresh,1,2,\n\r",
];

#[test]
fn an_unreadable_first_line_gives_99_alone_and_ends_the_program() {
    for line in UNREADABLE.iter().chain(UNREADABLE_FRESH) {
        check(line, b"99\r\n");
        check(&[line, END].concat(), b"99\r\n");
        check(&[line, b"\r\nfresh,1,2,\r\ncheckpoint,0,,\r\n" as &[u8]].concat(), b"99\r\n");
    }
    for input in [b"\r\n" as &[u8], b"\r\n\r\n", b"\r\nfresh,1,2,\r\n", b"\r\nfresh,1,2,"] {
        check(input, b"99\r\n");
    }
}

#[test]
fn a_first_line_with_another_word_gives_99_alone_and_ends_the_program() {
    for line in ["checkpoint,0,,", "send,0,1,", "receipt,1,0,1", "line,0,,", "failed,0,,"] {
        for rest in ["", "\r\n", "\r\nfresh,2,4,\r\n", "\r\nfresh,2,4,\r\ncheckpoint,0,,\r\n"] {
            check([line, rest].concat().as_bytes(), b"99\r\n");
        }
    }
}

// ---- fresh

#[test]
fn empty_input_writes_nothing() {
    check(b"", b"");
}

#[test]
fn dimensions_outside_the_programs_range_give_1_alone_and_end_the_program() {
    let lines = [
        "fresh,9,1,",
        "fresh,0,1,",
        "fresh,1,0,",
        "fresh,0,0,",
        "fresh,1,257,",
        "fresh,9,256,",
        "fresh,8,257,",
        "fresh,16,1,",
        "fresh,16,1024,",
        "fresh,17,1,",
        "fresh,1,1024,",
        "fresh,1,1025,",
        "fresh,256,1,",
        "fresh,257,1,",
        "fresh,1,512,",
        "fresh,65536,65536,",
        "fresh,65537,1,",
        "fresh,1,65537,",
        "fresh,4294967295,1,",
        "fresh,1,4294967295,",
        "fresh,4294967295,4294967295,",
        "fresh,0000000009,0000000001,",
    ];
    for line in lines {
        for rest in ["", "\r\n", "\r\nfresh,1,1,\r\nline,0,,\r\n", "\r\n\r\n", "\r\nx"] {
            check([line, rest].concat().as_bytes(), b"1\r\n");
        }
    }
    // What is unreadable comes first.
    for line in
        [b"fresh,9,1,x" as &[u8], b"fresh,9,1", b"fresh,9,1,,", b"fresh,9,1,\r", b"fresh,9,4294967296,"]
    {
        check(line, b"99\r\n");
    }
}

#[test]
fn fresh_takes_eight_processes_and_256_records() {
    check(b"fresh,8,256,", b"0,,,,,,,,,,\r\n");
    check(b"fresh,8,256,\r\n", b"0,,,,,,,,,,\r\n");
    check(b"fresh,1,1,\r\n", b"0,,,\r\n");
    check(b"fresh,1,256,\r\n", b"0,,,\r\n");
    check(b"fresh,8,1,\r\n", b"0,,,,,,,,,,\r\n");
    check(b"fresh,0000000008,0000000256,\r\n", b"0,,,,,,,,,,\r\n");
    check(b"fresh,0000000001,01,", b"0,,,\r\n");
    // All 256 records are there, and not one more.
    let mut input = b"fresh,1,256,\r\n".to_vec();
    let mut answers = b"0,,,\r\n".to_vec();
    for number in 1..=256 {
        input.extend(b"checkpoint,0,,\r\n");
        answers.extend(format!("0,{number},,\r\n").bytes());
    }
    input.extend(b"checkpoint,0,,\r\nline,256,,\r\nline,257,,\r\nline,4294967295,,\r\n");
    answers.extend(b"9,,,\r\n0,256,,\r\n15,,,\r\n15,,,\r\n");
    check(&input, &answers);
}

#[test]
fn a_later_fresh_gives_99_and_changes_nothing() {
    let lines = [
        "fresh,2,4,",
        "fresh,1,1,",
        "fresh,3,4,",
        "fresh,8,256,",
        "fresh,9,1,",
        "fresh,0,1,",
        "fresh,1,0,",
        "fresh,1,257,",
        "fresh,16,1024,",
        "fresh,4294967295,4294967295,",
    ];
    for line in lines {
        let calls = [
            ("fresh,2,4,", "0,,,,"),
            (line, "99,,,,"),
            ("checkpoint,0,,", "0,1,,,"),
            (line, "99,,,,"),
            ("send,0,1,", "0,1,1,,"),
            (line, "99,,,,"),
            (line, "99,,,,"),
            ("receipt,1,0,1", "0,1,1,2,2"),
            (line, "99,,,,"),
            ("line,1,,", "0,1,1,,"),
            ("line,2,,", "15,,,,"),
            ("failed,1,,", "0,1,1,3,2"),
            ("receipt,1,0,1", "8,,,,"),
            (line, "99,,,,"),
            ("checkpoint,1,,", "0,2,,,"),
        ];
        check_calls(&calls);
        // Without its CR LF at the end of the input as well.
        check([b"fresh,1,1,\r\n", line.as_bytes()].concat().as_slice(), b"0,,,\r\n99,,,\r\n");
    }
}

// ---- the ends of lines

#[test]
fn only_cr_lf_together_ends_a_line() {
    // What stands between two calls, and how many lines it makes of them.
    let cases: [(&[u8], &[u8]); 14] = [
        (b"\r\n", b"0,1,,\r\n0,2,,\r\n"),
        (b"\n", b"99,,,\r\n"),
        (b"\r", b"99,,,\r\n"),
        (b"\n\r", b"99,,,\r\n"),
        (b"\n\n", b"99,,,\r\n"),
        (b"\r\r", b"99,,,\r\n"),
        (b"", b"99,,,\r\n"),
        (b"\r\r\n", b"99,,,\r\n0,1,,\r\n"),
        (b"\n\r\n", b"99,,,\r\n0,1,,\r\n"),
        (b"\r\n\n", b"0,1,,\r\n99,,,\r\n"),
        (b"\r\n\r", b"0,1,,\r\n99,,,\r\n"),
        (b"\r\n\r\n", b"0,1,,\r\n99,,,\r\n0,2,,\r\n"),
        (b"\r\n\r\n\r\n", b"0,1,,\r\n99,,,\r\n99,,,\r\n0,2,,\r\n"),
        (b"\r\n\n\r\r\n", b"0,1,,\r\n99,,,\r\n0,2,,\r\n"),
    ];
    for (between, answers) in cases {
        let calls = [b"checkpoint,0,,", between, b"checkpoint,0,,"].concat();
        let expected = [b"0,,,\r\n", answers].concat();
        check(&[b"fresh,1,2,\r\n", calls.as_slice()].concat(), &expected);
        check(&[b"fresh,1,2,\r\n", calls.as_slice(), END].concat(), &expected);
    }
    // After the first line, which is then unreadable or followed by an empty line.
    for between in [b"\n" as &[u8], b"\r", b"\n\r", b"\r\r", b"", b"\r\r\n", b"\n\r\n"] {
        check(&[b"fresh,1,2,", between, b"checkpoint,0,,\r\n"].concat(), b"99\r\n");
    }
    check(b"fresh,1,2,\r\n\r\ncheckpoint,0,,\r\n", b"0,,,\r\n99,,,\r\n0,1,,\r\n");
}

#[test]
fn the_last_line_may_lack_cr_lf_and_a_last_cr_lf_begins_no_line() {
    check(&LISTING[..LISTING.len() - 2], LISTING_ANSWERS);
    check(b"fresh,1,1,", b"0,,,\r\n");
    check(b"fresh,1,1,\r\n", b"0,,,\r\n");
    check(b"fresh,1,1,\r\nline,0,,", b"0,,,\r\n0,0,,\r\n");
    check(b"fresh,1,1,\r\nline,0,,\r\n", b"0,,,\r\n0,0,,\r\n");
    check(b"fresh,1,1,\r\nline,0,,\r\n\r\n", b"0,,,\r\n0,0,,\r\n99,,,\r\n");
    check(b"fresh,1,1,\r\nline,0,,\r\n\r\n\r\n", b"0,,,\r\n0,0,,\r\n99,,,\r\n99,,,\r\n");
    // A lone CR or LF at the end belongs to the last line.
    check(b"fresh,1,1,\r\nline,0,,\r", b"0,,,\r\n99,,,\r\n");
    check(b"fresh,1,1,\r\nline,0,,\n", b"0,,,\r\n99,,,\r\n");
    check(b"fresh,1,1,\r\nline,0,,\r\n\r", b"0,,,\r\n0,0,,\r\n99,,,\r\n");
    check(b"fresh,1,1,\r\nline,0,,\r\n\n", b"0,,,\r\n0,0,,\r\n99,,,\r\n");
    check(b"fresh,1,1,\r\nline,0,,\r\n\r\r\n", b"0,,,\r\n0,0,,\r\n99,,,\r\n");
    check(b"fresh,1,1,\r", b"99\r\n");
    check(b"fresh,1,1,\n", b"99\r\n");
    check(b"fresh,9,1,\r", b"99\r\n");
    check(b"fresh,1,1,\r\n\r", b"0,,,\r\n99,,,\r\n");
    check(b"fresh,1,1,\r\n\r\n", b"0,,,\r\n99,,,\r\n");
}

/// A line of this content after two that are read, then one more call.
fn check_one_line(content: &[u8]) {
    let head = b"fresh,1,2,\r\ncheckpoint,0,,\r\n";
    let input = [head, content, b"\r\ncheckpoint,0,,\r\n"].concat();
    check(&input, b"0,,,\r\n0,1,,\r\n99,,,\r\n0,2,,\r\n");
    check(&[head, content].concat(), b"0,,,\r\n0,1,,\r\n99,,,\r\n");
}

#[test]
fn an_overlong_line_is_one_unreadable_line_up_to_its_cr_lf() {
    let lengths = [
        64, 65, 66, 67, 127, 128, 129, 130, 255, 256, 257, 1_000, 4_095, 4_096, 4_097, 10_000, 65_535,
        65_536, 65_537, 200_000,
    ];
    for length in lengths {
        for byte in [b'x', b',', b'0', b'\n', b'\r', 0, 0xFF] {
            check_one_line(&vec![byte; length]);
        }
    }
    for length in [64, 65, 66, 10_000, 200_000] {
        check(&vec![b'x'; length], b"99\r\n");
        check(&[&vec![b'x'; length], b"\r\nfresh,1,1,\r\n" as &[u8]].concat(), b"99\r\n");
        // Leading zeros don't make it a number.
        check_one_line(&[b"line,", vec![b'0'; length].as_slice(), b"1,,"].concat());
    }
}

#[test]
fn calls_inside_an_overlong_line_are_not_made() {
    for before in (0..8).chain(48..=70).chain([127, 128, 129, 130]) {
        let padding = vec![b'x'; before];
        check_one_line(&[&padding, b"checkpoint,0,,".repeat(5).as_slice()].concat());
        check_one_line(&[&padding, b"checkpoint,0,,\r".repeat(5).as_slice()].concat());
        check_one_line(&[&padding, b"checkpoint,0,,\n".repeat(5).as_slice()].concat());
        check_one_line(
            &[b"checkpoint,0,,", padding.as_slice(), b"checkpoint,0,,\rcheckpoint,0,,\n"].concat(),
        );
    }
}

#[test]
fn cr_and_lf_around_byte_64_end_the_line_only_together() {
    for before in 60..=70 {
        let start = vec![b'x'; before];
        for rest in [
            b"" as &[u8],
            b"\r",
            b"\n",
            b"\rx",
            b"\nx",
            b"\r\r",
            b"\r\r\r",
            b"\n\r",
            b"\rx\r",
            b"\rcheckpoint,0,,",
        ] {
            check_one_line(&[start.as_slice(), rest].concat());
        }
        // Two lines: the second is a call.
        let input =
            [b"fresh,1,2,\r\n", start.as_slice(), b"\r\ncheckpoint,0,,\r\n", start.as_slice(), b"\r\n"];
        check(&input.concat(), b"0,,,\r\n99,,,\r\n0,1,,\r\n99,,,\r\n");
    }
}

// ---- answers

fn check_calls(calls: &[(&str, &str)]) {
    let (lines, answers): (Vec<_>, Vec<_>) = calls.iter().copied().unzip();
    check(&ended(&lines), &ended(&answers));
}

#[test]
fn numbers_have_one_to_ten_digits_and_32_bits() {
    check_calls(&[
        ("fresh,0000000002,0000000004,", "0,,,,"),
        ("checkpoint,0000000000,,", "0,1,,,"),
        ("send,00,01,", "0,1,1,,"),
        ("receipt,0000000001,0000000000,0000000001", "0,1,1,2,2"),
        ("line,0,,", "0,0,0,,"),
        ("line,0000000000,,", "0,0,0,,"),
        ("line,00000000000,,", "99,,,,"),
        ("line,0000000001,,", "0,1,1,,"),
        ("line,00000000001,,", "99,,,,"),
        ("line,0000000002,,", "15,,,,"),
        ("line,999999999,,", "15,,,,"),
        ("line,1000000000,,", "15,,,,"),
        ("line,4294967295,,", "15,,,,"),
        ("line,4294967296,,", "99,,,,"),
        ("line,4294967297,,", "99,,,,"),
        ("line,9999999999,,", "99,,,,"),
        ("line,10000000000,,", "99,,,,"),
        ("failed,0000000001,,", "0,1,1,3,2"),
        ("failed,3,,", "0,1,1,3,2"),
        ("failed,4,,", "11,,,,"),
        ("failed,2147483648,,", "11,,,,"),
        ("failed,4294967295,,", "11,,,,"),
        ("failed,4294967296,,", "99,,,,"),
        ("failed,4294967297,,", "99,,,,"),
        ("checkpoint,4294967295,,", "5,,,,"),
        ("checkpoint,4294967296,,", "99,,,,"),
        ("send,4294967295,4294967295,", "5,,,,"),
        ("send,0,4294967295,", "6,,,,"),
        ("send,0,4294967297,", "99,,,,"),
        ("receipt,4294967295,0,1", "5,,,,"),
        ("receipt,1,4294967295,1", "6,,,,"),
        ("receipt,1,0,4294967295", "7,,,,"),
        ("receipt,1,0,4294967297", "99,,,,"),
        ("receipt,1,0,1", "8,,,,"),
    ]);
}

#[test]
fn every_number_that_the_program_can_write() {
    check_calls(&[
        ("fresh,2,2,", "0,,,,"),
        ("line,0,,", "0,0,0,,"),
        ("line,1,,", "15,,,,"),
        ("checkpoint,2,,", "5,,,,"),
        ("send,0,0,", "6,,,,"),
        ("send,0,2,", "6,,,,"),
        ("receipt,0,1,1", "7,,,,"),
        ("receipt,0,1,0", "7,,,,"),
        ("checkpoint,0,,", "0,1,,,"),
        ("send,0,1,", "0,1,1,,"),
        ("checkpoint,0,,", "9,,,,"),
        ("send,0,1,", "9,,,,"),
        ("receipt,1,0,1", "0,1,1,2,2"),
        ("receipt,1,0,1", "8,,,,"),
        ("failed,4,,", "11,,,,"),
        ("line,1,,", "0,1,1,,"),
        ("line,2,,", "15,,,,"),
        ("fresh,2,2,", "99,,,,"),
        ("nothing", "99,,,,"),
        ("failed,0,,", "0,2,2,0,0"),
    ]);
    // A receipt that would force, with one record free.
    check_calls(&[
        ("fresh,2,2,", "0,,,,"),
        ("checkpoint,0,,", "0,1,,,"),
        ("send,0,1,", "0,1,1,,"),
        ("send,1,0,", "0,1,0,,"),
        ("receipt,1,0,1", "9,,,,"),
    ]);
    check_calls(&[("fresh,9,1,", "1")]);
    check_calls(&[("nothing", "99")]);
}

#[test]
fn an_answer_has_n_plus_3_fields_for_every_n() {
    for n in 1..=8 {
        let lines =
            [format!("fresh,{n},1,"), "failed,0,,".into(), "line,0,,".into(), "checkpoint,0,,".into()];
        let refused = [
            format!("checkpoint,{n},,"),
            format!("failed,{},,", 1 << n),
            "line,2,,".into(),
            "nothing".into(),
            "".into(),
        ];
        let commas = |count: usize| ",".repeat(count);
        let answers = [
            format!("0{}", commas(n + 2)),
            format!("0{}", ",0".repeat(n + 2)),
            format!("0{},,", ",0".repeat(n)),
            format!("0,1{}", commas(n + 1)),
            format!("5{}", commas(n + 2)),
            format!("11{}", commas(n + 2)),
            format!("15{}", commas(n + 2)),
            format!("99{}", commas(n + 2)),
            format!("99{}", commas(n + 2)),
        ];
        check(&ended(&[&lines[..], &refused].concat()), &ended(&answers));
    }
}

/// Each process takes the number of the one before it and goes on from there.
#[test]
fn numbers_up_to_four_digits_are_written_in_decimal() {
    let (mut input, mut answers) = (vec![String::from("fresh,8,256,")], vec![format!("0{}", ",".repeat(10))]);
    let mut add = |line: String, words: &[u32]| {
        let words: String = words.iter().map(|word| format!(",{word}")).collect();
        input.push(line);
        answers.push(format!("0{words}{}", ",".repeat(10 - words.matches(',').count())));
    };
    let mut number = 0;
    for p in 0..8 {
        if p > 0 {
            add(format!("receipt,{p},{},1", p - 1), &[number, 1, 256, 2]);
        }
        for _ in 0..if p == 0 { 255 } else { 253 } {
            number += 1;
            add(format!("checkpoint,{p},,"), &[number]);
        }
        if p < 7 {
            add(format!("send,{p},{},", p + 1), &[1, number]);
        }
    }
    assert_eq!(number, 2026);
    add(String::from("failed,0,,"), &[256, 256, 256, 256, 256, 256, 256, 255, 0, 0]);
    add(String::from("failed,128,,"), &[256, 256, 256, 256, 256, 256, 256, 255, 128, 1]);
    add(String::from("failed,1,,"), &[255, 1, 1, 1, 1, 1, 1, 1, 255, 8]);
    add(String::from("line,255,,"), &[255, 1, 1, 1, 1, 1, 1, 1]);
    // Process 0 has no such number.
    input.push(String::from("line,1000,,"));
    answers.push(format!("15{}", ",".repeat(10)));
    check(&ended(&input), &ended(&answers));
}

// ---- beside the reference

/// How many inputs are drawn.
const INPUTS: u64 = 4_000;

/// A first line: mostly fresh with these dimensions.
fn first_line(rng: &mut Rng, n: u32, e: u32) -> Vec<u8> {
    let any = Call::Fresh { n: rng.extreme(n, e), e: rng.extreme(n, e) };
    let wide = Call::Fresh { n: rng.below(18), e: rng.pick(&[0, 1, 256, 257, 1024]) };
    match rng.below(24) {
        0 => any.text().into_bytes(),
        1 => wide.text().into_bytes(),
        2 => rng.pick(UNREADABLE_FRESH).to_vec(),
        _ => Call::Fresh { n, e }.text().into_bytes(),
    }
}

/// A call as it can be written: now and then with leading zeros, which may be too many.
fn written(rng: &mut Rng, call: Call) -> Vec<u8> {
    let text = call.text();
    if !rng.one_in(8) {
        return text.into_bytes();
    }
    let mut padded = |field: &str| match field.parse::<u32>() {
        Ok(number) => format!("{number:0width$}", width = rng.pick(&[2, 9, 10, 10, 11, 12])),
        Err(_) => field.to_string(),
    };
    text.split(',').map(&mut padded).collect::<Vec<_>>().join(",").into_bytes()
}

/// A line that is no call, or is one that the program can't take here.
fn edge_line(rng: &mut Rng, n: u32, e: u32) -> Vec<u8> {
    let length = rng.pick(&[12, 70, 300]);
    let length = rng.below(length) as usize;
    match rng.below(8) {
        0 => Vec::new(),
        1 => rng.bytes(length),
        2 => vec![rng.pick(b"x,0\r\n"); length],
        3 => vec![rng.pick(b"x,0\r\n"); 60 + length % 12],
        4 => Call::Fresh { n: rng.extreme(n, e), e: rng.extreme(n, e) }.text().into_bytes(),
        5 => Call::Fresh { n, e }.text().into_bytes(),
        _ => rng.pick(UNREADABLE).to_vec(),
    }
}

/// The end of a line: now and then something else.
fn line_end(rng: &mut Rng) -> &'static [u8] {
    if rng.one_in(50) {
        rng.pick(&[b"\n" as &[u8], b"\r", b"", b"\r\r\n", b"\n\r", b"\n\r\n", b"\r\n\r\n", b"\r\n\n"])
    } else {
        END
    }
}

/// Changes some bytes: one is taken out, put in, replaced or written twice.
fn disturb(rng: &mut Rng, input: &mut Vec<u8>) {
    for _ in 0..1 + rng.below(4) {
        if input.is_empty() {
            return;
        }
        let at = rng.below(input.len() as u32) as usize;
        let any = rng.draw() as u8;
        let byte = rng.pick(&[any, b'\r', b'\n', b',', b'0', b'1', b'9', b' ', b'"', b'-', 0, 0x80]);
        match rng.below(4) {
            0 => drop(input.remove(at)),
            1 => input.insert(at, byte),
            2 => input[at] = byte,
            _ => input.insert(at, input[at]),
        }
    }
}

fn drawn_input(rng: &mut Rng) -> Vec<u8> {
    let (n, e) = (1 + rng.below(8), rng.pick(&[1, 2, 3, 4, 6, 10, 32, 100, 256]));
    let mut calls = Calls::new(n, e);
    let mut input = first_line(rng, n, e);
    input.extend(if rng.one_in(30) { line_end(rng) } else { END });
    let edges = rng.pick(&[6, 20, 1000]);
    for _ in 0..rng.below(3 * n * e + 8).min(120) {
        let line = if rng.one_in(edges) {
            edge_line(rng, n, e)
        } else {
            let call = calls.draw(rng);
            written(rng, call)
        };
        input.extend(line);
        input.extend(line_end(rng));
    }
    if rng.one_in(4) {
        disturb(rng, &mut input);
    }
    let length = input.len() as u32;
    match rng.below(8) {
        0 => input.truncate(rng.below(length + 1) as usize),
        1 | 2 => input.truncate(length.saturating_sub(1 + rng.below(4)) as usize),
        _ => {}
    }
    input
}

#[test]
fn drawn_inputs_beside_the_reference() {
    let seed = seed();
    let (mut lines, mut bytes, mut alone) = ([0u64; 100], 0, [0u64; 100]);
    let mut fields = [0u64; 12];
    for case in 0..INPUTS {
        let origin = Origin { test: "drawn inputs", seed, case };
        let input = drawn_input(&mut origin.rng());
        let output = String::from_utf8(check_beside(&input, origin)).unwrap();
        bytes += input.len();
        for line in output.split_terminator("\r\n") {
            let numbers: Vec<&str> = line.split(',').collect();
            let count = if numbers.len() == 1 { &mut alone } else { &mut lines };
            count[numbers[0].parse::<usize>().unwrap()] += 1;
            fields[numbers.len()] += 1;
        }
    }
    let met = |counts: &[u64]| {
        let places = counts.iter().enumerate().filter(|(_, &count)| count > 0);
        places.map(|(place, &count)| (place, count)).unzip::<usize, u64, Vec<_>, Vec<_>>()
    };
    println!("drawn inputs: {INPUTS} with CKPT_SEED={seed}, {bytes} bytes");
    println!("numbers returned {:?}, alone {:?}, fields {:?}", met(&lines), met(&alone), met(&fields));
    assert_eq!(met(&lines).0, [0, 5, 6, 7, 8, 9, 11, 15, 99]);
    assert_eq!(met(&alone).0, [1, 99]);
    assert_eq!(met(&fields).0, [1, 4, 5, 6, 7, 8, 9, 10, 11]);
}

// ---- longer than any buffer

#[test]
fn a_megabyte_of_calls_that_fill_the_largest_table() {
    let origin = Origin { test: "a megabyte of calls", seed: seed(), case: 0 };
    let mut input = texts::run(&mut origin.rng(), 8, 256, MEGABYTE);
    input.extend(b"failed,0,,\r\n");
    let output = String::from_utf8(check_beside(&input, origin)).unwrap();
    let lines: Vec<&str> = output.split_terminator("\r\n").collect();
    let with = |number: &str| lines.iter().filter(|line| line.starts_with(number)).count();
    println!("a megabyte of calls: {} accepted, {} without free records", with("0,"), with("9,"));
    assert!(with("0,") > 2_000 && with("9,") > 2_000 && with("99,") == 0);
    // No process is left with room for a receipt that forces.
    let counts = lines.last().unwrap().split(',').skip(1).take(8).map(|field| field.parse::<u32>().unwrap());
    assert!(counts.min() >= Some(255), "{:?}", lines.last());
}

#[test]
fn a_megabyte_of_line_ends() {
    check(&END.repeat(MEGABYTE / 2), b"99\r\n");
    let input = [b"fresh,1,1,\r\n".to_vec(), END.repeat(MEGABYTE / 2)].concat();
    check(&input, &[b"0,,,\r\n".to_vec(), b"99,,,\r\n".repeat(MEGABYTE / 2)].concat());
    let input = [b"fresh,1,1,\r\n".to_vec(), b"\r\r\n".repeat(MEGABYTE / 3)].concat();
    check(&input, &[b"0,,,\r\n".to_vec(), b"99,,,\r\n".repeat(MEGABYTE / 3)].concat());
}

#[test]
fn a_megabyte_without_a_line_end_is_one_line() {
    for piece in [b"x" as &[u8], b"\r", b"\n", b",", b"\n\n\r\rx", b"checkpoint,0,,\n", b"line,0,,\r"] {
        let filling = piece.repeat(MEGABYTE / piece.len());
        check(&filling, b"99\r\n");
        check(&[b"fresh,1,1,\r\n", filling.as_slice()].concat(), b"0,,,\r\n99,,,\r\n");
        let input = [b"fresh,1,1,\r\n", filling.as_slice(), b"\r\ncheckpoint,0,,"].concat();
        check(&input, b"0,,,\r\n99,,,\r\n0,1,,\r\n");
    }
    // The last CR and LF of a megabyte of CR end its line.
    let input = [b"fresh,1,1,\r\n", vec![b'\r'; MEGABYTE].as_slice(), b"\ncheckpoint,0,,\r\n"].concat();
    check(&input, b"0,,,\r\n99,,,\r\n0,1,,\r\n");
}

/// The lengths are odd, so that wherever a buffer of a power of two ends, it ends at each place of some line.
#[test]
fn lines_meet_the_end_of_a_buffer_at_each_of_their_bytes() {
    let long = [vec![b'x'; 66], b"\r\r\n".to_vec()].concat();
    let folder = Path::new(env!("CARGO_TARGET_TMPDIR"));
    for (name, pieces) in [
        ("short", [b"line,10,,\r\n" as &[u8], b"line,1x,,\r\n", b"failed,,,\r\n"]),
        ("long", [&long, &long, b"line,10,,\r\n"]),
    ] {
        let input =
            [b"fresh,1,1,\r\n".to_vec(), pieces.concat().repeat(MEGABYTE / pieces.concat().len())].concat();
        let expected = run_text(&input);
        assert_output(&input, &output_of(&input), &expected, format!("{name} lines from a pipe"));
        // From a file each read fills the buffer.
        let file = folder.join(format!("{name}_lines"));
        fs::write(&file, &input).unwrap();
        let from_file = Stdio::from(File::open(&file).unwrap());
        let output = Running::new(&mut Command::new(path()), from_file).finish().output();
        assert_output(&input, &output, &expected, format!("{name} lines from a file"));
    }
}

// ---- cut at every byte

/// 300 bytes with calls, an empty line, an overlong one, CR and LF apart, and a last line without CR LF.
const FILE: &[u8] = b"fresh,2,4,\r\n\
    checkpoint,0,,\r\n\
    send,0,1,\r\n\
    \r\n\
    receipt,1,0,1\r\n\
    line,1,,\n\r\n\
    failed,1,,\r\r\n\
    xxxxxxxxxxxxxxxxxxxxxxxxxxxxxxxxxxxxxxxxxxxxxxxxxxxxxxxxxxxxxxxxxx\r\n\
    fresh,1,1,\r\n\
    send,1,0,\rsend,1,0,\r\n\
    \n\r\r\n\
    failed,0000000002,,\r\n\
    line,4294967296,,\r\n\
    receipt,0,1,1\r\n\
    checkpoint,0,,\r\n\
    line,2,,";

const FILE_ANSWERS: &[u8] = b"0,,,,\r\n\
    0,1,,,\r\n\
    0,1,1,,\r\n\
    99,,,,\r\n\
    0,1,1,2,2\r\n\
    99,,,,\r\n\
    99,,,,\r\n\
    99,,,,\r\n\
    99,,,,\r\n\
    99,,,,\r\n\
    99,,,,\r\n\
    0,2,1,2,1\r\n\
    99,,,,\r\n\
    7,,,,\r\n\
    0,2,,,\r\n\
    15,,,,\r\n";

#[test]
fn every_prefix_of_a_file_is_an_input_of_its_own() {
    check(FILE, FILE_ANSWERS);
    for length in 0..FILE.len() {
        check_beside(&FILE[..length], format!("the first {length} bytes"));
    }
}

/// The program reads each part before the next one is written.
fn check_in_parts<'a>(parts: impl Iterator<Item = &'a [u8]>, note: impl std::fmt::Display) {
    let mut running = Running::start();
    for part in parts {
        running.write(part);
        running.wait_until_read();
    }
    assert_output(FILE, &running.finish().output(), FILE_ANSWERS, note);
}

#[test]
fn a_file_cut_in_two_at_any_byte_gives_the_same_output() {
    for place in 1..FILE.len() {
        let (first, second) = FILE.split_at(place);
        check_in_parts([first, second].into_iter(), format!("cut at byte {place}"));
    }
}

#[test]
fn a_file_written_in_small_parts_gives_the_same_output() {
    for length in [1, 2, 3, 5, 64, 65] {
        check_in_parts(FILE.chunks(length), format!("parts of {length} bytes"));
    }
}

// ---- reading and writing

#[test]
fn each_answer_comes_before_the_next_line_is_written() {
    let mut running = Running::start();
    for (line, answer) in
        LISTING.split_inclusive(|&b| b == b'\n').zip(LISTING_ANSWERS.split_inclusive(|&b| b == b'\n'))
    {
        running.write(line);
        running.expect(answer);
    }
    // Some lines at once, the last of them cut before its LF.
    running.write(b"line,0,,\r\n\r\nx\r\nline,1,,\r");
    running.expect(b"0,0,0,,\r\n99,,,,\r\n99,,,,\r\n");
    running.write(b"\nli");
    running.expect(b"0,1,1,,\r\n");
    running.write(b"ne,2,,");
    assert_output(LISTING, &running.finish().output(), b"15,,,,\r\n", "the last line without CR LF");
}

#[test]
fn the_program_ends_after_a_lone_number_though_its_input_stays_open() {
    for (line, answer) in [("nothing", "99"), ("", "99"), ("line,0,,", "99"), ("fresh,9,1,", "1")] {
        let mut running = Running::start();
        running.write(&ended(&[line]));
        assert_output(line.as_bytes(), &running.ended().output(), &ended(&[answer]), "input left open");
    }
}

const SIGPIPE: i32 = 13;

#[test]
fn the_program_ends_quietly_when_its_reader_goes_away() {
    // The signal of a closed pipe ends the program, or is ignored, so that each write fails.
    for line in ["exec \"$0\"", "trap '' PIPE; exec \"$0\""] {
        let mut running = Running::new(&mut under_sh(line), Stdio::piped());
        running.feed(|mut pipe| {
            let mut written = pipe.write_all(b"fresh,1,1,\r\n");
            // The input doesn't end before the program does.
            while written.is_ok() {
                written = pipe.write_all(&b"line,0,,\r\n".repeat(10_000));
            }
            assert_eq!(written.unwrap_err().kind(), ErrorKind::BrokenPipe);
        });
        running.expect(b"0,,,\r\n0,0,,\r\n");
        running.stop_reading();
        let outcome = running.finish();
        assert_output(line.as_bytes(), &outcome.errors, b"", "standard error");
        assert!(matches!(outcome.status.signal(), None | Some(SIGPIPE)), "{}", outcome.status);
    }
}

#[test]
fn an_input_that_cannot_be_read_gives_no_output() {
    let folder = Stdio::from(File::open(env!("CARGO_MANIFEST_DIR")).unwrap());
    let runs = [
        ("a folder", Running::new(&mut Command::new(path()), folder)),
        ("closed", Running::new(&mut under_sh("exec \"$0\" <&-"), Stdio::null())),
    ];
    for (input, running) in runs {
        let outcome = running.finish();
        assert_output(b"", &outcome.output, b"", input);
        assert_output(b"", &outcome.errors, b"", format!("{input}: standard error"));
        assert_eq!(outcome.status.signal(), None, "{input}");
    }
}

/// The program with 64 MB of address space, and a thread that feeds it.
fn in_little_memory(write: impl FnOnce(&mut dyn Write) -> std::io::Result<()> + Send + 'static) -> Running {
    let mut running = Running::new(&mut under_sh("ulimit -v 65536 && exec \"$0\""), Stdio::piped());
    running.feed(move |mut pipe| drop(write(&mut pipe)));
    running
}

#[test]
fn sixty_four_megabytes_of_lines_pass_through_less_memory() {
    let head = b"fresh,1,1,\r\ncheckpoint,0,,\r\n";
    // From here on no call changes the table, so that each block has the same answers.
    let lines: [&[u8]; 8] =
        [b"line,1,,", b"failed,1,,", b"checkpoint,0,,", b"", b"failed,2,,", b"", b"nothing", b"fresh,1,1,"];
    let long = vec![b'x'; 20_000];
    let block = [ended(&lines).repeat(400), ended(&[&long]), END.repeat(6_000)].concat();
    let times = 64 * MEGABYTE / block.len() + 1;
    let first = run_text(head);
    let answers = run_text(&[head, block.as_slice()].concat()).split_off(first.len());
    assert!(times * answers.len() > 64 * MEGABYTE);
    let mut running = in_little_memory(move |pipe| {
        pipe.write_all(head)?;
        (0..times).try_for_each(|_| pipe.write_all(&block))
    });
    running.expect(&first);
    for _ in 0..times {
        running.expect(&answers);
    }
    assert_output(b"", &running.finish().output(), b"", "after the last block");
}

#[test]
fn a_line_of_sixty_four_megabytes_passes_through_less_memory() {
    let running = in_little_memory(|pipe| {
        pipe.write_all(b"fresh,1,1,\r\n")?;
        (0..64).try_for_each(|_| pipe.write_all(&[b'x'; MEGABYTE]))?;
        pipe.write_all(b"\r\ncheckpoint,0,,\r\n")
    });
    assert_output(b"", &running.finish().output(), b"0,,,\r\n99,,,\r\n0,1,,\r\n", "one line");
}
