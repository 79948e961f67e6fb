//! Times the text program beside the reference on a megabyte of calls: `cargo run --release -p beside --bin text_time`.
//! The calls are for the largest table that the program takes; they fill it and go on.
use beside::program::{assert_output, path};
use beside::{seed, texts, Origin};
use reference::run_text;
use std::env;
use std::fs::{self, File};
use std::io::Read;
use std::path::Path;
use std::process::{Command, Stdio};
use std::time::{Duration, Instant};

const N: u32 = 8;
const E: u32 = 256;
const BYTES: usize = 1 << 20;
const ROUNDS: usize = 7;

/// What the program writes for the file, and how long that takes from its start to its end.
fn timed_program(file: &Path) -> (Vec<u8>, Duration) {
    let input = File::open(file).unwrap();
    let start = Instant::now();
    let mut child = Command::new(path()).stdin(input).stdout(Stdio::piped()).spawn().unwrap();
    let mut output = Vec::new();
    child.stdout.take().unwrap().read_to_end(&mut output).unwrap();
    let status = child.wait().unwrap();
    let time = start.elapsed();
    assert!(status.success(), "{status}");
    (output, time)
}

fn timed_reference(input: &[u8]) -> (Vec<u8>, Duration) {
    let start = Instant::now();
    let output = run_text(input);
    (output, start.elapsed())
}

/// In milliseconds.
fn median(mut times: Vec<Duration>) -> f64 {
    times.sort();
    times[times.len() / 2].as_secs_f64() * 1000.0
}

fn main() {
    let origin = Origin { test: "text_time", seed: seed(), case: 0 };
    let input = texts::run(&mut origin.rng(), N, E, BYTES);
    let lines = input.iter().filter(|&&byte| byte == b'\n').count();
    let file = env::current_exe().unwrap().with_file_name("text_time.input");
    fs::write(&file, &input).unwrap();
    let (mut program, mut reference) = (Vec::new(), Vec::new());
    for _ in 0..ROUNDS {
        let (output, time) = timed_program(&file);
        program.push(time);
        let (expected, time) = timed_reference(&input);
        reference.push(time);
        assert_output(&input, &output, &expected, origin);
    }
    fs::remove_file(&file).unwrap();
    let (program, reference) = (median(program), median(reference));
    let ratio = program / reference;
    println!(
        "n = {N}, E = {E}, {} bytes, {lines} calls, medians of {ROUNDS}: program {program:.1} ms, run_text {reference:.1} ms, ratio {ratio:.3}",
        input.len()
    );
}
