//! The text program as a process. Threads feed its input and take its output, so that neither side waits for the
//! other for ever, and every run has a time limit.
use std::env;
use std::ffi::{c_int, c_ulong};
use std::fmt;
use std::io::{Read, Write};
use std::os::fd::AsRawFd;
use std::path::PathBuf;
use std::process::{Child, ChildStdin, Command, ExitStatus, Stdio};
use std::sync::mpsc::{self, Receiver, RecvTimeoutError};
use std::thread;
use std::time::{Duration, Instant};

/// A run that takes longer is ended and fails.
pub const LIMIT: Duration = Duration::from_secs(60);

/// More output than this fails: no test asks for as much at once.
const MOST: usize = 1 << 26;

const FIONREAD: c_ulong = 0x541B;

extern "C" {
    fn ioctl(file: c_int, request: c_ulong, ...) -> c_int;
}

/// The program under test: the one that this repository makes, or that in CKPT_PROGRAM.
pub fn path() -> PathBuf {
    let made = || PathBuf::from(env!("CARGO_MANIFEST_DIR")).join("../../target/bin/ckpt");
    let path = env::var_os("CKPT_PROGRAM").map_or_else(made, PathBuf::from);
    assert!(path.is_file(), "{} is missing: run `make program` first", path.display());
    path
}

/// The program, started by a line of sh that ends in `exec "$0"`.
pub fn under_sh(line: &str) -> Command {
    let mut command = Command::new("sh");
    command.arg("-c").arg(line).arg(path());
    command
}

/// What a run wrote, and how it ended.
pub struct Outcome {
    pub output: Vec<u8>,
    pub errors: Vec<u8>,
    pub status: ExitStatus,
}

impl Outcome {
    /// The output of a run that must have ended well, with nothing on standard error.
    pub fn output(self) -> Vec<u8> {
        assert_eq!(Shown(&self.errors), Shown(b""), "standard error");
        assert!(self.status.success(), "{}", self.status);
        self.output
    }
}

/// A run that is under way. It is ended when this is dropped.
pub struct Running {
    child: Child,
    input: Option<ChildStdin>,
    output: Option<Receiver<Vec<u8>>>,
    errors: Receiver<Vec<u8>>,
    /// Output that was taken and not looked at yet.
    ahead: Vec<u8>,
    end: Instant,
}

/// What comes from a pipe, chunk by chunk. The pipe is closed some time after the receiver is dropped.
fn taken(mut pipe: impl Read + Send + 'static) -> Receiver<Vec<u8>> {
    let (sender, receiver) = mpsc::sync_channel(16);
    thread::spawn(move || {
        let mut chunk = vec![0; 1 << 16];
        while let Ok(length @ 1..) = pipe.read(&mut chunk) {
            if sender.send(chunk[..length].to_vec()).is_err() {
                return;
            }
        }
    });
    receiver
}

impl Running {
    pub fn new(command: &mut Command, input: Stdio) -> Running {
        let command = command.stdin(input).stdout(Stdio::piped()).stderr(Stdio::piped());
        let mut child = command.spawn().unwrap_or_else(|error| panic!("{command:?}: {error}"));
        let input = child.stdin.take();
        let output = Some(taken(child.stdout.take().unwrap()));
        let errors = taken(child.stderr.take().unwrap());
        Running { child, input, output, errors, ahead: Vec::new(), end: Instant::now() + LIMIT }
    }

    /// The program with a pipe as its input.
    pub fn start() -> Running {
        Running::new(&mut Command::new(path()), Stdio::piped())
    }

    /// Gives the input to a thread. A program that ends early closes the pipe, so a failed write is no fault.
    pub fn feed(&mut self, write: impl FnOnce(ChildStdin) + Send + 'static) {
        let input = self.input.take().unwrap();
        thread::spawn(move || write(input));
    }

    /// Writes a few bytes, of which the pipe has room for 65,536.
    pub fn write(&mut self, bytes: &[u8]) {
        let written = self.input.as_mut().unwrap().write_all(bytes);
        assert!(written.is_ok(), "the program closed its input before {}", Shown(bytes));
    }

    /// Waits until the program has read all that was written.
    pub fn wait_until_read(&mut self) {
        let file = self.input.as_ref().unwrap().as_raw_fd();
        loop {
            let mut left: c_int = -1;
            // The call writes one int, and the file is open as long as `input` is there.
            let status = unsafe { ioctl(file, FIONREAD, &mut left as *mut c_int) };
            assert!(status == 0 && left >= 0, "the pipe doesn't tell how much is in it");
            if left == 0 {
                return;
            }
            assert!(
                self.child.try_wait().unwrap().is_none(),
                "the program ended and left {left} bytes unread"
            );
            assert!(Instant::now() < self.end, "the program left {left} bytes unread for {LIMIT:?}");
            thread::sleep(Duration::from_micros(20));
        }
    }

    /// Output that isn't looked at yet, or nothing at its end.
    fn next(&mut self) -> Option<Vec<u8>> {
        if !self.ahead.is_empty() {
            return Some(std::mem::take(&mut self.ahead));
        }
        let left = self.end.saturating_duration_since(Instant::now());
        match self.output.as_ref().unwrap().recv_timeout(left) {
            Ok(chunk) => Some(chunk),
            Err(RecvTimeoutError::Disconnected) => None,
            Err(RecvTimeoutError::Timeout) => panic!("the output didn't come or end within {LIMIT:?}"),
        }
    }

    /// The next bytes of the output must be these.
    pub fn expect(&mut self, expected: &[u8]) {
        let mut left = expected;
        while !left.is_empty() {
            let Some(mut chunk) = self.next() else {
                panic!("the output ended before {}", Shown(left));
            };
            self.ahead = chunk.split_off(chunk.len().min(left.len()));
            let (now, later) = left.split_at(chunk.len());
            assert!(chunk == now, "{}", Difference(&chunk, now));
            left = later;
        }
    }

    /// Closes the reader's end of the output.
    pub fn stop_reading(&mut self) {
        self.output = None;
    }

    /// Ends the input where it isn't fed, takes the rest of the output and waits for the program to end.
    pub fn finish(mut self) -> Outcome {
        self.input = None;
        self.ended()
    }

    /// The same with the input left open.
    pub fn ended(mut self) -> Outcome {
        let mut output = Vec::new();
        while self.output.is_some() {
            match self.next() {
                Some(chunk) => output.extend(chunk),
                None => self.output = None,
            }
            assert!(output.len() <= MOST, "more than {MOST} bytes of output");
        }
        let status = loop {
            if let Some(status) = self.child.try_wait().unwrap() {
                break status;
            }
            assert!(Instant::now() < self.end, "the program didn't end within {LIMIT:?}");
            thread::sleep(Duration::from_micros(50));
        };
        let errors = self.errors.iter().flatten().collect();
        Outcome { output, errors, status }
    }
}

impl Drop for Running {
    fn drop(&mut self) {
        // Both fail where it has ended already, which is as well.
        let _ = self.child.kill();
        let _ = self.child.wait();
    }
}

/// What the program writes for this input. It must end well.
pub fn output_of(input: &[u8]) -> Vec<u8> {
    let mut running = Running::start();
    let bytes = input.to_vec();
    running.feed(move |mut pipe| drop(pipe.write_all(&bytes)));
    running.finish().output()
}

/// Fails where the program wrote something else for this input.
pub fn assert_output(input: &[u8], output: &[u8], expected: &[u8], note: impl fmt::Display) {
    assert!(output == expected, "{note}\n  input {}\n  {}", Shown(input), Difference(output, expected));
}

/// Bytes in a message; of many only the first.
#[derive(PartialEq)]
pub struct Shown<'a>(pub &'a [u8]);

impl fmt::Display for Shown<'_> {
    fn fmt(&self, f: &mut fmt::Formatter) -> fmt::Result {
        let length = self.0.len();
        let text = |bytes: &[u8]| bytes.escape_ascii().to_string();
        match length {
            0..=2000 => write!(f, "\"{}\"", text(self.0)),
            _ => write!(f, "\"{}\" and so on, {length} bytes", text(&self.0[..200])),
        }
    }
}

impl fmt::Debug for Shown<'_> {
    fn fmt(&self, f: &mut fmt::Formatter) -> fmt::Result {
        write!(f, "{self}")
    }
}

/// Where an output differs from the one that is expected.
struct Difference<'a>(&'a [u8], &'a [u8]);

impl fmt::Display for Difference<'_> {
    fn fmt(&self, f: &mut fmt::Formatter) -> fmt::Result {
        let Difference(output, expected) = self;
        let same = output.iter().zip(*expected).take_while(|(a, b)| a == b).count();
        let from = same.saturating_sub(40);
        let (output, expected) = (Shown(&output[from..]), Shown(&expected[from..]));
        write!(f, "from byte {from}, first different at {same}:\n  output   {output}\n  expected {expected}")
    }
}
