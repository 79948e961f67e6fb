//! The fuzzer's cases for its host in C (tests/c/fuzz.c): drawn and compared with the reference engine here, while the
//! host lends the bytes and makes the calls.
use beside::drawn::{mixed, run_case, Tally};
use beside::Origin;
use cases::calls::CALLS;
use cases::Call;
use std::panic::catch_unwind;
use std::sync::{LazyLock, Mutex};

/// Bytes that are lent, as the host has them.
#[repr(C)]
struct Bytes {
    start: *mut u8,
    length: usize,
}

extern "C" {
    /// The host's: makes the call at this place in CALLS, with these numbers, on copies of these bytes, and copies back
    /// what the call left.
    fn fuzz_call(place: u32, numbers: *const u32, lent: *const Bytes, count: usize) -> u32;
}

static TALLY: LazyLock<Mutex<Tally>> = LazyLock::new(Mutex::default);

/// The call as the host makes it.
fn on_host(call: Call, lent: &mut [&mut [u8]]) -> u32 {
    let numbers = call.parts().1.map(Option::unwrap_or_default);
    let bytes = |lent: &mut &mut [u8]| Bytes { start: lent.as_mut_ptr(), length: lent.len() };
    let lent: Vec<Bytes> = lent.iter_mut().map(bytes).collect();
    unsafe { fuzz_call(call.place() as u32, numbers.as_ptr(), lent.as_ptr(), lent.len()) }
}

/// Runs one case and counts its calls. False where the engines disagree; the panic has then printed how.
#[no_mangle]
pub extern "C" fn fuzz_case(seed: u64, case: u64) -> bool {
    let origin = Origin { test: "fuzz", seed, case };
    catch_unwind(|| run_case(on_host, origin, mixed, &mut TALLY.lock().unwrap())).is_ok()
}

/// Prints how often each call returned each number. False where a call was never accepted, or never refused, where no line
/// lacked a saved state, where the audit never said 0, or never 1, or where no process got one of the grounds.
#[no_mangle]
pub extern "C" fn fuzz_tally() -> bool {
    let tally = TALLY.lock().unwrap();
    println!("{tally}");
    let tried = |name| tally.met(name).contains(&0) && tally.met(name).len() > 1;
    let mut answers = tally.verdicts.iter().chain(&tally.grounds);
    let unsaved = tally.count("line", 15);
    CALLS.iter().all(|call| tried(call.name)) && answers.all(|&count| count > 0) && unsaved > 0
}
