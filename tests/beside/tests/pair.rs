//! The comparison itself: an engine that goes wrong in one way is found, and for its own reason.
use beside::{on_proved, Engine, Origin, Pair};
use cases::{from_records, table::checkpoint, table_length, Call};
use std::panic::catch_unwind;

/// A call and the areas that it is lent.
type Asked<'a> = (Call, &'a [&'a [u8]]);

/// The call on a small table. Answers how the comparison fails.
fn failure(engine: Engine, (call, areas): Asked) -> Option<String> {
    let made = || {
        let origin = Origin { test: "wrong engines", seed: 0, case: 0 };
        let table = from_records(2, &[vec![checkpoint(1)], vec![]]);
        Pair::on(engine, &table, origin).call_on(call, areas)
    };
    catch_unwind(made).err().map(|panic| *panic.downcast::<String>().expect("a message"))
}

/// Writes the byte behind these, as only a foreign engine can.
fn write_behind(bytes: &mut [u8]) {
    unsafe { bytes.as_mut_ptr().add(bytes.len()).write_volatile(0) }
}

fn wrong_number(call: Call, lent: &mut [&mut [u8]]) -> u32 {
    on_proved(call, lent) + 1
}

fn writes_table(call: Call, lent: &mut [&mut [u8]]) -> u32 {
    let returned = on_proved(call, lent);
    *lent[0].last_mut().unwrap() ^= 1;
    returned
}

fn writes_area(call: Call, lent: &mut [&mut [u8]]) -> u32 {
    let returned = on_proved(call, lent);
    *lent[1].last_mut().unwrap() ^= 1;
    returned
}

fn writes_behind_table(call: Call, lent: &mut [&mut [u8]]) -> u32 {
    write_behind(lent[0]);
    on_proved(call, lent)
}

fn writes_behind_area(call: Call, lent: &mut [&mut [u8]]) -> u32 {
    write_behind(lent[1]);
    on_proved(call, lent)
}

/// Positions or a scratch.
fn writes_further(call: Call, lent: &mut [&mut [u8]]) -> u32 {
    let returned = on_proved(call, lent);
    *lent[2].last_mut().unwrap() ^= 1;
    returned
}

fn writes_behind_further(call: Call, lent: &mut [&mut [u8]]) -> u32 {
    write_behind(lent[2]);
    on_proved(call, lent)
}

/// An audit that reads its scratch before it writes it.
fn reads_scratch(call: Call, lent: &mut [&mut [u8]]) -> u32 {
    let held = lent[2][0];
    let returned = on_proved(call, lent);
    lent[1][3] ^= held & 1;
    returned
}

#[test]
fn wrong_engines_are_found() {
    const LENGTH: usize = table_length(2, 2);
    let line: Asked = (Call::Line { number: 0 }, &[&[0xEE; 8]]);
    let unsaved: Asked = (Call::Line { number: 1 }, &[&[0xEE; 8]]);
    let grounds: Asked = (Call::Grounds { mask: 2 }, &[&[0xEE; 16]]);
    let unmasked: Asked = (Call::Grounds { mask: 4 }, &[&[0xEE; 16]]);
    // Resend needs the first four bytes of its area; the last one is to stay.
    let resend: Asked = (Call::Resend, &[&[0xEE; 8], &[0; 8]]);
    let audit: Asked = (Call::Audit, &[&[0xEE; 4], &[0xEF; LENGTH]]);
    let refused: Asked = (Call::Audit, &[&[0xEE; 4], &[0xEF; LENGTH - 1]]);
    let wrong: [(Engine, Asked, &str); 25] = [
        (wrong_number, line, "the engines differ in the number returned\n"),
        (writes_table, line, "the engines differ in the table\n"),
        (writes_area, line, "the engines differ in the area\n"),
        (writes_behind_table, line, "bytes changed around the table\n"),
        (writes_behind_area, line, "bytes changed around the area\n"),
        (wrong_number, unsaved, "the engines differ in the number returned\n"),
        (writes_area, unsaved, "the engines differ in the area\n"),
        (wrong_number, grounds, "the engines differ in the number returned\n"),
        (writes_table, grounds, "the engines differ in the table\n"),
        (writes_area, grounds, "the engines differ in the area\n"),
        (writes_behind_area, grounds, "bytes changed around the area\n"),
        (writes_area, unmasked, "the engines differ in the area\n"),
        (writes_area, resend, "the engines differ in the area\n"),
        (writes_behind_area, resend, "bytes changed around the area\n"),
        (writes_further, resend, "the engines differ in the positions\n"),
        (writes_behind_further, resend, "bytes changed around the positions\n"),
        (wrong_number, audit, "the engines differ in the number returned\n"),
        (writes_table, audit, "the engines differ in the table\n"),
        (writes_area, audit, "the engines differ in the area\n"),
        (reads_scratch, audit, "the engines differ in the area\n"),
        (writes_behind_table, audit, "bytes changed around the table\n"),
        (writes_behind_area, audit, "bytes changed around the area\n"),
        (writes_behind_further, audit, "bytes changed around the scratch\n"),
        (writes_area, refused, "the engines differ in the area\n"),
        (writes_further, refused, "the engines differ in the scratch\n"),
    ];
    for call in [line, unsaved, grounds, unmasked, resend, audit, refused] {
        assert_eq!(failure(on_proved, call), None, "{call:?}");
    }
    // What the scratch holds after an accepted audit is left open.
    assert_eq!(failure(writes_further, audit), None);
    for (engine, call, reason) in wrong {
        let message = failure(engine, call).unwrap_or_default();
        assert!(message.starts_with(reason), "not {reason:?} but {message:?}");
    }
}
