//! include/ckpt.h declares the calls, and lists with each the numbers that it can return, in the order in which it checks.
use cases::calls::{numbers, Sort, CALLS};

const HEADER: &str = include_str!("../../../include/ckpt.h");

/// The header's names for the numbers from 0 on, by number.
fn names() -> Vec<&'static str> {
    let defined = |line: &'static str| {
        let mut words = line.strip_prefix("#define ")?.split_whitespace();
        let (name, value) = (words.next()?, words.next()?.strip_suffix('u')?);
        let returned = !name.starts_with("CKPT_MAX_") && !name.starts_with("CKPT_GROUND_");
        returned.then_some((value.parse::<u32>().ok()?, name))
    };
    let (named, names): (Vec<_>, Vec<_>) = HEADER.lines().filter_map(defined).unzip();
    assert!(named.iter().copied().eq(0..names.len() as u32), "{named:?}");
    assert!(numbers().iter().eq(&named), "{named:?}");
    names
}

/// The calls that the header declares.
fn declared() -> Vec<&'static str> {
    let call = |line: &'static str| Some(line.strip_prefix("uint32_t ckpt_")?.split_once('(')?.0);
    HEADER.lines().filter_map(call).collect()
}

/// The names that the comment before a call lists.
fn listed(call: &str) -> Vec<&'static str> {
    let (before, _) =
        HEADER.split_once(&format!("\nuint32_t ckpt_{call}(")).expect("the header declares the call");
    let (_, list) = before.rsplit_once("Returns ").expect("the comment lists the numbers");
    let list = list.strip_suffix(". */").expect("the list ends the comment");
    list.split(',').map(str::trim).collect()
}

/// The numbers that a call can return, each where it is checked first, and 0 last.
fn in_order(call: &Sort) -> Vec<u32> {
    let mut numbers = Vec::new();
    for &number in call.rows.iter().chain(&[0]) {
        if !numbers.contains(&number) {
            numbers.push(number);
        }
    }
    numbers
}

#[test]
fn the_header_lists_every_number_that_a_call_returns() {
    let names = names();
    assert_eq!(declared(), CALLS.iter().map(|call| call.name).collect::<Vec<_>>());
    for call in CALLS {
        let returned: Vec<_> = in_order(call).iter().map(|&number| names[number as usize]).collect();
        assert_eq!(listed(call.name), returned, "{}", call.name);
    }
}
