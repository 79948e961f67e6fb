//! What stands where in a table: document 01, "The table", and document 02's slip 3, the fourth word of a record. Only
//! here is it counted.

/// Words of a table before its sections: n and E.
pub const HEAD: usize = 2;
/// Words of a section before its records, and which they are.
pub const HEADING: usize = 3;
pub const COUNT: usize = 0;
pub const NUMBER: usize = 1;
pub const SENDS: usize = 2;
/// Words of a record, and which they are.
pub const WIDTH: usize = 4;
pub const KIND: usize = 0;
pub const A: usize = 1;
pub const B: usize = 2;
pub const CARRIED: usize = 3;

pub type Record = [u32; WIDTH];

/// The kinds.
pub const CHECKPOINT: u32 = 1;
pub const FORCED: u32 = 2;
pub const SEND: u32 = 3;
pub const RECEIPT: u32 = 4;

pub const fn checkpoint(number: u32) -> Record {
    [CHECKPOINT, number, 0, 0]
}

pub const fn forced(number: u32) -> Record {
    [FORCED, number, 0, 0]
}

pub const fn send(to: u32, k: u32, carried: u32) -> Record {
    [SEND, to, k, carried]
}

pub const fn receipt(from: u32, k: u32, carried: u32) -> Record {
    [RECEIPT, from, k, carried]
}

pub fn is_checkpoint(record: &Record) -> bool {
    matches!(record[KIND], CHECKPOINT | FORCED)
}

/// Whether the record is send k and goes to p.
pub fn is_send(record: &Record, p: u32, k: u32) -> bool {
    (record[KIND], record[A], record[B]) == (SEND, p, k)
}

/// The number of the last checkpoint among these records, 0 if there is none.
pub fn number_of(records: &[Record]) -> u32 {
    records.iter().rev().find(|r| is_checkpoint(r)).map_or(0, |r| r[A])
}

/// The word at which the section of process p begins, or the table ends where p is n.
pub const fn section(e: u32, p: u32) -> usize {
    HEAD + p as usize * (HEADING + WIDTH * e as usize)
}

/// The word at which record i of process p begins, the first being 0.
pub const fn record(e: u32, p: u32, i: u32) -> usize {
    section(e, p) + HEADING + WIDTH * i as usize
}

pub const fn table_length(n: u32, e: u32) -> usize {
    4 * section(e, n)
}

/// The length by document 01, which slip 3 made longer: a record had three words.
pub const fn old_table_length(n: u32, e: u32) -> usize {
    8 + 12 * n as usize * (e as usize + 1)
}

pub fn from_words(words: &[u32]) -> Vec<u8> {
    words.iter().flat_map(|w| w.to_be_bytes()).collect()
}

/// The whole words of the bytes; a remainder under four bytes is left out.
pub fn to_words(bytes: &[u8]) -> Vec<u32> {
    bytes.chunks_exact(4).map(|w| u32::from_be_bytes([w[0], w[1], w[2], w[3]])).collect()
}

/// The used records of each section of a well laid table.
pub fn records(table: &[u8]) -> Vec<Vec<Record>> {
    let words = to_words(table);
    let (n, e) = (words[0], words[1]);
    let used = |p: u32| {
        let records = words[record(e, p, 0)..section(e, p + 1)].chunks_exact(WIDTH);
        let count = words[section(e, p) + COUNT] as usize;
        records.take(count).map(|r| r.try_into().unwrap()).collect()
    };
    (0..n).map(used).collect()
}

/// The words of the well laid table of these records, E for each process.
pub fn words_of_records(e: u32, sections: &[Vec<Record>]) -> Vec<u32> {
    let mut words = vec![sections.len() as u32, e];
    for (p, records) in sections.iter().enumerate() {
        let sends = records.iter().filter(|r| r[KIND] == SEND).count();
        words.extend([records.len() as u32, number_of(records), sends as u32]);
        words.extend(records.iter().flatten());
        words.resize(section(e, p as u32 + 1), 0);
    }
    words
}

/// The well laid table of these records: the inverse of `records`.
pub fn from_records(e: u32, sections: &[Vec<Record>]) -> Vec<u8> {
    from_words(&words_of_records(e, sections))
}

/// The words of a table, some of them changed: by place, then value.
pub fn changed(words: &[u32], changes: &[(usize, u32)]) -> Vec<u32> {
    let mut words = words.to_vec();
    for &(place, value) in changes {
        words[place] = value;
    }
    words
}
