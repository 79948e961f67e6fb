//! One call of each kind, the worked controller, and tables, most of which no run makes, chosen for the rows that calls on
//! them meet and for what they answer.
use crate::table::{
    checkpoint, forced, from_records, from_words, receipt, section, send, words_of_records, Record, COUNT,
    WIDTH,
};
use crate::Call;

/// One call of each kind but fresh.
pub const ONE_OF_EACH: [Call; 8] = [
    Call::Checkpoint { p: 0 },
    Call::Send { p: 0, q: 1 },
    Call::Receipt { p: 0, q: 1, k: 1 },
    Call::Line { number: 0 },
    Call::Failed { mask: 0 },
    Call::Grounds { mask: 0 },
    Call::Resend,
    Call::Audit,
];

/// Document 01's worked controller, n = 3, E = 6: the steps after fresh.
pub const WORKED: [Call; 7] = [
    Call::Checkpoint { p: 0 },
    Call::Send { p: 0, q: 1 },
    Call::Send { p: 1, q: 2 },
    Call::Receipt { p: 1, q: 0, k: 1 },
    Call::Send { p: 1, q: 2 },
    Call::Receipt { p: 2, q: 1, k: 2 },
    Call::Receipt { p: 2, q: 1, k: 1 },
];

/// The grounds of its failure lines for masks 0, 1, ..: document 02's slip 7.
pub const WORKED_GROUNDS: [[u32; 6]; 8] = [
    [0, 0, 0, 0, 0, 0],
    [1, 0, 2, 3, 2, 2], // P5: process 1 lost (0, 1), then process 2 (1, 2)
    [0, 0, 1, 0, 2, 2],
    [1, 0, 1, 0, 2, 2],
    [0, 0, 0, 0, 1, 0],
    [1, 0, 2, 3, 1, 0],
    [0, 0, 1, 0, 1, 0],
    [1, 0, 1, 0, 1, 0],
];

/// n = 2, E = 4: the first count is 5, and the next section's heading, with the kind behind it, would pass for the fifth
/// record, a receipt.
pub fn count_into_next_section() -> Vec<u32> {
    let second = vec![checkpoint(1), send(0, 1, 1), send(0, 2, 1), send(0, 3, 1)];
    let mut words = words_of_records(4, &[vec![forced(1); 4], second]);
    words[section(4, 0) + COUNT] = 5;
    assert_eq!(words[section(4, 1)..][..WIDTH], receipt(1, 3, 1));
    words
}

/// Tables of these records that rows 2, 1, 2 and 3 stop, most of them met with the rows of the table that come after; then the
/// number that is returned.
pub fn bad_tables(e: u32, sections: &[Vec<Record>]) -> Vec<(Vec<u8>, u32)> {
    let mut words = words_of_records(e, sections);
    words[section(e, 0) + COUNT] = e + 1;
    let laid_badly = from_words(&words);
    words[0] = 17;
    let dimensions = from_words(&words);
    let shorter = |table: &[u8]| table[..table.len() - 1].to_vec();
    let longer = |table: &[u8]| [table, &[0]].concat();
    vec![
        (dimensions[..7].to_vec(), 2),
        (dimensions.clone(), 1),
        (shorter(&dimensions), 1),
        (longer(&dimensions), 1),
        (shorter(&laid_badly), 2),
        (longer(&laid_badly), 2),
        (laid_badly, 3),
    ]
}

/// n = 3, E = 4. Process 0 has no record free and the number 12 = n × E. Its receipts of (1, 2) and (1, 4) are of a
/// send to another process and of one that isn't there.
pub fn full() -> [Vec<Record>; 3] {
    [
        vec![checkpoint(12), receipt(1, 1, 0), receipt(1, 2, 1), receipt(1, 4, 1)],
        vec![send(0, 1, 0), send(2, 2, 0), checkpoint(2), send(0, 3, 2)],
        vec![],
    ]
}

/// The same with the last record of process 0 unused and this number at process 0: 12 meets row 10, 1 is under the
/// number that (1, 3) carries.
pub fn one_free_at(number: u32) -> Vec<u8> {
    let mut sections = full();
    sections[0].pop();
    sections[0][0] = checkpoint(number);
    from_records(4, &sections)
}

/// n = 3, E = 4. Process 1 has got (0, 3), twice, but neither (0, 1), which (0, 3) overtook and process 2 has a receipt of,
/// nor (0, 2), which went to process 2. So at the counts (0, 1) and (0, 2) are in transit.
pub fn crossed() -> [Vec<Record>; 3] {
    [
        vec![send(1, 1, 0), send(2, 2, 0), send(1, 3, 0), receipt(1, 1, 0)],
        vec![receipt(0, 3, 0), receipt(0, 2, 0), send(2, 1, 0), receipt(0, 3, 0)],
        vec![receipt(0, 1, 0), receipt(1, 1, 0)],
    ]
}

/// n = 2, E = 3: tables of no run with a checkpoint of no use, that of process 0, between a receipt and a send.
pub fn idle_saves() -> [[Vec<Record>; 2]; 3] {
    let first = [receipt(1, 1, 0), checkpoint(1), send(1, 1, 1)];
    let second = [
        // What process 0 has received was sent after what it sends was received. The receipt carried less than its send: what the
        // send has would be above its own process's number.
        [receipt(0, 1, 0), send(0, 1, 0)].to_vec(),
        // The same, with the number that was carried, and a forced checkpoint where it is due.
        [forced(1), receipt(0, 1, 1), send(0, 1, 1)].to_vec(),
        // As an engine leaves it that saves after the receipt, but for what the receipt carried.
        [send(0, 1, 0), receipt(0, 1, 0), forced(1)].to_vec(),
    ];
    second.map(|second| [first.to_vec(), second])
}

/// A table and what is answered on it where 0, 1, .. is asked for.
pub struct Answered {
    pub table: Vec<u8>,
    pub stated: Vec<Vec<u32>>,
}

impl Answered {
    fn on<const N: usize, const WORDS: usize, const ASKED: usize>(
        e: u32,
        sections: [&[Record]; N],
        stated: [[u32; WORDS]; ASKED],
    ) -> Answered {
        let table = from_records(e, &sections.map(|section| section.to_vec()));
        Answered { table, stated: stated.map(|words| words.to_vec()).to_vec() }
    }
}

/// E = 6: tables with their numbered lines, of which no further one is answered.
pub fn lined() -> [Answered; 7] {
    [
        // The numbers fall: 5, then 2, which is the process's number. The first of 2 or more is the 5 still.
        Answered::on(6, [&[checkpoint(5), forced(2)]], [[0], [1], [1], [1], [1], [1]]),
        // They rise and fall behind other records. The largest number counts, wherever it stands.
        Answered::on(
            6,
            [
                &[send(1, 1, 0), checkpoint(1), forced(4), checkpoint(0)],
                &[receipt(0, 1, 0), forced(3), receipt(0, 1, 3), checkpoint(3), checkpoint(6), checkpoint(2)],
            ],
            [[0, 0], [2, 2], [3, 2], [3, 2], [3, 5]],
        ),
        // A checkpoint numbered 0 has the number of the initial one, which comes first.
        Answered::on(6, [&[checkpoint(0)], &[forced(0), checkpoint(1)]], [[0, 0]]),
        // Numbers are skipped.
        Answered::on(6, [&[checkpoint(3)], &[send(0, 1, 0), forced(7)]], [[0, 0], [1, 2], [1, 2], [1, 2]]),
        // What a process has sent and received is no saved state.
        Answered::on(6, [&[checkpoint(1)], &[send(0, 1, 0), receipt(0, 1, 0)]], [[0, 0]]),
        // Process 1 has saved with 1 at most. The last has saved with 18, which is n × E, and has the number 1 now.
        Answered::on(
            6,
            [&[forced(2)], &[checkpoint(0), checkpoint(1)], &[checkpoint(18), checkpoint(1)]],
            [[0, 0, 0], [1, 2, 1]],
        ),
        // The first checkpoint has the largest number that there may be.
        Answered::on(6, [&[checkpoint(6), forced(5)]], [[0], [1], [1], [1], [1], [1], [1]]),
    ]
}

/// E = 4: tables with the grounds of their failure lines.
pub fn grounded_of_two() -> [Answered; 5] {
    [
        // Process 1's receipt is its last record: its place is the count, the next position that it might have had.
        Answered::on(
            4,
            [&[send(1, 1, 0)], &[receipt(0, 1, 0)]],
            [[0, 0, 0, 0], [1, 0, 2, 1], [0, 0, 1, 0], [1, 0, 1, 0]],
        ),
        // It has saved behind the receipt. Where it failed too, it is at 0, which isn't its last checkpoint.
        Answered::on(
            4,
            [&[send(1, 1, 0)], &[receipt(0, 1, 0), checkpoint(1)]],
            [[0, 0, 0, 0], [1, 0, 2, 1], [0, 0, 1, 0], [1, 0, 2, 1]],
        ),
        // The first receipt is of a message that stays sent. The second counts, not the third, of the message sent before.
        Answered::on(
            4,
            [
                &[send(1, 1, 0), checkpoint(1), send(1, 2, 1), send(1, 3, 1)],
                &[receipt(0, 1, 0), receipt(0, 3, 0), receipt(0, 2, 0), forced(3)],
            ],
            [[0, 0, 0, 0], [1, 0, 2, 2], [0, 0, 1, 0], [1, 0, 2, 2]],
        ),
        // A receipt behind the last checkpoint of a failed process has no say.
        Answered::on(
            4,
            [&[send(1, 1, 0)], &[checkpoint(1), receipt(0, 1, 0)]],
            [[0, 0, 0, 0], [1, 0, 2, 2], [0, 0, 1, 0], [1, 0, 1, 0]],
        ),
        // Each received before it sent what the other received: two receipts that wait for each other.
        Answered::on(
            4,
            [
                &[receipt(1, 1, 0), checkpoint(1), send(1, 1, 1)],
                &[receipt(0, 1, 0), checkpoint(1), send(0, 1, 1)],
            ],
            [[0, 0, 0, 0], [2, 1, 2, 1], [2, 1, 2, 1], [2, 1, 2, 1]],
        ),
    ]
}

/// E = 4: the same for tables that no run makes, on two of which nobody needs to fail for a process to be moved.
pub fn grounded_astray() -> [Answered; 4] {
    [
        // Two receipts of messages that aren't there: the first by place counts, though its number is higher.
        Answered::on(
            4,
            [&[checkpoint(1), receipt(1, 4, 0), receipt(1, 1, 0)], &[]],
            [[2, 2, 0, 0], [1, 0, 0, 0], [2, 2, 1, 0], [1, 0, 1, 0]],
        ),
        // Process 1 has the same message twice, at 1 and 3. It is sent behind the last checkpoint of process 0.
        Answered::on(
            4,
            [
                &[checkpoint(2), send(1, 1, 2)],
                &[receipt(0, 1, 0), checkpoint(1), receipt(0, 1, 0), checkpoint(0)],
            ],
            [[0, 0, 0, 0], [1, 0, 2, 1], [0, 0, 1, 0], [1, 0, 2, 1]],
        ),
        // Process 1 has (0, 1), which went to 2 and stays sent, then (0, 2), which was never sent; process 2 has (0, 1).
        Answered::on(
            4,
            [&[send(2, 1, 0)], &[receipt(0, 1, 0), receipt(0, 2, 0)], &[receipt(0, 1, 0)]],
            [
                [0, 0, 2, 1, 0, 0],
                [1, 0, 2, 1, 2, 1],
                [0, 0, 1, 0, 0, 0],
                [1, 0, 1, 0, 2, 1],
                [0, 0, 2, 1, 1, 0],
                [1, 0, 2, 1, 1, 0],
                [0, 0, 1, 0, 1, 0],
                [1, 0, 1, 0, 1, 0],
            ],
        ),
        // Process 2 has (1, 1) twice, behind two of its checkpoints; where process 0 fails, process 1 loses its send of it.
        Answered::on(
            4,
            [
                &[checkpoint(1), send(1, 1, 1)],
                &[checkpoint(1), receipt(0, 1, 1), checkpoint(2), send(2, 1, 2)],
                &[checkpoint(2), receipt(1, 1, 2), checkpoint(3), receipt(1, 1, 2)],
            ],
            [
                [0, 0, 0, 0, 0, 0],
                [1, 0, 2, 2, 2, 2],
                [0, 0, 1, 0, 2, 2],
                [1, 0, 2, 2, 2, 2],
                [0, 0, 0, 0, 1, 0],
                [1, 0, 2, 2, 2, 2],
                [0, 0, 1, 0, 2, 2],
                [1, 0, 2, 2, 2, 2],
            ],
        ),
    ]
}
