//! A run, drawn: the rail, the start, a row for each leg, the end.

use crate::homing::{Leg, Speed};
use crate::rail::Rail;
use crate::simulator::{Passage, Run, Stop};

/// So that no row is longer than 80 characters.
const MOST_COLUMNS: i64 = 58;

/// "K is L, or 58 where L is more"
pub fn columns(rail: &Rail) -> i64 {
    rail.length.min(MOST_COLUMNS)
}

/// "the cell x in column 1 + x K / L, rounded down"; column 0 for those below 0, K + 1 for those from L on.
pub fn column(rail: &Rail, cell: i64) -> usize {
    let columns = columns(rail);
    let column = match cell {
        ..0 => 0,
        _ if cell >= rail.length => columns + 1,
        _ => 1 + cell * columns / rail.length,
    };
    column as usize
}

/// The columns 0 to K + 1 of a row.
struct Row(Vec<u8>);

impl Row {
    fn new(rail: &Rail, ends: [u8; 2], between: u8) -> Row {
        let mut row = vec![between; columns(rail) as usize + 2];
        (row[0], row[columns(rail) as usize + 1]) = (ends[0], ends[1]);
        Row(row)
    }

    fn blank(rail: &Rail) -> Row {
        Row::new(rail, [b'|'; 2], b' ')
    }

    /// Between two columns, whichever comes first, both included.
    fn fill(&mut self, one: usize, other: usize, mark: u8) {
        self.0[one.min(other)..=one.max(other)].fill(mark);
    }

    fn mark(mut self, column: usize, mark: u8) -> Row {
        self.0[column] = mark;
        self
    }

    fn then(self, text: String) -> String {
        self.0.into_iter().map(char::from).chain(text.chars()).collect()
    }
}

pub fn rows(rail: &Rail, start: i64, run: &Run) -> Vec<String> {
    let mut rows = vec![track(rail)];
    rows.push(Row::blank(rail).mark(column(rail, start), b'S').then(format!(" start {start}")));
    rows.extend(run.passages.iter().map(|passage| passed(rail, passage)));
    let (mark, name) = match run.stop {
        Stop::Homed => (b'H', "home"),
        Stop::Error => (b'E', "error"),
        Stop::Ticks => (b'T', "stopped"),
    };
    rows.push(Row::blank(rail).mark(column(rail, run.cell), mark).then(format!(" {name} {}", run.cell)));
    rows
}

fn track(rail: &Rail) -> String {
    let mut row = Row::new(rail, *b"NP", b'.');
    row.fill(column(rail, rail.cam), column(rail, rail.cam + rail.width - 1), b'#');
    row.then(format!(" cells {}", rail.length))
}

/// The mark where it ended stands above those of the way.
fn passed(rail: &Rail, passage: &Passage) -> String {
    let Leg(direction, speed, _) = passage.leg;
    let (line, letter) = match speed {
        Speed::Fast => (b'=', 'F'),
        Speed::Slow => (b'-', 'S'),
    };
    let (head, sign) = if direction > 0 { (b'>', '+') } else { (b'<', '-') };
    let end = column(rail, passage.to);
    let mut row = Row::blank(rail);
    row.fill(column(rail, passage.from), end, line);
    row.mark(end, head).then(format!(" {sign}{letter} ticks {}", passage.ticks))
}
