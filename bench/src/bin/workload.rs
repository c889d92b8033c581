//! Feeds every row to both sides, one call an event, and compares the answers. It is itself run under callgrind, which counts the calls below
//! by their callers. Standard input: a script of lines, whose words and ticks make the last row.

use std::hint::black_box;
use std::io;

use bench::baseline::Axis;
use bench::lines::tick;
use bench::rows::{homing_fields, homing_sheet, rows, then, Row, FIELDS, SHEET, TOURING_FIELDS, TOURING_SHEET};
use bench::words::{baseline_fresh, baseline_tick, baseline_word, baseline_write, event, settings, Event, AXIS_FIELDS, AXIS_WORDS, WIDTH};

// As c/axis.h has them.
#[link(name = "exports", kind = "static")]
extern "C" {
    fn axis_fresh(axis: *mut u32);
    fn axis_word(axis: *mut u32, word: u32) -> u32;
    fn axis_tick(axis: *mut u32, event: *const u32, floats: *const f32, answer: *mut u32) -> u32;
    fn axis_write(layout: u32, fields: *const u32, buffer: *mut u32, length: u64) -> u32;
}

/// What lent words hold before a call.
const LENT: u32 = 0xDEAD_BEEF;

/// Feeds a fresh axis of each side with the events; the answers agree. One word more is lent than an axis has, and is left alone.
#[inline(always)]
fn feed(events: &[Event]) {
    let mut lent = [LENT; AXIS_WORDS + 1];
    let mut plain = Axis::FRESH;
    let axis = lent.as_mut_ptr();
    unsafe { axis_fresh(axis) };
    baseline_fresh(&mut plain);
    for event in events {
        match event {
            Event::Word(word) => assert_eq!(unsafe { axis_word(axis, *word) }, baseline_word(&mut plain, *word)),
            Event::Tick(e, f) => {
                let mut answers = [[LENT; WIDTH]; 2];
                let [a, b] = &mut answers;
                let numbers = [unsafe { axis_tick(axis, e.as_ptr(), f.as_ptr(), a.as_mut_ptr()) }, baseline_tick(&mut plain, e, f, b)];
                assert_eq!(answers[0], answers[1]);
                assert_eq!(numbers, [answers[0][0]; 2]);
            }
        }
    }
    assert_eq!(lent[AXIS_WORDS], LENT);
}

/// Two callers a row, so that callgrind tells the rows apart: of what comes before, and of that and what is counted.
macro_rules! callers {
    ($($row:ident)*) => {
        $(mod $row {
            use super::*;
            #[inline(never)]
            pub fn before(events: &[Event]) {
                black_box(concat!(stringify!($row), " before"));
                feed(events)
            }
            #[inline(never)]
            pub fn whole(events: &[Event]) {
                black_box(concat!(stringify!($row), " whole"));
                feed(events)
            }
        })*
        fn run_rows(rows: &[Row]) {
            let mut rows = rows.iter();
            $({
                let row = rows.next().unwrap();
                $row::before(&row.before);
                $row::whole(&then(&row.before, &row.counted));
            })*
            assert!(rows.next().is_none());
        }
    };
}

callers!(row0 row1 row2 row3 row4 row5 row6 row7 row8 row9 row10 row11 row12 row13 row14 row15 row16 row17 row18 row19 row20 row21 row22 row23 row24);

/// Has the settings written by both sides; the buffers agree, and begin with these words.
#[inline(always)]
fn write_both(layout: u32, fields: &[u32; AXIS_FIELDS], words: &[u32]) {
    let s = settings(fields);
    let mut proved = [LENT; 20];
    let mut plain = proved;
    let numbers = unsafe {
        (
            axis_write(layout, fields.as_ptr(), proved.as_mut_ptr(), proved.len() as u64),
            baseline_write(layout, &s, plain.as_mut_ptr(), plain.len()),
        )
    };
    assert_eq!(numbers, (0, 0));
    assert_eq!(proved, plain);
    assert_eq!(proved[..words.len()], *words);
}

/// A caller a layout, so that callgrind tells them apart.
#[inline(never)]
fn write_layout_1() {
    write_both(1, &FIELDS, &SHEET)
}

#[inline(never)]
fn write_layout_2() {
    write_both(2, &TOURING_FIELDS, &TOURING_SHEET)
}

#[inline(never)]
fn write_layout_3() {
    write_both(3, &homing_fields(), &homing_sheet())
}

/// The words and ticks of a script; its other lines are left out.
fn script() -> io::Result<Vec<Event>> {
    use rival::lines::{next_text, read, Line};
    let mut events = Vec::new();
    let mut input = io::stdin().lock();
    while let Some(text) = next_text(&mut input)? {
        match read(&text) {
            Ok(Line::Word(word)) => events.push(Event::Word(word)),
            Ok(Line::Tick(t)) => events.push(event(&tick(&t))),
            _ => (),
        }
    }
    Ok(events)
}

fn main() -> io::Result<()> {
    let mut rows = Vec::from(rows());
    rows.push(Row { before: Vec::new(), counted: script()? });
    run_rows(&rows);
    write_layout_1();
    write_layout_2();
    write_layout_3();
    for row in &rows {
        println!("{}", row.counted.len());
    }
    Ok(())
}
