//! Prints the rows, and hybrid storms after them, as events that `c/replay.c` reads, for a machine on which `workload` does not run. A line
//! `row NAME` stands before each row, which begins with a fresh axis; a line `counted` between what comes before and what is counted.

use bench::rows::{homing_fields, rows, storm, Row, FIELDS, NAMES, STORMS, TOURING_FIELDS};
use bench::words::Event;

fn print(keyword: &str, words: &[u32]) {
    let words: String = words.iter().map(|word| format!(" {word:08X}")).collect();
    println!("{keyword}{words}");
}

fn print_event(event: &Event) {
    match event {
        Event::Word(word) => print("word", &[*word]),
        Event::Tick(words, floats) => print("tick", &[&words[..], &floats.map(f32::to_bits)].concat()),
    }
}

fn print_row(name: &str, row: &Row) {
    println!("row {name}\nfresh");
    row.before.iter().for_each(print_event);
    println!("counted");
    row.counted.iter().for_each(print_event);
}

fn main() {
    NAMES.iter().zip(rows()).for_each(|(name, row)| print_row(name, &row));
    for rated in STORMS {
        let row = storm(rated);
        print_row(&format!("hybrid storm, rated torque {rated}, mean of {}", row.counted.len()), &row);
    }
    println!("row settings written as words\nfresh\ncounted");
    print("sheet", &[&[20], &FIELDS[..]].concat());
    for (layout, fields) in [(2, TOURING_FIELDS), (3, homing_fields())] {
        println!("row settings written as words of layout {layout}\nfresh\ncounted");
        print("layout", &[&[layout, 20], &fields[..]].concat());
    }
}
