//! `events`: reads a script on standard input and prints its events as `c/replay.c` reads them: a keyword, and 32-bit words in
//! hexadecimal. A line that is blank, cannot be read or is about runs is no event.

use std::io::{self, BufWriter, Write};

use rival::command::Command;
use rival::lines::{next_text, read, Line};
use rival::sheet::LimitSet;
use rival::tick::Tick;
use rival::writer::Settings;

fn inputs(t: &Tick) -> u32 {
    let s = t.switches;
    let bits = [s.pot, s.not, s.hom, s.z, t.standstill, t.limit_set == LimitSet::Set2];
    bits.iter().rev().fold(0, |word, &bit| word << 1 | u32::from(bit))
}

/// Seven words, and the patterns of seven floats.
fn tick(t: &Tick) -> Vec<u32> {
    let mut floats = [0.0; 7];
    let (command, request, target) = match t.command {
        Command::Rest => (0, 0, 0),
        Command::Hybrid(h) => {
            floats = [h.kp, h.kd, h.pd, h.vd, h.t, h.p, h.v];
            (1, 0, 0)
        }
        Command::Homing { request } => (2, request, 0),
        Command::Position { target, request } => (3, request, target),
        Command::Torque { request } => (4, request, 0),
    };
    let control = u32::from(t.control.0);
    let words = [command, control, t.position as u32, inputs(t), t.alarm, i32::from(request) as u32, target as u32];
    words.into_iter().chain(floats.map(f32::to_bits)).collect()
}

/// The fields: each was read within 32 bits, so none is cut down.
fn fields(s: &Settings) -> [u32; 16] {
    s.values().map(|value| value as u32)
}

fn main() -> io::Result<()> {
    let mut input = io::stdin().lock();
    let mut output = BufWriter::new(io::stdout().lock());
    while let Some(text) = next_text(&mut input)? {
        let (keyword, words) = match read(&text) {
            Ok(Line::Fresh) => ("fresh", Vec::new()),
            Ok(Line::Word(word)) => ("word", vec![word]),
            Ok(Line::Tick(t)) => ("tick", tick(&t)),
            Ok(Line::Sheet { length, settings }) => ("sheet", [&[length as u32], &fields(&settings)[..]].concat()),
            Ok(Line::Layout { layout, length, settings }) => {
                ("layout", [&[layout, length as u32], &fields(&settings)[..]].concat())
            }
            Ok(Line::Blank | Line::Settings(_) | Line::Rail(_) | Line::Run(_) | Line::Picture(_)) | Err(_) => continue,
        };
        write!(output, "{keyword}")?;
        for word in words {
            write!(output, " {word:08X}")?;
        }
        writeln!(output)?;
    }
    output.flush()
}
