//! The baseline as a program over the same lines as the others, so that its answers can be compared with theirs.

use std::io::{self, BufWriter, Write};

use bench::baseline::{self, Axis};
use bench::lines::tick;
use bench::words::settings;
use rival::lines::{self, next_text, Line};
use rival::{answers, refusal::Refusal, writer};

const REFUSALS: [Refusal; 11] = [
    Refusal::OutOfTurn,
    Refusal::StrangeLayout,
    Refusal::OutOfRange,
    Refusal::BadSum,
    Refusal::StopsCrossed,
    Refusal::OutOfReach,
    Refusal::AxisLive,
    Refusal::NoSheet,
    Refusal::ShortBuffer,
    Refusal::LongValue,
    Refusal::HomingTorqueLost,
];

fn refusal(number: u8) -> Option<Refusal> {
    (number > 0).then(|| REFUSALS[number as usize - 1])
}

fn answer(a: &baseline::Answer) -> rival::tick::Answer {
    rival::tick::Answer {
        refusal: refusal(a.number),
        torque: a.torque.into(),
        speed: a.speed,
        position: a.position,
        status: a.status,
        mode: a.mode,
        alarm: a.alarm.into(),
    }
}

/// The writer, by a `sheet` or a `layout` line. Each value was read within 32 bits.
fn written(keyword: &str, layout: u32, length: usize, s: &writer::Settings) -> String {
    let mut buffer = vec![0xDEAD_BEEF; length];
    let number = baseline::write_sheet(layout, &settings(&s.values().map(|value| value as u32)), &mut buffer);
    answers::written(keyword, refusal(number), &buffer)
}

fn main() -> io::Result<()> {
    let mut input = io::stdin().lock();
    let mut output = BufWriter::new(io::stdout().lock());
    let mut axis = Axis::FRESH;
    let mut line = 0;
    while let Some(text) = next_text(&mut input)? {
        line += 1;
        let answer = match lines::read(&text) {
            // The baseline is an axis, and has no simulator.
            Ok(Line::Blank | Line::Settings(_) | Line::Rail(_) | Line::Run(_) | Line::Picture(_)) => continue,
            Ok(Line::Fresh) => {
                axis = Axis::FRESH;
                "fresh".to_string()
            }
            Ok(Line::Word(word)) => answers::word(refusal(baseline::word(&mut axis, word))),
            Ok(Line::Tick(t)) => answers::tick(&answer(&baseline::tick(&mut axis, &tick(&t)))),
            Ok(Line::Sheet { length, settings }) => written("sheet", 1, length, &settings),
            Ok(Line::Layout { layout, length, settings }) => written("layout", layout, length, &settings),
            Err(unreadable) => answers::unreadable(line, &unreadable),
        };
        writeln!(output, "{answer}")?;
    }
    output.flush()
}
