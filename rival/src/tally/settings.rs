//! Settings words and the writer.

use super::{refused, Tally};
use crate::gear;
use crate::homing::Homing;
use crate::refusal::Refusal;
use crate::sheet::{self, Sheet};
use crate::writer::{self, Settings};

/// A setting, and the least and the most it may be; for places that is what layout 1 holds.
pub(super) const FIELDS: [(&str, i64, i64); 16] = [
    ("method", 1, 35),
    ("fast", 1, (1 << 28) - 1),
    ("slow", 1, (1 << 28) - 1),
    ("offset", -(1 << 27), (1 << 27) - 1),
    ("numerator", 1, 1 << 20),
    ("denominator", 1, 1 << 20),
    ("lower stop", -(1 << 27), (1 << 27) - 1),
    ("upper stop", -(1 << 27), (1 << 27) - 1),
    ("maximum torque", 0, 3000),
    ("positive limit 1", 0, 3000),
    ("negative limit 1", 0, 3000),
    ("positive limit 2", 0, 3000),
    ("negative limit 2", 0, 3000),
    ("quick stop option", 2, 6),
    ("rated torque", 1, 1 << 24),
    ("homing torque", 0, 3000),
];

/// Which field of the sheet a word's data lies in, and its value; the limit sets hold two, and so does kind 12 in layout 3.
/// From layout 2 on a place is no one word's.
fn carried(layout: u32, kind: u32, data: u32) -> Vec<(usize, i64)> {
    let value = i64::from(data);
    match kind {
        sheet::METHOD..=sheet::SLOW | sheet::NUMERATOR | sheet::DENOMINATOR | sheet::MAXIMUM_TORQUE => {
            vec![(kind as usize - 1, value)]
        }
        sheet::OFFSET | sheet::LOWER_STOP | sheet::UPPER_STOP if layout == 1 => {
            vec![(kind as usize - 1, sheet::signed(data).into())]
        }
        sheet::LIMIT_SET_1 => vec![(9, value & 0x3FFF), (10, value >> 14)],
        sheet::LIMIT_SET_2 => vec![(11, value & 0x3FFF), (12, value >> 14)],
        sheet::QUICK_STOP_OPTION if layout == 3 => vec![(13, value & 0xFF), (15, value >> 8)],
        sheet::QUICK_STOP_OPTION => vec![(13, value)],
        sheet::RATED_TORQUE => vec![(14, value)],
        _ => vec![],
    }
}

/// Whether a value lies on an edge of its field or one past it.
pub(super) const EDGES: [&str; 4] = ["just out below", "least", "most", "just out above"];

/// Methods beside a gap among those that a sheet may hold: the last before it, the first and last in it, the first after it.
pub(super) const INNER_METHODS: [i64; 12] = [2, 3, 16, 17, 18, 19, 22, 23, 30, 31, 32, 33];

fn edge((_, least, most): (&str, i64, i64), value: i64) -> Option<&'static str> {
    let at = [least - 1, least, most, most + 1].iter().position(|&edge| edge == value)?;
    Some(EDGES[at])
}

/// Whether a word of the sheet, or a `sheet` line, can hold such a value at all.
pub(super) fn can_hold(by: &str, field: usize, edge: &str) -> bool {
    let (_, least, most) = FIELDS[field];
    let value = match edge {
        "just out below" => least - 1,
        "just out above" => most + 1,
        _ => return true,
    };
    match by {
        "word" => least >= 0 && (0..1 << 28).contains(&value),
        _ => least < 0 || value >= 0,
    }
}

impl Tally {
    pub(super) fn saw_word(&mut self, word: u32) {
        let (kind, data, due) = (sheet::kind(word), sheet::data(word), self.axis.due());
        let (state, homing, earlier) = (self.axis.state(), self.axis.homing(), self.axis.sheet().copied());
        let run = self.axis.unfinished().to_vec();
        let heard = self.axis.word(word);
        if let Err(refusal) = heard {
            self.saw(&refused("word", refusal));
            self.saw_if(refusal == Refusal::AxisLive, &format!("word: axis live in {state:?}"));
            self.saw_if(earlier.is_some(), "word: refused, the earlier sheet stays");
            self.saw_if(refusal == Refusal::BadSum && state.is_live(), "word: bad sum said before axis live");
            self.saw_if(refusal == Refusal::StopsCrossed && state.is_live(), "word: stops crossed said before axis live");
        }
        if let Some((refusal, was_due)) = self.refused {
            self.saw_if(kind == was_due, &format!("word: due before refusal {}, out of turn after it", refusal.number()));
        }
        self.refused = heard.err().filter(|_| due != sheet::START).map(|refusal| (refusal, due));
        self.rehearsal_word(heard);
        self.saw_run(&run, word, heard);
        self.saw_if(kind == sheet::END && due != sheet::END, "word: end too early");
        self.saw_if(heard.is_ok() && kind == sheet::START && due != sheet::START, "word: start halfway");
        self.saw_if(heard.is_err() && kind == sheet::START && due != sheet::START, "word: strange start halfway");
        if kind == due {
            for (field, value) in carried(run.first().map_or(0, |&start| sheet::data(start)), kind, data) {
                self.saw_value("word", field, value);
            }
        }
        if let (Ok(()), sheet::END, Some(sheet)) = (heard, kind, self.axis.sheet().copied()) {
            self.taken_over = true;
            self.saw(&format!("takeover in {state:?}"));
            self.saw_if(matches!(homing, Homing::Homed { .. }), "takeover clears homed");
            self.saw_if(homing == Homing::Error, "takeover clears homing error");
            let whole: u64 = sheet.summed().map(u64::from).sum();
            self.saw_if(whole > u64::from(sheet::DATA), "takeover with a sum beyond 28 bits");
            self.saw_reach(&sheet);
            self.saw_layout(&sheet, earlier.as_ref());
            self.rehearsal_begins(&sheet);
        }
    }

    fn saw_value(&mut self, by: &str, field: usize, value: i64) {
        let name = FIELDS[field].0;
        if let Some(edge) = edge(FIELDS[field], value) {
            self.saw(&format!("{by}: {name} {edge}"));
        }
        self.saw_if(name == "method" && INNER_METHODS.contains(&value), &format!("{by}: method {value}"));
    }

    fn saw_reach(&mut self, sheet: &Sheet) {
        self.saw_if(gear::counts(sheet, sheet.lower_stop()) == -(1 << 30), "reach: lower stop at its last count");
        self.saw_if(gear::counts(sheet, sheet.upper_stop()) == 1 << 30, "reach: upper stop at its last count");
    }

    pub(super) fn saw_writer(&mut self, layout: u32, length: usize, settings: &Settings) {
        let mut buffer = vec![0; length];
        let written = writer::write(layout, settings, &mut buffer);
        if let Err(refusal) = written {
            self.saw(&refused("writer", refusal));
            self.saw_if(
                refusal == Refusal::ShortBuffer && settings.words(3).is_none(),
                "writer: short buffer said before out of range",
            );
        }
        for (field, value) in settings.values().into_iter().enumerate() {
            self.saw_value("writer", field, value);
            self.saw_if(!(-(1 << 27)..1 << 28).contains(&value), "writer: a value beyond 28 bits");
            self.saw_if(value > 0xFFFF && FIELDS[field].2 <= 3000, "writer: a small field's value beyond 16 bits");
        }
        if let (Err(Refusal::OutOfReach), Some(words)) = (written, settings.words(layout)) {
            let sheet = Sheet::of(&words);
            let lower = gear::counts(&sheet, sheet.lower_stop()).abs() > 1 << 30;
            self.saw(if lower { "reach: lower stop out" } else { "reach: only upper stop out" });
        }
    }
}
