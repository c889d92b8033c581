//! One line in, one answer out, in order, from a fresh axis on. A picture alone has more lines.

use crate::answers;
use crate::axis::Axis;
use crate::lines::{self, Line, Text, Trial, Unreadable};
use crate::picture;
use crate::rail::Rail;
use crate::refusal::Refusal;
use crate::simulator::{self, Run};
use crate::writer::{self, Settings};

/// What each word of a lent buffer holds before the call.
const LENT: u32 = 0xDEAD_BEEF;

#[derive(Default)]
pub struct Program {
    axis: Axis,
    /// Those of later runs, "acceptable or not"; "before the first all their numbers are 0".
    settings: Settings,
    rail: Rail,
    line: u64,
}

impl Program {
    pub fn axis(&self) -> &Axis {
        &self.axis
    }

    /// The answer to the next line, or nothing where a line gets none.
    pub fn answer(&mut self, text: &Text) -> Option<String> {
        self.answer_read(&lines::read(text))
    }

    /// The same for a line already read. "LINE counts every line from 1."
    pub fn answer_read(&mut self, line: &Result<Line, Unreadable>) -> Option<String> {
        self.line += 1;
        match line {
            Ok(Line::Blank) => None,
            Ok(Line::Fresh) => {
                self.axis = Axis::default();
                Some("fresh".to_string())
            }
            Ok(Line::Word(word)) => Some(answers::word(self.axis.word(*word).err())),
            Ok(Line::Tick(tick)) => Some(answers::tick(&self.axis.tick(tick))),
            Ok(Line::Sheet { length, settings }) => Some(written("sheet", 1, *length, settings)),
            Ok(Line::Layout { layout, length, settings }) => Some(written("layout", *layout, *length, settings)),
            Ok(Line::Settings(settings)) => {
                self.settings = (**settings).clone();
                Some("settings".to_string())
            }
            Ok(Line::Rail(rail)) => {
                self.rail = *rail;
                Some("rail".to_string())
            }
            Ok(Line::Run(trial)) => Some(answers::run("run", &self.run(trial))),
            Ok(Line::Picture(trial)) => Some(self.picture(trial)),
            Err(unreadable) => Some(answers::unreadable(self.line, unreadable)),
        }
    }

    /// On a fresh axis of its own: "the axis is left alone".
    fn run(&self, trial: &Trial) -> Result<Run, Refusal> {
        simulator::run(&self.rail, &self.settings, trial.start, trial.ticks)
    }

    fn picture(&self, trial: &Trial) -> String {
        let run = self.run(trial);
        let rows = run.as_ref().map_or(Vec::new(), |run| picture::rows(&self.rail, trial.start, run));
        [vec![answers::run("picture", &run)], rows].concat().join("\n")
    }
}

/// The writer on a lent buffer; the axis is left alone.
fn written(keyword: &str, layout: u32, length: usize, settings: &Settings) -> String {
    let mut buffer = vec![LENT; length];
    let refusal = writer::write(layout, settings, &mut buffer).err();
    answers::written(keyword, refusal, &buffer)
}
