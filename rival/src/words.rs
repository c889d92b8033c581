//! The settings words heard so far: the run of due words since the last start word, none refused.

use crate::drive_state::DriveState;
use crate::refusal::Refusal;
use crate::sheet::{self, Sheet};

/// The unfinished sheet is nothing but the words of the run, in the order heard.
#[derive(Clone, Debug, Default)]
pub struct Unfinished {
    run: Vec<u32>,
}

impl Unfinished {
    /// The words of the run.
    pub fn run(&self) -> &[u32] {
        &self.run
    }

    /// The layout that the run's start word announced; 0, which nobody defined, for an empty run.
    fn layout(&self) -> u32 {
        self.run.first().map_or(0, |&start| sheet::data(start))
    }

    /// The kind due next, by the layout; an empty run waits for a start word.
    pub fn due(&self) -> u32 {
        sheet::kinds(self.layout()).map_or(sheet::START, |kinds| kinds[self.run.len()])
    }

    /// Hears one word. An accepted end word hands out the sheet of the run; that and any refusal empty the run.
    pub fn hear(&mut self, word: u32, state: DriveState) -> Result<Option<Sheet>, Refusal> {
        let judged = self.judge(word, state);
        if judged != Ok(None) || sheet::kind(word) == sheet::START {
            self.run.clear(); // "A start word always begins afresh, also halfway."
        }
        if judged == Ok(None) {
            self.run.push(word);
        }
        judged
    }

    /// "An end word is tested 1, 4, 5, 6, 7; other words 1, then 2 or 3."
    fn judge(&self, word: u32, state: DriveState) -> Result<Option<Sheet>, Refusal> {
        let (kind, data) = (sheet::kind(word), sheet::data(word));
        if kind != self.due() && kind != sheet::START {
            return Err(Refusal::OutOfTurn);
        }
        match kind {
            sheet::START if sheet::kinds(data).is_none() => Err(Refusal::StrangeLayout),
            sheet::START => Ok(None),
            sheet::END => self.close(word, state).map(Some),
            _ if !sheet::data_is_in_range(self.layout(), kind, data) => Err(Refusal::OutOfRange),
            _ => Ok(None),
        }
    }

    fn close(&self, end: u32, state: DriveState) -> Result<Sheet, Refusal> {
        if sheet::data(end) != sheet::sum(&self.run) {
            return Err(Refusal::BadSum);
        }
        let whole = Sheet::of(&[&self.run[..], &[end]].concat());
        whole.stops_are_sound()?;
        if state.is_live() {
            return Err(Refusal::AxisLive);
        }
        Ok(whole)
    }
}
