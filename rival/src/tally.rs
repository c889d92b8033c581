//! What a script reaches, told line by line by the rival's own view.

mod gears;
mod homing_torque;
mod layouts;
mod needed;
mod rails;
mod rehearsals;
mod settings;
mod text;
mod ticks;

use std::collections::BTreeMap;

use crate::axis::Axis;
use crate::lines::{self, Line, Text};
use crate::refusal::Refusal;
use crate::tick::{Switches, Tick};

pub struct Tally {
    axis: Axis,
    /// Those of the tick before, which the rival keeps only while it records for homing.
    switches: Switches,
    stretch: Stretch,
    /// The latest tick that was not halted, or the homing start, and the halted ones after it.
    recent: Vec<Tick>,
    /// The refusal of the word before and the kind that was due then.
    refused: Option<(Refusal, u32)>,
    /// A takeover since the last tick.
    taken_over: bool,
    /// The layout of the run that the latest start word left halfway.
    left: Option<u32>,
    stale: Stale,
    rehearsals: rehearsals::Rehearsals,
    rails: rails::Rails,
    counts: BTreeMap<String, u64>,
}

/// The running leg so far.
#[derive(Clone, Copy, Default)]
struct Stretch {
    /// A tick was not halted, so something could count.
    tried: bool,
    /// The limit behind was on in every tick, from the one in which the leg began.
    behind: bool,
}

/// Homing torques of layout 3 that an older layout must not be read with.
#[derive(Clone, Copy, Default)]
struct Stale {
    /// That of the latest sheet taken over.
    taken_over: Option<i64>,
    /// That of a word since then whose sheet was left halfway.
    left: Option<i64>,
}

impl Default for Tally {
    fn default() -> Tally {
        let counts = needed::names().into_iter().chain(rails::names()).map(|name| (name, 0)).collect();
        Tally {
            axis: Axis::default(),
            switches: Switches::default(),
            stretch: Stretch::default(),
            recent: Vec::new(),
            refused: None,
            taken_over: false,
            left: None,
            stale: Stale::default(),
            rehearsals: Default::default(),
            rails: Default::default(),
            counts,
        }
    }
}

impl Tally {
    /// Each thing to reach and how often it happened, in the order they are named.
    pub fn table(&self) -> Vec<(String, u64)> {
        self.counted(needed::names())
    }

    /// The same of runs on paper rails, which have scripts of their own.
    pub fn rails_table(&self) -> Vec<(String, u64)> {
        self.counted(rails::names())
    }

    fn counted(&self, names: Vec<String>) -> Vec<(String, u64)> {
        names.into_iter().map(|name| (name.clone(), self.counts[&name])).collect()
    }

    /// One line, its bytes with their end.
    pub fn line(&mut self, raw: &[u8]) {
        let mut rest = raw;
        let Ok(Some(text)) = lines::next_text(&mut rest) else {
            return;
        };
        let read = lines::read(&text);
        self.saw_text(raw, &text, &read);
        match read {
            Ok(Line::Fresh) => {
                self.saw("line: fresh");
                self.axis = Axis::default();
                self.switches = Switches::default();
                self.stretch = Stretch::default();
                self.recent.clear();
                self.refused = None;
                self.taken_over = false;
                self.left = None;
                self.stale = Stale::default();
                self.rehearsals.fresh();
                self.rails.fresh();
            }
            Ok(Line::Word(word)) => self.saw_word(word),
            Ok(Line::Tick(tick)) => {
                self.saw_tick(&tick);
                self.saw_tick_after_a_run();
            }
            Ok(Line::Sheet { length, settings }) => {
                self.saw(&format!("writer: buffer of {length}"));
                self.saw_if(settings.is_long() && length >= 15, "writer: long value by a sheet line");
                self.saw_writer(1, length, &settings);
            }
            Ok(Line::Layout { layout, length, settings }) => {
                self.saw_writer(layout, length, &settings);
                self.saw_layout_line(layout, length, &settings);
                self.saw_homing_field(layout, &settings, before_comment(&text));
            }
            Ok(Line::Settings(settings)) => self.saw_settings(*settings, before_comment(&text)),
            Ok(Line::Rail(rail)) => self.saw_rail_line(rail),
            Ok(Line::Run(trial)) => self.saw_trial("run", trial),
            Ok(Line::Picture(trial)) => self.saw_trial("picture", trial),
            Ok(Line::Blank) | Err(_) => {}
        }
    }

    /// A name that nobody needs is a slip of the pen in this program.
    fn saw(&mut self, name: &str) {
        match self.counts.get_mut(name) {
            Some(count) => *count += 1,
            None => panic!("nobody needs to see: {name}"),
        }
    }

    fn saw_if(&mut self, happened: bool, name: &str) {
        if happened {
            self.saw(name);
        }
    }
}

/// How a refusal is named in the table.
fn refused(by: &str, refusal: Refusal) -> String {
    format!("{by} refused {}: {}", refusal.number(), refusal.trade_word())
}

fn bytes(text: &Text) -> Option<&[u8]> {
    match text {
        Text::Bytes(bytes) => Some(bytes),
        Text::TooLong => None,
    }
}

fn before_comment(text: &Text) -> &[u8] {
    bytes(text).unwrap_or_default().split(|&byte| byte == b'#').next().unwrap_or_default()
}

fn words(before_comment: &[u8]) -> impl Iterator<Item = &[u8]> {
    before_comment.split(|&byte| byte == b' ' || byte == b'\t').filter(|word| !word.is_empty())
}
