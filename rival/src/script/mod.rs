//! Writing test scripts that get somewhere: the script follows the axis along and steers it by the state it is in.

mod gears;
mod homing;
mod homing_torque;
mod layouts;
mod rails;
mod rehearsals;
mod sheets;
mod states;
mod targets;
mod weird;

use std::io::{self, Write};

pub use self::sheets::{is_acceptable, sheet_s};
use crate::axis::Axis;
use crate::drive_state::DriveState;
use crate::homing::{all_routes, Way, METHODS, ON_LIMITS};
use crate::lines::{self, LONGEST};
use crate::program::Program;
use crate::random::Random;
use crate::tick::Switches;

/// The surroundings of the axis: what the next tick will say.
#[derive(Clone)]
struct Surroundings {
    control: u16,
    command: String,
    position: i32,
    switches: Switches,
    still: bool,
    set: u8,
    alarm: u32,
}

impl Surroundings {
    fn line(&self) -> String {
        let letter = |on: bool, letter: char| if on { letter } else { '-' };
        let Switches { pot, not, hom, z } = self.switches;
        format!(
            "tick {:04X} {} at {} {}{}{}{} {} set{} {:X}",
            self.control,
            self.command,
            self.position,
            letter(pot, 'P'),
            letter(not, 'N'),
            letter(hom, 'H'),
            letter(z, 'Z'),
            if self.still { "still" } else { "moving" },
            self.set,
            self.alarm
        )
    }
}

pub struct Script<W: Write> {
    random: Random,
    program: Program,
    output: W,
    failure: io::Result<()>,
    written: u64,
    /// How many of a hundred lines have a weird one put before them.
    weird: u64,
    /// Whether a tick is changed a little now and then, which often spoils what its scene is after.
    mutating: bool,
    now: Surroundings,
    /// The rehearsal that is being played for the first time.
    rehearsal: Option<rehearsals::Rehearsal>,
}

/// The scenes of a round.
#[derive(Clone, Copy)]
enum Scene {
    Home(u32, Way),
    Miss(u32),
    Limits(u32),
    Interrupt(homing::Interruption),
    NoStart,
    HalfTurn,
    StateTable,
    QuickStops(u32),
    AlarmNumbers,
    Faults,
    Follow,
    Gears,
    Requests,
    Hybrids,
    WriterEdges,
    BufferLengths,
    WordEdges,
    Torn,
    Reach,
    Live,
    LayoutLines,
    LayoutWords,
    LiveLayouts,
    LongRails,
    HomingCaps,
    HomingTorqueWords,
    HomingTorqueLines,
    Rehearsals,
    TakeOverAnywhere,
    Unreadables,
    Wander,
}

fn scenes() -> Vec<Scene> {
    let mut scenes = vec![
        Scene::NoStart,
        Scene::HalfTurn,
        Scene::StateTable,
        Scene::QuickStops(2),
        Scene::QuickStops(6),
        Scene::AlarmNumbers,
        Scene::Faults,
        Scene::Follow,
        Scene::Gears,
        Scene::Requests,
        Scene::Hybrids,
        Scene::WriterEdges,
        Scene::BufferLengths,
        Scene::WordEdges,
        Scene::Torn,
        Scene::Reach,
        Scene::Live,
        Scene::LayoutLines,
        Scene::LayoutWords,
        Scene::LiveLayouts,
        Scene::LongRails,
        Scene::HomingCaps,
        Scene::HomingTorqueWords,
        Scene::HomingTorqueLines,
        Scene::Rehearsals,
        Scene::TakeOverAnywhere,
        Scene::Unreadables,
        Scene::Wander,
        Scene::Wander,
    ];
    scenes.extend(all_routes().into_iter().map(|(method, way)| Scene::Home(method, way)));
    scenes.extend(ON_LIMITS.map(Scene::Miss));
    scenes.extend(METHODS.into_iter().filter(|&method| method != 35).map(Scene::Limits));
    scenes.extend(homing::INTERRUPTIONS.map(Scene::Interrupt));
    scenes
}

impl<W: Write> Script<W> {
    pub fn new(seed: u64, weird: u64, output: W) -> Script<W> {
        Script {
            random: Random::new(seed),
            program: Program::default(),
            output,
            failure: Ok(()),
            written: 0,
            weird,
            mutating: false,
            now: Surroundings {
                control: 0,
                command: "rest".to_string(),
                position: 0,
                switches: Switches::default(),
                still: true,
                set: 1,
                alarm: 0,
            },
            rehearsal: None,
        }
    }

    /// Rounds of all scenes in random order until enough lines are written. The first round is played clean, so that it
    /// reaches everything; every other round after it is played with mutations.
    pub fn write(mut self, lines: u64) -> io::Result<()> {
        'rounds: loop {
            let mut round = scenes();
            self.random.shuffle(&mut round);
            for scene in round {
                if self.written + 1 >= lines {
                    break 'rounds;
                }
                self.play_scene(scene);
            }
            self.mutating = !self.mutating;
        }
        self.end()
    }

    /// "A line ends with LF or with the end of the input": the last one has no LF.
    fn end(mut self) -> io::Result<()> {
        let last = self.now.line();
        self.emit(last.as_bytes(), b"");
        self.output.flush()?;
        self.failure
    }

    fn play_scene(&mut self, scene: Scene) {
        if self.random.once_in(5) {
            self.fresh();
        }
        match scene {
            Scene::Home(method, way) => self.home(method, way),
            Scene::Miss(method) => self.miss(method),
            Scene::Limits(method) => self.limits(method),
            Scene::Interrupt(interruption) => self.interrupt(interruption),
            Scene::NoStart => self.start_in_vain(),
            Scene::HalfTurn => self.half_turn(),
            Scene::StateTable => self.state_table(),
            Scene::QuickStops(option) => self.quick_stops(option),
            Scene::AlarmNumbers => self.alarm_numbers(),
            Scene::Faults => self.faults(),
            Scene::Follow => self.follow_targets(),
            Scene::Gears => self.gears(),
            Scene::Requests => self.request_torques(),
            Scene::Hybrids => self.hybrids(),
            Scene::WriterEdges => self.writer_edges(),
            Scene::BufferLengths => self.buffer_lengths(),
            Scene::WordEdges => self.word_edges(),
            Scene::Torn => self.torn_sheets(),
            Scene::Reach => self.reaches(),
            Scene::Live => self.live_sheets(),
            Scene::LayoutLines => self.layout_lines(),
            Scene::LayoutWords => self.layout_words(),
            Scene::LiveLayouts => self.live_layouts(),
            Scene::LongRails => self.long_rails(),
            Scene::HomingCaps => self.homing_caps(),
            Scene::HomingTorqueWords => self.homing_torque_words(),
            Scene::HomingTorqueLines => self.homing_torque_lines(),
            Scene::Rehearsals => self.rehearsals(),
            Scene::TakeOverAnywhere => self.take_over_anywhere(),
            Scene::Unreadables => self.unreadables(),
            Scene::Wander => self.wander(),
        }
    }

    fn axis(&self) -> &Axis {
        self.program.axis()
    }

    fn state(&self) -> DriveState {
        self.axis().state()
    }

    fn fresh(&mut self) {
        self.line("fresh");
    }

    /// The next tick, by the surroundings as they are now.
    fn tick(&mut self) {
        let mut tick = self.now.clone();
        if self.mutating && self.random.once_in(30) {
            match self.random.between(0, 6) {
                0 | 1 => tick.control ^= 1 << self.random.between(0, 15),
                2 => tick.switches.hom = !tick.switches.hom,
                3 => tick.switches.pot = !tick.switches.pot,
                4 => tick.switches.not = !tick.switches.not,
                5 => tick.position = self.random.bits() as i32,
                _ => tick.still = !tick.still,
            }
        }
        let line = tick.line();
        self.rehearsed(&line);
        self.line(&line);
    }

    fn tick_with(&mut self, control: u16, command: &str, still: bool) {
        self.now.control = control;
        self.now.command = command.to_string();
        self.now.still = still;
        self.tick();
    }

    fn word(&mut self, word: u32) {
        let lower_case = self.random.once_in(3);
        let line = if lower_case { format!("word {word:x}") } else { format!("word {word:08X}") };
        self.line(&line);
    }

    /// A line that means something, now and then oddly dressed, now and then with a weird one before it. Neither changes
    /// what it does to the axis.
    fn line(&mut self, line: &str) {
        if self.random.bits() % 100 < self.weird {
            self.weird_line();
        }
        let dressed = if self.random.once_in(10) { self.dress(line) } else { line.as_bytes().to_vec() };
        let end: &[u8] = if self.random.once_in(12) { b"\r\n" } else { b"\n" };
        self.emit(if dressed.len() <= LONGEST { &dressed } else { line.as_bytes() }, end);
    }

    /// Every byte of the script goes through here, and through the axis that is followed along.
    fn emit(&mut self, bytes: &[u8], end: &[u8]) {
        let whole = [bytes, end].concat();
        if let Ok(Some(text)) = lines::next_text(&mut &whole[..]) {
            self.program.answer(&text);
        }
        self.written += 1;
        if self.failure.is_ok() {
            self.failure = self.output.write_all(&whole);
        }
    }
}
