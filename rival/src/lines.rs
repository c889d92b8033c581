//! From bytes to lines, and from a line to what it asks for.

use std::io::{self, BufRead};

use crate::command::Command;
use crate::control_word::ControlWord;
use crate::hybrid::Hybrid;
use crate::numerals;
use crate::rail::Rail;
use crate::sheet::LimitSet;
use crate::tick::{Switches, Tick};
use crate::writer::Settings;

/// "A line's length, without its end, is at most 255 bytes."
pub const LONGEST: usize = 255;

/// The longest buffer a `sheet` or `layout` line may lend.
const LONGEST_BUFFER: u32 = 32;

/// One line's bytes without its end, or word that they were too many.
#[derive(Debug, PartialEq, Eq)]
pub enum Text {
    Bytes(Vec<u8>),
    TooLong,
}

/// Reads the next line, or nothing at the end of the input. Memory is bounded: of a line too long only the beginning is kept.
pub fn next_text(input: &mut impl BufRead) -> io::Result<Option<Text>> {
    // With 257 bytes a line is too long even if the last is the CR, so no more are kept.
    const KEPT: usize = LONGEST + 2;
    let mut bytes = Vec::new();
    let mut anything = false;
    loop {
        let chunk = input.fill_buf()?;
        if chunk.is_empty() {
            return Ok(anything.then(|| text(bytes)));
        }
        anything = true;
        let end = chunk.iter().position(|&byte| byte == b'\n');
        let piece = &chunk[..end.unwrap_or(chunk.len())];
        bytes.extend(piece.iter().take(KEPT - bytes.len()));
        let used = piece.len() + usize::from(end.is_some());
        input.consume(used);
        if end.is_some() {
            return Ok(Some(text(bytes)));
        }
    }
}

/// "a CR right before that end is no part of it"
fn text(mut bytes: Vec<u8>) -> Text {
    if bytes.len() < LONGEST + 2 && bytes.last() == Some(&b'\r') {
        bytes.pop();
    }
    if bytes.len() > LONGEST {
        Text::TooLong
    } else {
        Text::Bytes(bytes)
    }
}

#[derive(Debug)]
pub enum Line {
    /// "A line with no word gets no answer."
    Blank,
    Fresh,
    Word(u32),
    Tick(Tick),
    Sheet {
        length: usize,
        settings: Box<Settings>,
    },
    Layout {
        layout: u32,
        length: usize,
        settings: Box<Settings>,
    },
    Settings(Box<Settings>),
    Rail(Rail),
    Run(Trial),
    Picture(Trial),
}

/// What a `run` or `picture` line asks for.
#[derive(Clone, Copy, Debug, PartialEq, Eq)]
pub struct Trial {
    pub start: i64,
    pub ticks: i64,
}

/// Where a line stops being readable, and what was expected there.
#[derive(Debug, PartialEq, Eq)]
pub enum Unreadable {
    Expected { column: usize, what: &'static str },
    TooLong,
}

/// The words of a line before its comment, taken one by one.
#[derive(Clone)]
struct Words<'a> {
    text: &'a [u8],
    at: usize,
}

impl<'a> Words<'a> {
    fn of(line: &'a [u8]) -> Words<'a> {
        let end = line.iter().position(|&byte| byte == b'#').unwrap_or(line.len());
        Words { text: &line[..end], at: 0 }
    }

    /// The next word and its column; where none is left, one past the last byte of the text before the comment.
    fn next(&mut self) -> (usize, Option<&'a [u8]>) {
        let separates = |byte: &u8| *byte == b' ' || *byte == b'\t';
        let left = &self.text[self.at..];
        let Some(gap) = left.iter().position(|byte| !separates(byte)) else {
            self.at = self.text.len();
            return (self.text.len() + 1, None);
        };
        let word = &left[gap..];
        let length = word.iter().position(separates).unwrap_or(word.len());
        let column = self.at + gap + 1;
        self.at += gap + length;
        (column, Some(&word[..length]))
    }

    fn take<T>(&mut self, what: &'static str, accept: impl Fn(&[u8]) -> Option<T>) -> Result<T, Unreadable> {
        let (column, word) = self.next();
        word.and_then(accept).ok_or(Unreadable::Expected { column, what })
    }

    /// Whether no word is left.
    fn are_over(&self) -> bool {
        self.clone().next().1.is_none()
    }

    fn end(&mut self) -> Result<(), Unreadable> {
        match self.next() {
            (_, None) => Ok(()),
            (column, Some(_)) => Err(Unreadable::Expected { column, what: "end of line" }),
        }
    }

    fn hexadecimal(&mut self, most: usize) -> Result<u32, Unreadable> {
        self.take("hexadecimal digits", |word| numerals::hexadecimal(word, most))
    }

    fn float(&mut self) -> Result<f32, Unreadable> {
        self.take("a float", numerals::float)
    }

    fn i16(&mut self) -> Result<i16, Unreadable> {
        self.take("a whole number", numerals::i16)
    }

    fn i32(&mut self) -> Result<i32, Unreadable> {
        self.take("a whole number", numerals::i32)
    }

    fn u32(&mut self) -> Result<u32, Unreadable> {
        self.take("a whole number", numerals::u32)
    }
}

#[derive(Clone, Copy)]
enum Keyword {
    Word,
    Tick,
    Sheet,
    Layout,
    Settings,
    Rail,
    Run,
    Picture,
    Fresh,
}

pub fn read(text: &Text) -> Result<Line, Unreadable> {
    let Text::Bytes(bytes) = text else {
        return Err(Unreadable::TooLong);
    };
    if let (_, None) = Words::of(bytes).next() {
        return Ok(Line::Blank);
    }
    let mut words = Words::of(bytes);
    let keyword = words.take("word, tick, sheet or fresh", |word| match word {
        b"word" => Some(Keyword::Word),
        b"tick" => Some(Keyword::Tick),
        b"sheet" => Some(Keyword::Sheet),
        b"fresh" => Some(Keyword::Fresh),
        // Those after the base are not named in the answer: its text "never changes".
        b"layout" => Some(Keyword::Layout),
        b"settings" => Some(Keyword::Settings),
        b"rail" => Some(Keyword::Rail),
        b"run" => Some(Keyword::Run),
        b"picture" => Some(Keyword::Picture),
        _ => None,
    })?;
    let line = match keyword {
        Keyword::Word => Line::Word(words.hexadecimal(8)?),
        Keyword::Tick => Line::Tick(tick(&mut words)?),
        Keyword::Sheet => Line::Sheet { length: length(&mut words)?, settings: Box::new(settings(&mut words)?) },
        Keyword::Layout => {
            let (layout, length) = (words.u32()?, length(&mut words)?);
            Line::Layout { layout, length, settings: Box::new(settings_and_homing(&mut words)?) }
        }
        Keyword::Settings => Line::Settings(Box::new(settings_and_homing(&mut words)?)),
        Keyword::Rail => Line::Rail(rail(&mut words)?),
        Keyword::Run => Line::Run(trial(&mut words)?),
        Keyword::Picture => Line::Picture(trial(&mut words)?),
        Keyword::Fresh => Line::Fresh,
    };
    words.end()?;
    Ok(line)
}

fn tick(words: &mut Words) -> Result<Tick, Unreadable> {
    let control = ControlWord(words.hexadecimal(4)? as u16);
    let command = command(words)?;
    words.take("at", |word| (word == b"at").then_some(()))?;
    Ok(Tick {
        control,
        command,
        position: words.i32()?,
        switches: words.take("switches", switches)?,
        standstill: words.take("still or moving", |word| match word {
            b"still" => Some(true),
            b"moving" => Some(false),
            _ => None,
        })?,
        limit_set: words.take("set1 or set2", |word| match word {
            b"set1" => Some(LimitSet::Set1),
            b"set2" => Some(LimitSet::Set2),
            _ => None,
        })?,
        alarm: words.hexadecimal(8)?,
    })
}

#[derive(Clone, Copy)]
enum CommandName {
    Hybrid,
    Homing,
    Position,
    Torque,
    Rest,
}

fn command(words: &mut Words) -> Result<Command, Unreadable> {
    let name = words.take("a command", |word| match word {
        b"hybrid" => Some(CommandName::Hybrid),
        b"homing" => Some(CommandName::Homing),
        b"position" => Some(CommandName::Position),
        b"torque" => Some(CommandName::Torque),
        b"rest" => Some(CommandName::Rest),
        _ => None,
    })?;
    Ok(match name {
        CommandName::Hybrid => Command::Hybrid(Hybrid {
            kp: words.float()?,
            kd: words.float()?,
            pd: words.float()?,
            vd: words.float()?,
            t: words.float()?,
            p: words.float()?,
            v: words.float()?,
        }),
        CommandName::Homing => Command::Homing { request: words.i16()? },
        CommandName::Position => Command::Position { target: words.i32()?, request: words.i16()? },
        CommandName::Torque => Command::Torque { request: words.i16()? },
        CommandName::Rest => Command::Rest,
    })
}

/// Each of the four characters is its switch's letter or `-`.
fn switches(word: &[u8]) -> Option<Switches> {
    let [p, n, h, z] = *word else {
        return None;
    };
    let on = |character: u8, letter: u8| match character {
        b'-' => Some(false),
        _ if character == letter => Some(true),
        _ => None,
    };
    Some(Switches { pot: on(p, b'P')?, not: on(n, b'N')?, hom: on(h, b'H')?, z: on(z, b'Z')? })
}

fn length(words: &mut Words) -> Result<usize, Unreadable> {
    words.take("a whole number", |word| {
        let length = numerals::u32(word)?;
        (length <= LONGEST_BUFFER).then_some(length as usize)
    })
}

/// The fifteen fields that every such line has; homing torque is the maximum where none is given.
fn settings(words: &mut Words) -> Result<Settings, Unreadable> {
    let read = Settings {
        method: words.u32()?.into(),
        fast: words.u32()?.into(),
        slow: words.u32()?.into(),
        offset: words.i32()?.into(),
        numerator: words.u32()?.into(),
        denominator: words.u32()?.into(),
        lower_stop: words.i32()?.into(),
        upper_stop: words.i32()?.into(),
        maximum_torque: words.u32()?.into(),
        positive_1: words.u32()?.into(),
        negative_1: words.u32()?.into(),
        positive_2: words.u32()?.into(),
        negative_2: words.u32()?.into(),
        quick_stop_option: words.u32()?.into(),
        rated_torque: words.u32()?.into(),
        ..Settings::default()
    };
    Ok(Settings { homing_torque: read.maximum_torque, ..read })
}

/// "A word after RATED is read by `layout` and `settings` as HOMING."
fn settings_and_homing(words: &mut Words) -> Result<Settings, Unreadable> {
    let mut read = settings(words)?;
    if !words.are_over() {
        read.homing_torque = words.u32()?.into();
    }
    Ok(read)
}

fn rail(words: &mut Words) -> Result<Rail, Unreadable> {
    Ok(Rail {
        length: words.u32()?.into(),
        cam: words.u32()?.into(),
        width: words.u32()?.into(),
        fast: words.u32()?.into(),
        slow: words.u32()?.into(),
    })
}

fn trial(words: &mut Words) -> Result<Trial, Unreadable> {
    Ok(Trial { start: words.i32()?.into(), ticks: words.u32()?.into() })
}
