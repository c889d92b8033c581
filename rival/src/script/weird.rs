//! Lines that are none: each place of each line with a word that is not accepted, missing, or one too many; lines too long;
//! bytes of all sorts. And lines that only look odd.

use std::io::Write;

use super::Script;
use crate::lines::LONGEST;

const TICK: &str = "tick 0006 rest at 0 ---- still set1 0";
const TICK_HYBRID: &str = "tick 000F hybrid 1 2 3 4 5 6 7 at -5 P-H- moving set2 FFFFFFFF";
const TICK_POSITION: &str = "tick F position -2147483648 -32768 at 2147483647 PNHZ moving set2 1";
const TICK_HOMING: &str = "tick 1f homing 32767 at -2147483648 -N-Z still set1 0";
const WORD: &str = "word 00000001";
const SHEET: &str = "sheet 15 23 20000 1000 0 3 2 -1000 1000 1000 800 600 300 300 2 2000";

const LAYOUT: &str = "layout 2 16 23 20000 1000 0 3 2 -2147483648 2147483647 1000 800 600 300 300 2 2000";

const LAYOUT_HOMING: &str = "layout 3 16 23 20000 1000 0 3 2 -1000 1000 1000 800 600 300 300 2 2000 250";

const LINES: [&str; 8] = [TICK, TICK_HYBRID, TICK_POSITION, TICK_HOMING, WORD, SHEET, LAYOUT, LAYOUT_HOMING];

/// A line, the place of one of its words, and words that are not accepted there.
const WRONG: [(&str, usize, &[&str]); 21] = [
    (TICK, 0, &["Tick", "ticks", "help", "\u{0}tick", "tick\u{b5}", "tick\r", "-", "TICK"]),
    (WORD, 1, &["0000000g", "123456789", "0x1", "-1", "000000001", "1h"]),
    (TICK, 1, &["00006", "12345", "xyz", "-6", "+6", "6."]),
    (TICK, 2, &["Rest", "hold", "REST", "0", "at"]),
    (TICK, 3, &["At", "@", "0", "att"]),
    (TICK, 4, &["+5", "--5", "-", "5.0", "2147483648", "-2147483649", "12345678901", "00000000001", "x5"]),
    (TICK, 5, &["---", "-----", "N---", "pnhz", "PNHz", "PNZH", "0000"]),
    (TICK, 6, &["asleep", "Still", "stil", "stills", "moving!"]),
    (TICK, 7, &["set3", "set", "SET1", "1", "set12"]),
    (TICK, 8, &["100000000", "0x0", "g", "-0"]),
    (TICK_POSITION, 3, &["2147483648", "five", "-2147483649", "99999999999"]),
    (TICK_POSITION, 4, &["32768", "-32769", "at", "65536", "-", "+1"]),
    (TICK_HOMING, 3, &["32768", "-32769", "4294967296", "1e3"]),
    (TICK_HYBRID, 3, &["1.", ".5", "1.2.3", "1234567890", "0.123456789", "-", "", "-.5", "+1", "1e5", "nan", "inf"]),
    (TICK_HYBRID, 9, &["x7f80000", "x7f8000000", "X3f800000", "-x3f800000", "0x3f800000", "x3f80000g", "x", "--1", "1,5", "."]),
    (SHEET, 1, &["33", "-1", "-0", "4294967296", "99999999999", "00000000015", "fifteen"]),
    (SHEET, 2, &["-1", "-0", "4294967296", "23.0", "+23"]),
    (LAYOUT, 0, &["Layout", "layouts", "layou", "LAYOUT"]),
    (LAYOUT, 1, &["-1", "-0", "4294967296", "00000000002", "two", "+2", "0x2", "2.0"]),
    (LAYOUT, 2, &["33", "-1", "4294967296", "x"]),
    (LAYOUT_HOMING, 18, &["-1", "-0", "4294967296", "00000000250", "x", "+250", "250.0"]),
];

/// Signed and unsigned places further on in a `sheet` line, and one further in a `layout` line.
const WRONG_SETTINGS: [(usize, &str); 6] =
    [(5, "2147483648"), (5, "-2147483649"), (8, "-99999999999"), (9, "4294967296"), (10, "-5"), (16, "18446744073709551616")];

/// Lines that look odd and are read all the same, by what the layout says.
const ODD: [&[u8]; 17] = [
    b"",
    b" ",
    b"\t \t",
    b"#",
    b"   # only a comment",
    b"# a comment \x00\x01\x80\xff with any bytes # and another",
    b"\t sheet\t15  0023 20000 1000 -0 3 2 -00001000 0000001000 1000 800 600 300 300 2 2000\t# tabs",
    b"sheet 0000000003 0 0 0 0 0 0 0 0 0 0 0 0 0 0 0",
    b"sheet 15 4294967295 4294967295 4294967295 2147483647 4294967295 4294967295 -2147483648 2147483647 4294967295 1 2 3 4 5 6#x",
    b"sheet 32 35 268435455 1 -134217728 1048576 1048576 -134217728 134217727 3000 3000 3000 3000 3000 6 16777216",
    b"layout 4294967295 0 0 0 0 0 0 0 0 0 0 0 0 0 0 0 0",
    b"layout\t0000000002 0000000016 35 1 1 -0 1 4 -2147483648 2147483647 0 0 0 0 0 2 1 # long",
    b"layout 1 32 35 1 1 -134217729 1 4 -2147483648 2147483647 0 0 0 0 0 2 1",
    b"layout 3 16 35 1 1 0 1 4 -1 1 3000 0 0 0 0 6 1\t0000003000 # and no more",
    b"layout 2 16 35 1 1 0 1 4 -1 1 5 0 0 0 0 6 1 4294967295#",
    b"\r",
    b"\x0b",
];

impl<W: Write> Script<W> {
    /// Tabs, spaces and a comment around the same words.
    pub(super) fn dress(&mut self, line: &str) -> Vec<u8> {
        let mut dressed = Vec::new();
        if self.random.once_in(3) {
            dressed.extend(b" \t");
        }
        for (place, word) in line.split(' ').enumerate() {
            if place > 0 {
                dressed.extend_from_slice(self.random.pick(&[&b" "[..], b"  ", b"\t", b" \t ", b" "]));
            }
            dressed.extend(word.bytes());
        }
        if self.random.once_in(3) {
            dressed.extend(b"  ");
        }
        if self.random.once_in(2) {
            dressed.extend_from_slice(self.random.pick(&[
                &b"# why not"[..],
                b"#",
                b" # tick word # sheet",
                b"#\x00\xfe\xff",
                b"# \r",
            ]));
        }
        dressed
    }

    pub(super) fn wrong_word(&mut self, line: &str, place: usize, wrong: &str) {
        let words: Vec<&str> = line.split(' ').enumerate().map(|(at, word)| if at == place { wrong } else { word }).collect();
        // The micro sign stands for a byte that is no text at all.
        let bytes: Vec<u8> = words.join(" ").chars().map(|character| character as u8).collect();
        self.emit(&bytes, b"\n");
    }

    pub(super) fn cut_short(&mut self, line: &str, words: usize) {
        let kept: Vec<&str> = line.split(' ').take(words).collect();
        let tail = self.random.pick(&["", "", " ", "   ", "#", " # the rest is missing", "\t"]);
        let end: &[u8] = if self.random.once_in(4) { b"\r\n" } else { b"\n" };
        self.emit(format!("{}{tail}", kept.join(" ")).as_bytes(), end);
    }

    pub(super) fn one_too_many(&mut self, line: &str) {
        let extra = self.random.pick(&[" 0", "  end", "\tx # y", " tick", " \u{1}"]);
        self.emit(format!("{line}{extra}").as_bytes(), b"\n");
    }

    /// A line brought to this length by spaces or by a comment.
    fn long_line(&mut self, line: &str, length: usize, filler: u8, end: &[u8]) {
        let mut bytes = line.as_bytes().to_vec();
        if filler != b' ' {
            bytes.extend(b" #");
        }
        bytes.resize(length, filler);
        self.emit(&bytes, end);
    }

    /// All of them, once a round.
    pub(super) fn unreadables(&mut self) {
        for (line, place, words) in WRONG {
            for wrong in words {
                self.wrong_word(line, place, wrong);
            }
        }
        for (place, wrong) in WRONG_SETTINGS {
            self.wrong_word(SHEET, place, wrong);
            self.wrong_word(LAYOUT, place + 1, wrong);
        }
        for line in LINES {
            for words in 1..line.split(' ').count() {
                if line == TICK || line == WORD || self.random.once_in(3) {
                    self.cut_short(line, words);
                }
            }
            self.one_too_many(line);
        }
        self.cut_short(TICK_POSITION, 3);
        self.cut_short(TICK_HYBRID, 3);
        self.cut_short(SHEET, 1);
        for words in [1, 2, 3, 17] {
            self.cut_short(LAYOUT, words);
        }
        self.one_too_many("fresh");
        self.emit(format!("{SHEET} 1000").as_bytes(), b"\n"); // a homing torque, but not here
        for odd in ODD {
            let end = self.random.pick(&[&b"\n"[..], b"\r\n"]);
            self.emit(odd, end);
        }
        for length in LONGEST - 1..=LONGEST + 2 {
            for end in [&b"\n"[..], b"\r\n"] {
                self.long_line(WORD, length, b' ', end);
                self.long_line("", length, b'.', end);
            }
        }
        self.long_line("fresh?", 3000, 0xC3, b"\n");
        self.long_line("", LONGEST, b'\r', b"\n");
        self.long_line("", LONGEST + 1, b'\r', b"\n");
        self.long_line("", LONGEST + 2, b'\r', b"\n");
    }

    /// Any one of them.
    pub(super) fn weird_line(&mut self) {
        let line = self.random.pick(&LINES);
        let count = line.split(' ').count() as i64;
        match self.random.between(0, 6) {
            0 => {
                let (line, place, words) = self.random.pick(&WRONG);
                let wrong = self.random.pick(words);
                self.wrong_word(line, place, wrong);
            }
            1 => {
                let words = self.random.between(1, count - 1) as usize;
                self.cut_short(line, words);
            }
            2 => self.one_too_many(line),
            3 => {
                let odd = self.random.pick(&ODD);
                self.emit(odd, b"\n");
            }
            4 => {
                // A wrong word anywhere.
                let place = self.random.between(0, count - 1) as usize;
                let wrong =
                    self.random.pick(&["?", "\u{0}", "\u{ff}", "tock", "set0", "stall", "-----", "x", "-", "99999999999"]);
                self.wrong_word(line, place, wrong);
            }
            5 => {
                let rubbish: Vec<u8> = (0..self.random.between(1, 40)).map(|_| self.random.bits() as u8).collect();
                let one_line: Vec<u8> = rubbish.into_iter().filter(|&byte| byte != b'\n').collect();
                self.emit(&one_line, b"\n");
            }
            _ => {
                let length = self.random.between(LONGEST as i64 - 2, LONGEST as i64 + 3) as usize;
                let end = self.random.pick(&[&b"\n"[..], b"\r\n"]);
                self.long_line("#", length, b'-', end);
            }
        }
    }
}
