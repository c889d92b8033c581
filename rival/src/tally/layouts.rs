//! Layouts: where each begins and ends, what layout 1 does not hold, and the writer that is told one.

use super::{words, Tally};
use crate::gear;
use crate::lines::Unreadable;
use crate::refusal::Refusal::{self, *};
use crate::sheet::{self, Sheet, LAYOUTS};
use crate::writer::{two_faults, Settings};

/// Start data that no layout has.
const STRANGE_STARTS: [u32; 3] = [0, 4, sheet::DATA];

/// Of kind 14's bits that must be zero, the first and the last.
const SPARE_BITS: [u32; 2] = [12, 27];

/// Layouts that a line asks for.
const ASKED: [u32; 6] = [0, 1, 2, 3, 4, u32::MAX];

const LENGTHS: [usize; 6] = [0, 14, 15, 16, 17, 32];

const PLACES: [&str; 3] = ["offset", "lower stop", "upper stop"];

/// The last places of 28 bits and the first beyond, then the last of 32.
const PLACE_EDGES: [i64; 6] = [-(1 << 27) - 1, -(1 << 27), (1 << 27) - 1, 1 << 27, -(1 << 31), (1 << 31) - 1];

/// Kinds that are due where layout 3 is left for another or begun in its place: first, and right before and after kind 12.
const CHANGES: [u32; 3] = [1, 12, 13];

const SINGLE: [&str; 27] = [
    "layout 1: kind 14 where the end is due",
    "layout 1: kind 14 too early",
    "layout 2: kind 14 too early",
    "layout 2: kind 14 twice",
    "layout 2: the end where kind 14 is due",
    "layout 3: the end where kind 14 is due",
    "layout 2: bad sum, kind 14 left out",
    "layout 2: bad sum, the start counted as layout 1's",
    "layout 2: out of reach, in reach by a difference of 32 bits",
    "layout 2: 1 to 1, lower stop out of reach by one",
    "layout 2: 1 to 1, upper stop out of reach by one",
    "layout 2 taken over: no place long",
    "layout 2 taken over: all places below zero, none long",
    "layout 2 taken over: all places long",
    "layout 2 taken over: three different top bits",
    "layout 2 taken over: 1 to 1, lower stop at its last count",
    "layout 2 taken over: 1 to 1, upper stop at its last count",
    "layout 2 taken over: a difference beyond 32 bits above zero",
    "layout 2 taken over: a difference beyond 32 bits below zero",
    "layout line, layout 2: a long value written",
    "layout line, layout 2: a long value, but a short buffer",
    "layout line, layout 2: out of reach, in reach by a difference of 32 bits",
    "layout line unreadable: LAYOUT wrong",
    "layout line unreadable: LENGTH wrong",
    "layout line unreadable: a field wrong",
    "layout line unreadable: HOMING wrong",
    "layout line unreadable: one word too many",
];

/// Whether a sheet can be taken over with this place there: the lower stop is below the upper one.
fn can_hold(place: &str, value: i64) -> bool {
    match place {
        "lower stop" => value != (1 << 31) - 1,
        "upper stop" => value != -(1 << 31),
        _ => true,
    }
}

pub(super) fn names() -> Vec<String> {
    let mut names: Vec<String> = SINGLE.map(String::from).into();
    for data in STRANGE_STARTS {
        names.extend(["first", "halfway"].map(|when| format!("start data {data}, {when}")));
    }
    names.extend(SPARE_BITS.map(|bit| format!("kind 14: bit {bit} alone")));
    for layout in LAYOUTS {
        for other in LAYOUTS.into_iter().filter(|&other| other != layout) {
            let due = sheet::kinds(layout).unwrap_or_default().iter().filter(|&&due| can_change(layout, other, due));
            names.extend(due.map(|due| format!("layout {layout}: start of layout {other} with kind {due} due")));
        }
        let by_end = [BadSum, StopsCrossed, OutOfReach, AxisLive];
        names.extend(by_end.map(|refusal| format!("layout {layout}: end word refused {}", refusal.number())));
        names.extend(LAYOUTS.map(|earlier| format!("layout {layout} taken over after layout {earlier}")));
        names.extend(LAYOUTS.map(|left| format!("layout {layout} taken over, layout {left} left halfway")));
        names.extend(LENGTHS.map(|length| format!("layout line, layout {layout}: buffer of {length}")));
        for place in PLACES {
            names.extend(PLACE_EDGES.map(|value| format!("layout line, layout {layout}: {place} {value}, no other long")));
        }
    }
    for place in PLACES {
        names.push(format!("layout 2 taken over: only {place} long"));
        let held = PLACE_EDGES.into_iter().filter(|&value| can_hold(place, value));
        names.extend(held.map(|value| format!("layout 2 taken over: {place} {value}")));
    }
    names.extend(ASKED.map(|layout| format!("layout line: layout {layout}")));
    names.extend(["LAYOUT", "LENGTH", "a field"].map(|what| format!("layout line unreadable: {what} missing")));
    for layout in LAYOUTS.into_iter().chain([0]) {
        names.extend(two_faults(layout).into_iter().map(|(said, unsaid)| order(layout, said, unsaid)));
    }
    names
}

/// Whether a start of the other layout is to be seen where this kind is due.
fn can_change(layout: u32, other: u32, due: u32) -> bool {
    if layout == 3 || other == 3 {
        CHANGES.contains(&due)
    } else {
        due != sheet::START
    }
}

/// Layouts nobody defined are 0 here.
fn order(layout: u32, said: Refusal, unsaid: Refusal) -> String {
    let layout = if layout == 0 { "no layout".to_string() } else { format!("layout {layout}") };
    format!("layout line, {layout}: {} said before {}", said.number(), unsaid.number())
}

/// Whether a stop is in reach by the low 32 bits of its difference, or by all of it.
fn in_reach(s: &Settings, stop: i64, cut: bool) -> bool {
    let difference = stop - s.offset;
    let difference = if cut { i64::from(difference as i32) } else { difference };
    let product = i128::from(difference) * i128::from(s.numerator);
    product.div_euclid(i128::from(s.denominator.max(1))).abs() <= 1 << 30
}

fn both_in_reach(s: &Settings, cut: bool) -> bool {
    in_reach(s, s.lower_stop, cut) && in_reach(s, s.upper_stop, cut)
}

/// Everything that the writer could refuse, in the order in which it is said; where nobody defined the layout, as if it were
/// layout 1.
fn faults(layout: u32, length: usize, s: &Settings) -> Vec<Refusal> {
    let defined = LAYOUTS.contains(&layout);
    let like = if defined { layout } else { 1 };
    let room = if like == 1 { 15 } else { 16 };
    let faults = [
        (StrangeLayout, !defined),
        (ShortBuffer, length < room),
        (LongValue, like == 1 && s.is_long()),
        (HomingTorqueLost, like != 3 && s.homing_torque != s.maximum_torque),
        (OutOfRange, s.words(3).is_none()),
        (StopsCrossed, s.lower_stop >= s.upper_stop),
        (OutOfReach, !both_in_reach(s, false)),
    ];
    faults.into_iter().filter(|&(_, there)| there).map(|(refusal, _)| refusal).collect()
}

fn settings_of(sheet: &Sheet) -> Settings {
    let [offset, numerator, denominator, lower_stop, upper_stop] =
        [sheet.offset(), sheet.numerator(), sheet.denominator(), sheet.lower_stop(), sheet.upper_stop()].map(i64::from);
    Settings { offset, numerator, denominator, lower_stop, upper_stop, ..Settings::default() }
}

impl Tally {
    /// A word, and the run of due words before it.
    pub(super) fn saw_run(&mut self, run: &[u32], word: u32, heard: Result<(), Refusal>) {
        let (kind, data) = (sheet::kind(word), sheet::data(word));
        let layout = run.first().map(|&start| sheet::data(start));
        let due = layout.and_then(sheet::kinds).map_or(sheet::START, |kinds| kinds[run.len()]);
        if kind == sheet::START {
            let when = if run.is_empty() { "first" } else { "halfway" };
            self.saw_if(STRANGE_STARTS.contains(&data), &format!("start data {data}, {when}"));
            if heard.is_ok() {
                self.left = layout;
            }
        }
        let Some(layout) = layout else {
            return;
        };
        let other = kind == sheet::START && heard.is_ok() && data != layout && can_change(layout, data, due);
        self.saw_if(other, &format!("layout {layout}: start of layout {data} with kind {due} due"));
        match (layout, kind) {
            (1, sheet::TOP_BITS) if due == sheet::END => self.saw("layout 1: kind 14 where the end is due"),
            (2, sheet::TOP_BITS) if due == sheet::END => self.saw("layout 2: kind 14 twice"),
            (1 | 2, sheet::TOP_BITS) if due != kind => self.saw(&format!("layout {layout}: kind 14 too early")),
            (_, sheet::END) if due == sheet::TOP_BITS && data == sheet::sum(run) => {
                self.saw(&format!("layout {layout}: the end where kind 14 is due"));
            }
            _ => {}
        }
        let alone = |bit: &u32| kind == due && kind == sheet::TOP_BITS && data >> 12 == 1 << (bit - 12);
        if let Some(bit) = SPARE_BITS.into_iter().find(alone) {
            self.saw(&format!("kind 14: bit {bit} alone"));
        }
        if let (Err(refusal), sheet::END, true) = (heard, kind, kind == due) {
            self.saw(&format!("layout {layout}: end word refused {}", refusal.number()));
            if layout == 2 {
                self.saw_refused_end(run, word, refusal);
            }
        }
        self.saw_option_word(layout, run, word, heard);
    }

    fn saw_refused_end(&mut self, run: &[u32], end: u32, refusal: Refusal) {
        let data = sheet::data(end);
        if refusal == BadSum {
            self.saw_if(data == sheet::sum(&run[..14]), "layout 2: bad sum, kind 14 left out");
            self.saw_if(data + 1 == sheet::sum(run), "layout 2: bad sum, the start counted as layout 1's");
        }
        if refusal == OutOfReach {
            let s = settings_of(&Sheet::of(&[run, &[end]].concat()));
            self.saw_if(both_in_reach(&s, true), "layout 2: out of reach, in reach by a difference of 32 bits");
            let straight = s.numerator == s.denominator;
            let (lower, upper) = (s.lower_stop - s.offset, s.upper_stop - s.offset);
            self.saw_if(straight && lower == -(1 << 30) - 1, "layout 2: 1 to 1, lower stop out of reach by one");
            self.saw_if(straight && upper == (1 << 30) + 1, "layout 2: 1 to 1, upper stop out of reach by one");
        }
    }

    /// A sheet that is taken over, and the one in force before.
    pub(super) fn saw_layout(&mut self, sheet: &Sheet, earlier: Option<&Sheet>) {
        let layout = sheet.layout();
        if let Some(earlier) = earlier {
            self.saw(&format!("layout {layout} taken over after layout {}", earlier.layout()));
        }
        if let Some(left) = self.left {
            self.saw(&format!("layout {layout} taken over, layout {left} left halfway"));
        }
        match layout {
            2 => self.saw_places(sheet),
            3 => self.saw_homing_torque(sheet),
            _ => {}
        }
    }

    fn saw_places(&mut self, sheet: &Sheet) {
        let places = [sheet.offset(), sheet.lower_stop(), sheet.upper_stop()].map(i64::from);
        let long = places.map(sheet::is_long);
        let how_many = long.iter().filter(|&&long| long).count();
        for (name, (place, long)) in PLACES.into_iter().zip(places.into_iter().zip(long)) {
            self.saw_if(long && how_many == 1, &format!("layout 2 taken over: only {name} long"));
            self.saw_if(PLACE_EDGES.contains(&place), &format!("layout 2 taken over: {name} {place}"));
        }
        self.saw_if(how_many == 0, "layout 2 taken over: no place long");
        let below = places.iter().all(|&place| place < 0);
        self.saw_if(how_many == 0 && below, "layout 2 taken over: all places below zero, none long");
        self.saw_if(how_many == 3, "layout 2 taken over: all places long");
        let [a, b, c] = places.map(|place| place >> 28);
        self.saw_if(a != b && b != c && c != a, "layout 2 taken over: three different top bits");
        let [lower, upper] = [sheet.lower_stop(), sheet.upper_stop()].map(|stop| gear::counts(sheet, stop));
        let straight = sheet.numerator() == sheet.denominator();
        self.saw_if(straight && lower == -(1 << 30), "layout 2 taken over: 1 to 1, lower stop at its last count");
        self.saw_if(straight && upper == 1 << 30, "layout 2 taken over: 1 to 1, upper stop at its last count");
        let (lower, upper) = (places[1] - places[0], places[2] - places[0]);
        self.saw_if(upper >= 1 << 31, "layout 2 taken over: a difference beyond 32 bits above zero");
        self.saw_if(lower < -(1 << 31), "layout 2 taken over: a difference beyond 32 bits below zero");
    }

    pub(super) fn saw_layout_line(&mut self, layout: u32, length: usize, settings: &Settings) {
        self.saw_if(ASKED.contains(&layout), &format!("layout line: layout {layout}"));
        let faults = faults(layout, length, settings);
        let defined = LAYOUTS.contains(&layout);
        if let Some((&said, unsaid)) = faults.split_first() {
            let layout = if defined { layout } else { 0 };
            for &unsaid in unsaid {
                self.saw(&order(layout, said, unsaid));
            }
        }
        if !defined {
            return;
        }
        self.saw_if(LENGTHS.contains(&length), &format!("layout line, layout {layout}: buffer of {length}"));
        let long = settings.is_long();
        if layout == 2 {
            self.saw_if(long && faults.is_empty(), "layout line, layout 2: a long value written");
            self.saw_if(long && faults == [ShortBuffer], "layout line, layout 2: a long value, but a short buffer");
            let cut = faults == [OutOfReach] && both_in_reach(settings, true);
            self.saw_if(cut, "layout line, layout 2: out of reach, in reach by a difference of 32 bits");
        }
        let places = [settings.offset, settings.lower_stop, settings.upper_stop];
        for (at, name) in PLACES.into_iter().enumerate() {
            let others = (0..3).filter(|&other| other != at).any(|other| sheet::is_long(places[other]));
            if !others && !faults.contains(&ShortBuffer) && PLACE_EDGES.contains(&places[at]) {
                self.saw(&format!("layout line, layout {layout}: {name} {}, no other long", places[at]));
            }
        }
    }

    /// A `layout` line that cannot be read: which of its words, and how.
    pub(super) fn saw_unreadable_layout(&mut self, before_comment: &[u8], unreadable: &Unreadable) {
        let Unreadable::Expected { column, .. } = unreadable else {
            return;
        };
        let mut words = words(&before_comment[..column - 1]);
        if words.next() != Some(b"layout") {
            return;
        }
        let how = if *column > before_comment.len() { "missing" } else { "wrong" };
        match words.count() {
            0 => self.saw(&format!("layout line unreadable: LAYOUT {how}")),
            1 => self.saw(&format!("layout line unreadable: LENGTH {how}")),
            2..=16 => self.saw(&format!("layout line unreadable: a field {how}")),
            17 => self.saw("layout line unreadable: HOMING wrong"),
            _ => self.saw("layout line unreadable: one word too many"),
        }
    }
}
