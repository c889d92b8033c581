//! Sheets tried on paper rails: examples, the promise, the picture, and what a script of rails tells of wrong simulators.

use rival::axis::Axis;
use rival::command::Command;
use rival::control_word::ControlWord;
use rival::homing::{Homing, Leg, Speed, METHODS};
use rival::lines::{next_text, read, Line, Trial};
use rival::program::Program;
use rival::rail::Rail;
use rival::refusal::Refusal;
use rival::script::{sheet_s, Script};
use rival::sheet::{LimitSet, LONGEST};
use rival::simulator::{self, Run, Stop};
use rival::tally::Tally;
use rival::tick::{Switches, Tick};
use rival::writer::{self, Settings};

fn answers(script: &[u8]) -> String {
    let (mut input, mut program, mut answers) = (script, Program::default(), String::new());
    while let Some(text) = next_text(&mut input).expect("bytes in memory can be read") {
        if let Some(answer) = program.answer(&text) {
            answers += &answer;
            answers += "\n";
        }
    }
    answers
}

fn rail(length: i64, cam: i64, width: i64, fast: i64, slow: i64) -> Rail {
    Rail { length, cam, width, fast, slow }
}

fn run(method: u32, rail: Rail, start: i64, ticks: i64) -> Run {
    let settings = Settings { method: i64::from(method), ..sheet_s() };
    simulator::run(&rail, &settings, start, ticks).expect("the rail is fit and the sheet acceptable")
}

/// Just enough ticks are enough, one less is too few, and one more changes nothing.
fn ends(method: u32, rail: Rail, start: i64, (ticks, stop, cell): (i64, Stop, i64)) {
    for given in [ticks, ticks + 1, 1 << 24] {
        let run = run(method, rail, start, given);
        assert_eq!((run.ticks, run.stop, run.cell), (ticks, stop, cell), "{method}, {rail:?}, {start}, {given}");
    }
    if ticks > 1 {
        let run = run(method, rail, start, ticks - 1);
        assert_eq!((run.ticks, run.stop), (ticks - 1, Stop::Ticks), "{method}, {rail:?}, {start}");
    }
}

#[test]
fn by_hand() {
    let short = rail(20, 5, 3, 2, 1);
    ends(23, short, 19, (14, Stop::Homed, 4));
    ends(23, short, 6, (3, Stop::Homed, 4)); // on the cam: -S at 5 and 4
    ends(23, short, 3, (3, Stop::Homed, 4)); // +F to 5, -S back to 4
    ends(24, short, 4, (5, Stop::Homed, 5)); // +F to 6, -S to 5 and 4, +S to 5
    ends(25, short, 6, (4, Stop::Homed, 7)); // +S at 7 and 8, -S to 7
    ends(26, short, 7, (2, Stop::Homed, 8));
    ends(27, short, 6, (3, Stop::Homed, 8));
    ends(30, short, 6, (3, Stop::Homed, 4));
    ends(17, short, 0, (4, Stop::Homed, 0)); // -F to -2, +S to -1 and 0
    ends(35, short, 11, (1, Stop::Homed, 11));
    ends(34, short, 18, (3, Stop::Error, 20));
    ends(33, short, 1, (3, Stop::Error, -1));
    ends(2, short, 19, (24, Stop::Error, -1)); // +F to 21, -S to 19, and on to the other limit
}

/// Rails that do not meet the promise: a step over the cam, and one back over it.
#[test]
fn without_the_promise() {
    ends(23, rail(5, 2, 1, 2, 1), 1, (6, Stop::Error, -1));
    ends(25, rail(3, 1, 1, 1, 2), 0, (5, Stop::Error, -2));
}

#[test]
fn the_promised_ticks() {
    assert_eq!(rail(20, 5, 3, 2, 1).promised_ticks(), 93);
    assert_eq!(rail(20, 5, 3, 3, 2).promised_ticks(), 53); // the half is rounded up
    assert!(rail(20, 5, 3, 2, 1).is_roomy() && rail(3, 1, 1, 1, 1).is_roomy());
    for (place, missed) in
        [rail(4, 1, 1, 1, 2), rail(6, 2, 1, 2, 1), rail(6, 1, 2, 2, 1), rail(2, 1, 1, 1, 1)].iter().enumerate()
    {
        assert!(missed.is_fit() && !missed.is_roomy(), "{place}");
    }
}

fn rails_up_to(longest: i64) -> impl Iterator<Item = Rail> {
    let cams = (2..=longest).flat_map(|length| (1..length).map(move |cam| (length, cam)));
    let widths = cams.flat_map(|(length, cam)| (1..=length - cam).map(move |width| (length, cam, width)));
    widths.flat_map(move |(length, cam, width)| {
        (1..=longest).flat_map(move |fast| (1..=longest).map(move |slow| rail(length, cam, width, fast, slow)))
    })
}

/// Every small rail, every start. Of the promise's inequalities s <= f <= w would do: where a step leads off the cam and onto a
/// limit, the leg's own event comes first.
#[test]
fn the_promise_on_small_rails() {
    let (mut roomy, mut narrow, mut errors) = (0, 0, 0);
    for rail in rails_up_to(9) {
        for (method, start) in (23..=30).flat_map(|method| (0..rail.length).map(move |start| (method, start))) {
            let run = run(method, rail, start, rail.promised_ticks());
            let homed = run.stop == Stop::Homed;
            if rail.slow <= rail.fast && rail.fast <= rail.width {
                assert!(homed, "{method}, {rail:?}, {start}");
                *if rail.is_roomy() { &mut roomy } else { &mut narrow } += 1;
            }
            errors += usize::from(run.stop == Stop::Error);
        }
    }
    assert!(roomy > 1000 && narrow > 1000 && errors > 1000, "{roomy} {narrow} {errors}");
}

const SETTINGS: &str = "settings 23 20000 500 0 1 1 -8388608 8388607 1000 800 600 300 200 2 1600";

#[test]
fn picture_of_the_layout() {
    let script = format!("{SETTINGS}\nrail 20 5 3 2 1\npicture 19 100\n");
    let expected = "settings\n\
        rail\n\
        picture 0 ticks 14 stop homed\n\
        N.....###............P cells 20\n\
        |                   S| start 19\n\
        |                   => +F ticks 1\n\
        |       <============= -F ticks 7\n\
        |       ->           | +S ticks 1\n\
        |    <----           | -S ticks 4\n\
        |    H               | home 4\n";
    assert_eq!(answers(script.as_bytes()), expected);
}

/// Of 59 cells two share the first column; the row ends with the longest text there is.
#[test]
fn scaled_pictures() {
    let dots = ".".repeat(56);
    let blanks = " ".repeat(57);
    let script = format!("{SETTINGS}\nrail 59 1 1 1 1\npicture 1 1\nrail 1048576 524288 1 1 1\npicture 1048575 3\n");
    let expected = format!(
        "settings\nrail\npicture 0 ticks 1 stop ticks\nN#{dots}.P cells 59\n|S{blanks}| start 1\n|T{blanks}| stopped 1\n\
         rail\npicture 0 ticks 3 stop ticks\nN{}#{}P cells 1048576\n|{blanks}S| start 1048575\n|{blanks}=> +F ticks 1\n\
         |{blanks}<= -F ticks 1\n|{blanks}T| stopped 1048575\n",
        ".".repeat(29),
        ".".repeat(28)
    );
    assert_eq!(answers(script.as_bytes()), expected);
}

#[test]
fn no_row_is_longer_than_80() {
    let mut script = Vec::new();
    Script::new(3, 5, &mut script).write_rails(5000).expect("memory takes all bytes");
    for line in answers(&script).lines().filter(|line| line.starts_with(['|', 'N', '<', '=', '-'])) {
        assert!(line.len() <= 80, "{line}");
    }
}

#[test]
fn unreadable_lines() {
    for (line, expected) in [
        ("settings", "9 expected a whole number"),
        ("settings 35 1 1 0 1 1 0 1 0 0 0 0 0 2", "38 expected a whole number"),
        ("settings 35 1 1 -2147483649", "17 expected a whole number"),
        ("settings 35 1 1 0 1 1 0 1 0 0 0 0 0 2 1 -0", "41 expected a whole number"),
        ("settings 35 1 1 0 1 1 0 1 0 0 0 0 0 2 1 x", "41 expected a whole number"),
        ("settings 35 1 1 0 1 1 0 1 0 0 0 0 0 2 1 0 0", "43 expected end of line"),
        ("rail 1 2 3 4 ", "14 expected a whole number"),
        ("rail 1 2 3 4 -5", "14 expected a whole number"),
        ("rail 1 2 3 4 4294967296", "14 expected a whole number"),
        ("rail 1 2 3 4 5 6", "16 expected end of line"),
        ("run # 1 1", "5 expected a whole number"),
        ("run 2147483648 1", "5 expected a whole number"),
        ("run -1 -1", "8 expected a whole number"),
        ("run 0 1 1", "9 expected end of line"),
        ("picture 0", "10 expected a whole number"),
        ("\tpicture +0 1", "10 expected a whole number"),
        ("Run 0 1", "1 expected word, tick, sheet or fresh"),
        ("rails 1 2 3 4 5", "1 expected word, tick, sheet or fresh"),
    ] {
        assert_eq!(answers(line.as_bytes()), format!("unreadable 1 {expected}\n"), "{line:?}");
    }
}

/// "tested before the sheet"; the sheet as by the writer.
#[test]
fn refused_runs() {
    let sheet = |rest: &str| format!("settings {rest}");
    let (sound, crossed) = ("23 1 1 0 1 1 0 1 0 0 0 0 0 2 1", "23 1 1 0 1 1 1 1 0 0 0 0 0 2 1");
    let (no_method, far) = ("22 1 1 0 1 1 0 1 0 0 0 0 0 2 1", "23 1 1 0 1048576 1 0 1025 0 0 0 0 0 2 1");
    let (torque, long) = ("23 1 1 0 1 1 0 1 0 0 0 0 0 2 1 3001", "23 1 1 2147483647 1 4 -2147483648 0 0 0 0 0 0 2 1 5");
    const FIT: &str = "rail 4 1 1 1 1";
    for (settings, rail, trial, expected) in [
        (sheet(sound), FIT, "0 1", "0 ticks 1 stop ticks"),
        (sheet(long), FIT, "0 1", "0 ticks 1 stop ticks"),
        (sheet(no_method), FIT, "0 1", "3 ticks 0 stop none  out of range"),
        (sheet(torque), FIT, "0 1", "3 ticks 0 stop none  out of range"),
        (sheet(crossed), FIT, "0 1", "5 ticks 0 stop none  stops crossed"),
        (sheet(far), FIT, "0 1", "6 ticks 0 stop none  out of reach"),
        (String::new(), FIT, "0 1", "3 ticks 0 stop none  out of range"),
        (sheet(sound), "", "0 1", "12 ticks 0 stop none  rail unfit"),
        (sheet(no_method), FIT, "0 0", "12 ticks 0 stop none  rail unfit"),
        (sheet(crossed), FIT, "4 1", "12 ticks 0 stop none  rail unfit"),
        (sheet(far), FIT, "-1 1", "12 ticks 0 stop none  rail unfit"),
        (sheet(sound), FIT, "0 16777216", "0 ticks 3 stop homed"),
        (sheet(sound), FIT, "0 16777217", "12 ticks 0 stop none  rail unfit"),
        (sheet(sound), "rail 2 1 1 1048576 1048576", "1 2", "0 ticks 2 stop homed"),
        (sheet(sound), "rail 1 1 1 1 1", "0 1", "12 ticks 0 stop none  rail unfit"),
        (sheet(sound), "rail 4 2 3 1 1", "0 1", "12 ticks 0 stop none  rail unfit"),
        (sheet(sound), "rail 1048577 1 1 1 1", "0 1", "12 ticks 0 stop none  rail unfit"),
        (sheet(sound), "rail 4 4294967295 4294967295 1 1", "0 1", "12 ticks 0 stop none  rail unfit"),
    ] {
        for keyword in ["run", "picture"] {
            let script = format!("{settings}\n{rail}\nfresh\n{keyword} {trial}\n");
            let answers = answers(script.as_bytes());
            let heard = answers.lines().find(|line| line.starts_with(keyword));
            assert_eq!(heard, Some(&format!("{keyword} {expected}")[..]), "{script}");
        }
    }
}

/// The axis is left alone: a script without its lines about runs gets the same answers from the axis.
#[test]
fn runs_leave_the_axis_alone() {
    let mut script = Vec::new();
    Script::new(4, 0, &mut script).write_rails(5000).expect("memory takes all bytes");
    let about_runs = |line: &&[u8]| {
        let text = next_text(&mut &line[..]).ok().flatten();
        matches!(
            text.as_ref().map(read),
            Some(Ok(Line::Settings(_) | Line::Rail(_) | Line::Run(_) | Line::Picture(_)) | Err(_))
        )
    };
    let without: Vec<u8> =
        script.split_inclusive(|&byte| byte == b'\n').filter(|line| !about_runs(line)).flatten().copied().collect();
    let of_the_axis = |answers: String| -> Vec<String> {
        let keywords = ["fresh", "word", "tick", "sheet", "layout"];
        let heard = answers.lines().filter(|line| keywords.iter().any(|keyword| line.split(' ').next() == Some(*keyword)));
        heard.map(String::from).collect()
    };
    let (with, without) = (of_the_axis(answers(&script)), of_the_axis(answers(&without)));
    assert!(with.len() > 100);
    assert_eq!(with, without);
}

#[test]
fn the_tally_misses_nothing() {
    let mut tally = Tally::default();
    let mut script = Vec::new();
    Script::new(1, 5, &mut script).write_rails(20_000).expect("memory takes all bytes");
    script.split_inclusive(|&byte| byte == b'\n').for_each(|line| tally.line(line));
    for (name, count) in tally.rails_table() {
        assert!(count > 0, "{name}");
    }
}

/// What a wrong simulator does.
#[derive(Clone, Copy, Debug, PartialEq, Eq)]
enum Slip {
    Nothing,
    MovesBeforeTheStartTick,
    CoastsOneTick,
    PotFromLPlus1,
    NotFromCell0,
    CamOneCellShort,
    CamOneCellLate,
    StartTickNotCounted,
    TicksBeforeHomed,
    FAndSSwapped,
    RailAfterTheSheet,
    SheetInLayout1,
    SheetInLayout2,
    CamNotToTheEnd,
    StartAtL,
    TwoPow24Refused,
}

use Slip::*;

const SLIPS: [Slip; 15] = [
    MovesBeforeTheStartTick,
    CoastsOneTick,
    PotFromLPlus1,
    NotFromCell0,
    CamOneCellShort,
    CamOneCellLate,
    StartTickNotCounted,
    TicksBeforeHomed,
    FAndSSwapped,
    RailAfterTheSheet,
    SheetInLayout1,
    SheetInLayout2,
    CamNotToTheEnd,
    StartAtL,
    TwoPow24Refused,
];

impl Slip {
    fn switches(self, rail: &Rail, cell: i64) -> Switches {
        let (first, behind) = match self {
            CamOneCellShort => (rail.cam, rail.cam + rail.width - 1),
            CamOneCellLate => (rail.cam + 1, rail.cam + rail.width + 1),
            _ => (rail.cam, rail.cam + rail.width),
        };
        Switches {
            pot: cell >= rail.length + i64::from(self == PotFromLPlus1),
            not: cell < i64::from(self == NotFromCell0),
            hom: (first..behind).contains(&cell),
            z: false,
        }
    }

    fn tick(self, rail: &Rail, control: u16, cell: i64) -> Tick {
        Tick {
            control: ControlWord(control),
            command: Command::Homing { request: 0 },
            position: cell as i32,
            switches: self.switches(rail, cell),
            standstill: true,
            limit_set: LimitSet::Set2,
            alarm: 0,
        }
    }

    fn step(self, rail: &Rail, Leg(direction, speed, _): Leg) -> i64 {
        let fast = (speed == Speed::Fast) != (self == FAndSSwapped);
        i64::from(direction) * if fast { rail.fast } else { rail.slow }
    }

    fn unfit(self, rail: &Rail, Trial { start, ticks }: Trial) -> bool {
        let most_ticks = (1 << 24) - i64::from(self == TwoPow24Refused);
        !rail.measures().iter().all(|measure| (1..=1 << 20).contains(measure))
            || rail.cam + rail.width > rail.length - i64::from(self == CamNotToTheEnd)
            || !(0..rail.length + i64::from(self == StartAtL)).contains(&start)
            || !(1..=most_ticks).contains(&ticks)
    }

    fn words(self, settings: &Settings) -> Result<Vec<u32>, Refusal> {
        let layout = match self {
            SheetInLayout1 => 1,
            SheetInLayout2 => 2,
            _ => 3,
        };
        let mut words = vec![0; if layout == 1 { 15 } else { LONGEST }];
        writer::write(layout, settings, &mut words).map(|()| words)
    }

    /// The number of a refusal, ticks and what stopped the run.
    fn run(self, rail: &Rail, settings: &Settings, trial: Trial) -> (u8, i64, Option<Stop>) {
        let unfit = self.unfit(rail, trial);
        let refused = |refusal: Refusal| (refusal.number(), 0, None);
        let words = match self.words(settings) {
            _ if unfit && self != RailAfterTheSheet => return refused(Refusal::RailUnfit),
            Err(refusal) => return refused(refusal),
            Ok(_) if unfit => return refused(Refusal::RailUnfit),
            Ok(words) => words,
        };
        let mut axis = Axis::default();
        for word in words {
            assert_eq!(axis.word(word), Ok(()));
        }
        let mut cell = trial.start;
        for control in [0x0000, 0x0006, 0x0007, 0x000F] {
            axis.tick(&self.tick(rail, control, cell));
        }
        let mut started = axis.clone();
        started.tick(&self.tick(rail, 0x001F, cell));
        if let (MovesBeforeTheStartTick, Homing::Runs { leg, .. }) = (self, started.homing()) {
            cell += self.step(rail, leg);
        }
        axis.tick(&self.tick(rail, 0x001F, cell));
        let (mut ticks, mut before) = (i64::from(self != StartTickNotCounted), None);
        loop {
            let over = ticks == trial.ticks;
            let leg = match axis.homing() {
                _ if over && self == TicksBeforeHomed => return (0, ticks, Some(Stop::Ticks)),
                Homing::Homed { .. } => return (0, ticks, Some(Stop::Homed)),
                Homing::Error => return (0, ticks, Some(Stop::Error)),
                _ if over => return (0, ticks, Some(Stop::Ticks)),
                Homing::Runs { leg, .. } => leg,
                Homing::Idle => panic!("homing goes on until it ends"),
            };
            let coasting = before.filter(|_| self == CoastsOneTick).unwrap_or(leg);
            before = Some(leg);
            cell += self.step(rail, coasting);
            axis.tick(&self.tick(rail, 0x001F, cell));
            ticks += 1;
        }
    }
}

/// Without a slip it is a simulator like the other; with one, lines of a script tell.
#[test]
fn wrong_simulators() {
    let mut script = Vec::new();
    Script::new(1, 5, &mut script).write_rails(20_000).expect("memory takes all bytes");
    let (mut settings, mut rail) = (Settings::default(), Rail::default());
    let mut told = vec![Vec::new(); SLIPS.len()];
    for (place, line) in script.split_inclusive(|&byte| byte == b'\n').enumerate() {
        let Some(text) = next_text(&mut &line[..]).expect("bytes in memory can be read") else {
            continue;
        };
        let trial = match read(&text) {
            Ok(Line::Settings(given)) => {
                settings = *given;
                continue;
            }
            Ok(Line::Rail(given)) => {
                rail = given;
                continue;
            }
            Ok(Line::Run(trial) | Line::Picture(trial)) => trial,
            _ => continue,
        };
        let right = match simulator::run(&rail, &settings, trial.start, trial.ticks) {
            Ok(run) => (0, run.ticks, Some(run.stop)),
            Err(refusal) => (refusal.number(), 0, None),
        };
        assert_eq!(Nothing.run(&rail, &settings, trial), right, "line {}", place + 1);
        for (slip, told) in SLIPS.into_iter().zip(&mut told) {
            if slip.run(&rail, &settings, trial) != right {
                told.push(place + 1);
            }
        }
    }
    for (slip, told) in SLIPS.into_iter().zip(&told) {
        println!("{slip:?}: {} lines tell, the first are {:?}", told.len(), &told[..told.len().min(5)]);
        assert!(told.len() > 10, "{slip:?}: {told:?}");
    }
}

/// Every method has a run that ends, whatever the rail.
#[test]
fn every_run_ends() {
    for rail in rails_up_to(6) {
        let longest = 4 * ((rail.length + rail.fast.max(rail.slow)) / rail.fast.min(rail.slow) + 2) + 1;
        for (method, start) in METHODS.into_iter().flat_map(|method| (0..rail.length).map(move |start| (method, start))) {
            let run = run(method, rail, start, longest);
            assert_ne!(run.stop, Stop::Ticks, "{method}, {rail:?}, {start}");
            let expected = match method {
                1 | 2 | 33 | 34 => Stop::Error,
                17 | 18 | 35 => Stop::Homed,
                _ => run.stop,
            };
            assert_eq!(run.stop, expected, "{method}, {rail:?}, {start}");
        }
    }
}
