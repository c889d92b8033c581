//! The scripts of the program crates get the answers beside them.

use std::fs;
use std::path::Path;

use rival::lines::next_text;
use rival::program::Program;

fn answers(script: &[u8]) -> String {
    let mut input = script;
    let mut program = Program::default();
    let mut answers = String::new();
    while let Some(text) = next_text(&mut input).expect("bytes in memory can be read") {
        if let Some(answer) = program.answer(&text) {
            answers += &answer;
            answers += "\n";
        }
    }
    answers
}

#[test]
fn scripts_of_the_programs() {
    let crates = Path::new(env!("CARGO_MANIFEST_DIR")).join("../crates");
    for name in ["examples", "rail", "torn", "maximum", "simulate", "show"] {
        let script = fs::read(crates.join(name).join("stdin")).expect("the script is there");
        let expected = fs::read_to_string(crates.join(name).join("stdout")).expect("its answers are there");
        assert_eq!(answers(&script), expected, "{name}");
    }
}

#[test]
fn example_of_the_layout() {
    let script = b"word 00000001\ntick 0006 rest at 0 ---- still set1 0\ntick 0006 rest at 0 ---- asleep set1 0";
    assert_eq!(
        answers(script),
        "word 0\n\
         tick 8 torque 0 speed 0 position 0 status 0000 mode 0 alarm 0  no sheet\n\
         unreadable 3 26 expected still or moving\n"
    );
}

#[test]
fn columns() {
    for (line, expected) in [
        ("word", "5 expected hexadecimal digits"),
        ("word   #x", "8 expected hexadecimal digits"),
        ("word#", "5 expected hexadecimal digits"),
        ("word \r", "6 expected hexadecimal digits"),
        ("\t Word 1", "3 expected word, tick, sheet or fresh"),
        ("fresh\r\r", "1 expected word, tick, sheet or fresh"),
        ("fresh now", "7 expected end of line"),
        ("word 123456789", "6 expected hexadecimal digits"),
        ("tick 00006 rest", "6 expected hexadecimal digits"),
        ("tick 6", "7 expected a command"),
        ("tick 6 rest", "12 expected at"),
        ("tick 6 rest at", "15 expected a whole number"),
        ("tick 6 torque 32768 at 0", "15 expected a whole number"),
        ("tick 6 torque -32769 at 0", "15 expected a whole number"),
        ("tick 6 position 2147483648 0", "17 expected a whole number"),
        ("tick 6 hybrid 1 .5", "17 expected a float"),
        ("tick 6 hybrid 0123456789", "15 expected a float"),
        ("tick 6 hybrid x3f80000", "15 expected a float"),
        ("tick 6 rest at -0 PNZH still", "19 expected switches"),
        ("tick 6 rest at -0 P--Z\tstill set1", "34 expected hexadecimal digits"),
        ("tick 6 rest at -0 P--Z still set3", "30 expected set1 or set2"),
        ("sheet 33", "7 expected a whole number"),
        ("sheet 15 -0", "10 expected a whole number"),
        ("sheet 15 23 1 1 -2147483649", "17 expected a whole number"),
        ("Layout 1", "1 expected word, tick, sheet or fresh"),
        ("layout", "7 expected a whole number"),
        ("layout 4294967296", "8 expected a whole number"),
        ("layout -1 16", "8 expected a whole number"),
        ("layout 4294967295 33", "19 expected a whole number"),
        ("layout 2 16 23 1 1 -2147483649", "20 expected a whole number"),
        ("layout 2 16 35 1 1 0 1 1 0 1 0 0 0 0 0 2", "41 expected a whole number"),
        ("layout 3 16 35 1 1 0 1 1 0 1 0 0 0 0 0 2 1 x", "44 expected a whole number"),
        ("layout 3 16 35 1 1 0 1 1 0 1 0 0 0 0 0 2 1 -0", "44 expected a whole number"),
        ("layout 3 16 35 1 1 0 1 1 0 1 0 0 0 0 0 2 1 4294967296", "44 expected a whole number"),
        ("layout 3 16 35 1 1 0 1 1 0 1 0 0 0 0 0 2 1 00000000000", "44 expected a whole number"),
        ("layout 3 16 35 1 1 0 1 1 0 1 0 0 0 0 0 2 1 0 0", "46 expected end of line"),
        ("sheet 15 35 1 1 0 1 1 0 1 0 0 0 0 0 2 1 0", "41 expected end of line"),
    ] {
        assert_eq!(answers(line.as_bytes()), format!("unreadable 1 {expected}\n"), "{line:?}");
    }
}

/// 255 bytes are a line, 256 are not, be it all comment; a CR right before the end is not counted.
#[test]
fn lengths() {
    for (bytes, end, readable) in
        [(255, "\n", true), (255, "\r\n", true), (255, "\r", true), (256, "\n", false), (256, "\r\n", false), (256, "", false)]
    {
        let line = format!("{:.<bytes$}{end}", "fresh #");
        let expected = if readable { "fresh\n" } else { "unreadable 1 256 line too long\n" };
        assert_eq!(answers(line.as_bytes()), expected, "{bytes} and {end:?}");
    }
    assert_eq!(answers(&[b'#'; 1_000_000]), "unreadable 1 256 line too long\n");
    assert_eq!(answers(b"\n \t\n# nothing\n\r\nfresh?"), "unreadable 5 1 expected word, tick, sheet or fresh\n");
}

/// Control word, position and switches.
type Ticks<'a> = &'a [(u16, i32, &'a str)];

/// Speed and statusword.
type Shown = (i32, u16);

/// The last answer of a homing under the paper's sheet S with this method: its first tick is the start.
fn homing(method: i64, ticks: Ticks) -> String {
    let mut script = format!("sheet 15 {method} 20000 1000 0 3 2 -1000 1000 1000 800 600 300 300 2 2000\n");
    for word in answers(script.as_bytes()).split_whitespace().skip(2) {
        script += &format!("word {word}\n");
    }
    for control in ["0", "6", "F", "F"] {
        script += &format!("tick {control} homing 0 at 0 ---- still set1 0\n");
    }
    for (control, position, switches) in ticks {
        script += &format!("tick {control:X} homing 0 at {position} {switches} moving set1 0\n");
    }
    answers(script.as_bytes()).lines().last().unwrap_or_default().to_string()
}

/// Signs turned, POT for NOT and NOT for POT.
fn mirrored(ticks: Ticks) -> Vec<(u16, i32, String)> {
    let turned = |switches: &str| {
        let (pot, not) = (switches.starts_with('P'), &switches[1..2] == "N");
        format!("{}{}{}", if not { "P" } else { "-" }, if pot { "N" } else { "-" }, &switches[2..])
    };
    ticks.iter().map(|&(control, position, switches)| (control, -position, turned(switches))).collect()
}

const ON: u16 = 0x001F;
const HALTED: u16 = 0x011F;
const HOMED: Shown = (0, 0x1737);
const ERROR: Shown = (0, 0x2637);

/// What is shown at the end of the ticks by this method; with bit 11 where a limit is on.
fn shows(method: i64, ticks: Ticks, (speed, status): Shown) {
    let (_, position, switches) = ticks[ticks.len() - 1];
    let status = if switches.starts_with("--") { status } else { status | 0x0800 };
    let expected = format!("tick 0 torque 0 speed {speed} position {position} status {status:04X} mode 6 alarm 0");
    assert_eq!(homing(method, ticks), expected, "method {method}, {ticks:?}");
}

/// The same for the ticks as they stand, and mirrored for the turned method.
fn both_show((method, turned): (i64, i64), ticks: Ticks, (speed, status): Shown) {
    shows(method, ticks, (speed, status));
    let mirrored = mirrored(ticks);
    let ticks: Vec<(u16, i32, &str)> = mirrored.iter().map(|(control, at, switches)| (*control, *at, &switches[..])).collect();
    shows(turned, &ticks, (-speed, status));
}

/// Each list is played as it stands by 17 and 1, mirrored by 18 and 2. Speeds are those of the last tick under 17 and 1.
#[test]
fn homing_on_the_limits() {
    const FIRST: Shown = (-20000, 0x0237);
    const LATER: Shown = (1000, 0x0237);
    let lists: &[(Ticks, Shown, Shown)] = &[
        // Every leg; the Z that method 1 awaits comes after the drop.
        (&[(ON, 0, "----"), (ON, -9, "-N--"), (ON, -5, "----")], HOMED, LATER),
        (&[(ON, 0, "----"), (ON, -9, "-N--"), (ON, -5, "----"), (ON, -3, "---Z")], HOMED, HOMED),
        // Started on the limit, be it that it rises in the start tick.
        (&[(ON, 0, "-N--"), (ON, 4, "----")], HOMED, LATER),
        (&[(ON, 0, "-N--"), (ON, 4, "----"), (ON, 5, "---Z")], HOMED, HOMED),
        // A Z in the tick of the drop is used up; one without movement does not count.
        (&[(ON, 0, "-N--"), (ON, 4, "---Z"), (ON, 5, "---Z")], HOMED, LATER),
        (&[(ON, 0, "-N--"), (ON, 4, "----"), (ON, 4, "---Z")], HOMED, LATER),
        // The awaited limit needs no movement, and counts after a halt if it is still on.
        (&[(ON, 0, "----"), (ON, 0, "-N--")], LATER, LATER),
        (&[(ON, 0, "----"), (ON, 3, "-N--")], LATER, LATER),
        (&[(ON, 0, "----"), (HALTED, -3, "-N--"), (ON, -3, "-N--")], LATER, LATER),
        (&[(ON, 0, "----"), (HALTED, -3, "-N--"), (ON, -6, "----")], FIRST, FIRST),
        (&[(ON, 0, "----"), (ON, 3, "-N--"), (ON, 4, "----")], HOMED, LATER),
        // The drop while coasting, without movement or halted.
        (&[(ON, 0, "----"), (ON, -9, "-N--"), (ON, -10, "----")], LATER, LATER),
        (&[(ON, 0, "-N--"), (ON, 0, "----")], LATER, LATER),
        (&[(ON, 0, "-N--"), (HALTED, 1, "----"), (ON, 2, "----")], LATER, LATER),
        // The wrong switches: POT against travel, HOM, Z.
        (&[(ON, 0, "----"), (ON, -9, "P---"), (ON, -10, "P-HZ"), (ON, -11, "P---")], FIRST, FIRST),
        (&[(ON, 0, "-NH-"), (ON, 4, "-N--"), (ON, 5, "-NHZ")], LATER, LATER),
        // The limit ahead in a later leg is an error, with or without movement, but not beside the event.
        (&[(ON, 0, "-N--"), (ON, 0, "PN--"), (ON, 3, "P---")], ERROR, ERROR),
        (&[(ON, 0, "----"), (ON, -9, "-N--"), (ON, -8, "PN--"), (ON, -7, "----")], ERROR, ERROR),
        (&[(ON, 0, "-N--"), (ON, 4, "P---"), (ON, 5, "----")], HOMED, LATER),
        (&[(ON, 0, "-N--"), (ON, 4, "----"), (ON, 5, "P---"), (ON, 6, "---Z")], HOMED, ERROR),
        // It is on already as the leg begins.
        (&[(ON, 0, "PN--"), (ON, 1, "PN--")], ERROR, ERROR),
        (&[(ON, 0, "PN--"), (ON, 1, "-N--")], LATER, LATER),
        (&[(ON, 0, "PN--"), (ON, 1, "P---")], HOMED, LATER),
        (&[(ON, 0, "P---"), (ON, -1, "PN--"), (ON, 0, "PN--")], ERROR, ERROR),
        (&[(ON, 0, "-N--"), (ON, 4, "P---"), (ON, 5, "P---")], HOMED, ERROR),
        (&[(ON, 0, "-N--"), (ON, 4, "P---"), (ON, 5, "P--Z")], HOMED, HOMED),
        (&[(ON, 0, "-N--"), (ON, 4, "P---"), (HALTED, 5, "P--Z"), (ON, 6, "P--Z")], HOMED, ERROR),
    ];
    for &(ticks, by_17, by_1) in lists {
        both_show((17, 18), ticks, by_17);
        both_show((1, 2), ticks, by_1);
    }
}

/// Each list is played as it stands by these methods, mirrored by those of the turned routes.
#[test]
fn parked_on_the_limit() {
    const FIRST: Shown = (20000, 0x0237);
    const TURNED: Shown = (-20000, 0x0237);
    const BACK: Shown = (-1000, 0x0237);
    let lists: &[(&[i64], Ticks, Shown)] = &[
        // On at the start: a's first leg turns in the next tick, with any movement. HOM on, or Z awaited: an error.
        (&[23, 24, 25, 26], &[(ON, 0, "P---")], FIRST),
        (&[23, 24, 25, 26], &[(ON, 0, "P---"), (ON, 0, "P---")], TURNED),
        (&[23, 24, 25, 26], &[(ON, 0, "P---"), (ON, -3, "P---")], TURNED),
        (&[23, 24, 25, 26], &[(ON, 0, "P---"), (HALTED, 3, "P---"), (ON, 3, "P---")], TURNED),
        (&[25, 26], &[(ON, 0, "P-H-"), (ON, 0, "P-H-")], ERROR),
        (&[23, 24], &[(ON, 0, "-NH-"), (ON, 0, "-NH-")], ERROR),
        (&[34], &[(ON, 0, "P---"), (ON, 3, "P---")], ERROR),
        // On in the start tick alone, or in halted ones alone, or behind: nothing.
        (&[23, 24, 25, 26], &[(ON, 0, "P---"), (ON, 0, "----")], FIRST),
        (&[34], &[(ON, 0, "P---"), (ON, 0, "----"), (ON, 1, "---Z")], HOMED),
        (&[23, 24, 25, 26], &[(ON, 0, "----"), (HALTED, 2, "P---"), (ON, 3, "----")], FIRST),
        (&[23, 24, 25, 26], &[(ON, 0, "-N--"), (ON, 0, "-N--"), (ON, 1, "-N--")], FIRST),
        (&[23, 24], &[(ON, 0, "P-H-"), (ON, -1, "P-H-")], BACK),
        (&[34], &[(ON, 0, "-N--"), (ON, 1, "-N--"), (ON, 2, "-N-Z")], HOMED),
        // Come on in halt: it counts afterwards.
        (&[23, 24, 25, 26], &[(ON, 0, "----"), (HALTED, 2, "P---"), (ON, 2, "P---")], TURNED),
        (&[34], &[(ON, 0, "----"), (HALTED, 2, "P---"), (ON, 1, "P---")], ERROR),
        // The event comes first.
        (&[23, 24, 26], &[(ON, 0, "P---"), (ON, 1, "P-H-")], BACK),
        (&[26], &[(ON, 0, "P-H-"), (ON, 1, "P---")], HOMED),
        (&[34], &[(ON, 0, "P---"), (ON, 1, "P--Z")], HOMED),
        // Still on as b's third leg begins.
        (&[23, 25, 26], &[(ON, 0, "P---"), (ON, 0, "P---"), (ON, -1, "P-H-"), (ON, 0, "P-H-")], ERROR),
        (&[24], &[(ON, 0, "P---"), (ON, 0, "P-H-"), (ON, -1, "P---"), (ON, 0, "P---")], ERROR),
        (&[23, 25], &[(ON, 0, "P---"), (ON, 0, "P---"), (ON, -1, "P-H-"), (ON, 0, "P---")], BACK),
        (&[26], &[(ON, 0, "P---"), (ON, 0, "P---"), (ON, -1, "P-H-"), (ON, 0, "P---")], HOMED),
        (&[24], &[(ON, 0, "P---"), (ON, 0, "P-H-"), (ON, -1, "P---"), (ON, 0, "P-H-")], HOMED),
        (&[26], &[(ON, 0, "P---"), (ON, 0, "P---"), (ON, -1, "P-H-"), (HALTED, 0, "P---"), (ON, 0, "P---")], ERROR),
    ];
    for &(methods, ticks, shown) in lists {
        for &method in methods {
            both_show((method, if method == 34 { 33 } else { method + 4 }), ticks, shown);
        }
    }
}

#[test]
fn methods() {
    for method in 0..=40 {
        let line = format!("sheet 15 {method} 20000 1000 0 3 2 -1000 1000 1000 800 600 300 300 2 2000");
        let allowed = [1, 2, 17, 18, 23, 24, 25, 26, 27, 28, 29, 30, 33, 34, 35].contains(&method);
        assert_eq!(answers(line.as_bytes()).starts_with("sheet 0 "), allowed, "{method}");
        let word = format!("word 1\nword {:08X}", 0x1000_0000 + method);
        assert_eq!(answers(word.as_bytes()) == "word 0\nword 0\n", allowed, "{method}");
    }
}

/// A long rail: offset, lower and upper stop with top bits 1, 8 and 7.
const LONG: [&str; 16] = [
    "00000002", "10000023", "20000001", "30000001", "40000003", "50000001", "60000004", "70000000", "8FFFFFFF", "90000000",
    "A0000000", "B0000000", "C0000002", "D0000001", "E0000781", "F00007B2",
];

fn words(words: &[&str]) -> String {
    words.iter().map(|word| format!("word {word}\n")).collect()
}

#[test]
fn layouts_of_the_writer() {
    let rail = "35 1 1 268435459 1 4 -2147483648 2147483647 0 0 0 0 0 2 1";
    let short = "35 1 1 -1 1 4 -134217728 134217727 0 0 0 0 0 2 1";
    let lent = |words: usize| " DEADBEEF".repeat(words);
    let long = LONG.join(" ");
    for (line, expected) in [
        (format!("layout 2 17 {rail}"), format!("layout 0 {long} DEADBEEF")),
        (format!("layout 2 16 {rail}"), format!("layout 0 {long}")),
        (format!("layout 2 15 {rail}"), format!("layout 9{}  short buffer", lent(15))),
        (format!("layout 1 15 {rail}"), format!("layout 10{}  long value", lent(15))),
        (format!("layout 1 14 {rail}"), format!("layout 9{}  short buffer", lent(14))),
        (format!("layout 4 14 {rail}"), format!("layout 2{}  strange layout", lent(14))),
        (format!("layout 0 0 {rail}"), "layout 2  strange layout".to_string()),
        (format!("layout 4294967295 16 {short}"), format!("layout 2{}  strange layout", lent(16))),
        (format!("sheet 15 {rail}"), format!("sheet 10{}  long value", lent(15))),
        // No place is long; all its top bits are those of bit 27.
        (
            format!("layout 1 15 {short}"),
            "layout 0 00000001 10000023 20000001 30000001 4FFFFFFF 50000001 60000004 78000000 87FFFFFF 90000000 A0000000 B0000000 \
             C0000002 D0000001 F000002C"
                .to_string(),
        ),
        (
            format!("layout 2 16 {short}"),
            "layout 0 00000002 10000023 20000001 30000001 4FFFFFFF 50000001 60000004 78000000 87FFFFFF 90000000 A0000000 B0000000 \
             C0000002 D0000001 E00000FF F000012C"
                .to_string(),
        ),
    ] {
        assert_eq!(answers(line.as_bytes()), format!("{expected}\n"), "{line}");
    }
    // Each place alone, on either side of 28 bits' edges; then beside another fault.
    for place in 0..3 {
        for (value, number) in
            [(-134_217_729, 10), (-134_217_728, 0), (134_217_727, 0), (134_217_728, 10), (-2_147_483_648, 10)]
        {
            let mut places = [0, -1000, 1000];
            places[place] = value;
            let [offset, lower, upper] = places;
            let line = |layout, slow| format!("layout {layout} 16 35 1 {slow} {offset} 1 4 {lower} {upper} 0 0 0 0 0 2 1");
            let crossed = if lower < upper { 0 } else { 5 };
            for (line, number) in [
                (line(1, 1), if number == 0 { crossed } else { number }),
                (line(2, 1), crossed),
                (line(1, 0), if number == 0 { 3 } else { number }),
                (line(2, 0), 3),
            ] {
                assert!(answers(line.as_bytes()).starts_with(&format!("layout {number} ")), "{line}");
            }
        }
    }
}

#[test]
fn layouts_of_the_words() {
    let all_accepted = |script: &str| answers(script.as_bytes()).lines().all(|answer| answer == "word 0");
    let last_two = |script: &str| {
        let answers = answers(script.as_bytes());
        let numbers: Vec<&str> = answers.lines().map(|answer| &answer[..6]).collect();
        numbers[numbers.len() - 2..].join(", ")
    };
    let whole = words(&LONG);
    assert!(all_accepted(&whole));
    let until = |kind: usize| words(&LONG[..kind]);
    for bit in 12..28 {
        let top_bits = format!("word {:08X}\n", 0xE000_0781_u32 | 1 << bit);
        assert_eq!(last_two(&format!("{}{top_bits}{}", until(14), words(&[LONG[14]]))), "word 3, word 1", "{bit}");
    }
    assert_eq!(last_two(&format!("{}word F0000031\n{}", until(14), words(&[LONG[14]]))), "word 1, word 1");
    assert_eq!(last_two(&format!("{}{}", until(15), words(&[LONG[14], LONG[15]]))), "word 1, word 1");
    assert_eq!(last_two(&format!("{}word F0000031\n", until(15))), "word 0, word 4");
    // In layout 1, kind 14 is out of turn; a start of the other layout begins afresh wherever it comes.
    let short = ["00000001"].iter().chain(&LONG[1..14]).copied().chain(["F0000030"]).collect::<Vec<_>>();
    assert_eq!(last_two(&format!("{}{}", words(&short[..14]), words(&LONG[14..]))), "word 1, word 1");
    for heard in 1..16 {
        assert_eq!(last_two(&format!("{}{}", until(heard), words(&short[..14]))), "word 0, word 0", "{heard}");
        let halfway = words(&short[..heard.min(14)]);
        assert!(all_accepted(&format!("{halfway}{whole}")), "{heard}");
    }
    for strange in ["00000000", "00000004", "0FFFFFFF", "08000002"] {
        assert_eq!(last_two(&format!("{}word {strange}\n{}", until(5), words(&[LONG[5]]))), "word 2, word 1", "{strange}");
    }
}

/// Homed at 5 and moved to either end: differences of −2^31 − 2^28 − 3 and 2^31 − 1 − 2^28 − 3, a quarter of them.
#[test]
fn long_rail() {
    let mut script = words(&LONG);
    for control in ["0", "6", "F", "F", "1F"] {
        script += &format!("tick {control} homing 0 at 5 ---- still set1 0\n");
    }
    for (target, position, status) in
        [(-2_147_483_648_i64, -603_979_772, 0x1337), (2_147_483_647, 469_762_052, 0x1337), (268_435_459, 5, 0x1337)]
    {
        let tick = format!("tick F position {target} 0 at 9 ---- still set1 0\n");
        let expected = format!("tick 0 torque 0 speed 0 position {position} status {status:04X} mode 8 alarm 0");
        assert_eq!(answers(format!("{script}{tick}").as_bytes()).lines().last(), Some(&expected[..]), "{target}");
    }
}

/// Settings by their torques: maximum, limits and homing torque.
fn torques(option: i64, maximum: i64, limits: [i64; 4], homing: &str) -> String {
    let [positive_1, negative_1, positive_2, negative_2] = limits;
    format!("34 1 1 0 1 1 -1000 1000 {maximum} {positive_1} {negative_1} {positive_2} {negative_2} {option} 1000 {homing}")
}

/// The words that the writer makes, as lines.
fn written(layout: u32, settings: &str) -> String {
    let answer = answers(format!("layout {layout} 16 {settings}").as_bytes());
    assert!(answer.starts_with("layout 0 "), "{layout} {settings}: {answer}");
    let made = answer.split_whitespace().skip(2).filter(|&word| word != "DEADBEEF");
    made.map(|word| format!("word {word}\n")).collect()
}

#[test]
fn homing_torque_of_the_writer() {
    let number = |layout: u32, maximum: i64, homing: &str| {
        let line = format!("layout {layout} 16 {}", torques(2, maximum, [3000, 0, 0, 3000], homing));
        let answer = answers(line.as_bytes());
        answer.split(' ').nth(1).map(str::trim).unwrap_or_default().to_string()
    };
    for (maximum, homing, old, third) in [
        (1000, "", "0", "0"),
        (1000, "1000", "0", "0"),
        (1000, "0000001000", "0", "0"),
        (0, "0", "0", "0"),
        (3000, "3000", "0", "0"),
        (1000, "999", "11", "0"),
        (0, "3000", "11", "0"),
        (0, "1", "11", "0"),
        // Out of range: alike, one of them, both.
        (3001, "", "3", "3"),
        (3001, "3001", "3", "3"),
        (4294967295, "4294967295", "3", "3"),
        (1000, "3001", "11", "3"),
        (1000, "5096", "11", "3"),
        (1000, "66536", "11", "3"),
        (3001, "3000", "11", "3"),
        (4294967295, "4294967294", "11", "3"),
    ] {
        for (layout, expected) in [(1, old), (2, old), (3, third)] {
            assert_eq!(number(layout, maximum, homing), expected, "{layout} {maximum} {homing:?}");
        }
    }
    assert_eq!(
        answers(b"layout 3 17 35 1 1 268435459 1 4 -2147483648 2147483647 0 0 0 0 0 6 1 3000").trim_end(),
        "layout 0 00000003 10000023 20000001 30000001 40000003 50000001 60000004 70000000 8FFFFFFF 90000000 A0000000 B0000000 \
         C00BB806 D0000001 E0000781 F00BBFB7 DEADBEEF"
    );
    assert!(answers(b"sheet 15 35 1 1 0 1 1 0 1 5 0 0 0 0 2 1").starts_with("sheet 0 00000001 "));
}

/// Faults are told 2, 9, 10, 11, 3, 5, 6: each list has the later ones too.
#[test]
fn order_of_the_writer() {
    let line = |layout: u32, length: u32, offset: i64, homing: u32, slow: u32, stops: &str| {
        answers(format!("layout {layout} {length} 35 1 {slow} {offset} 1048576 1 {stops} 5 0 0 0 0 2 1 {homing}").as_bytes())
    };
    let (crossed, far) = ("2000 -2000", "-2000 2000");
    for (answer, number) in [
        (line(4, 14, 1 << 27, 6, 0, crossed), 2),
        (line(1, 14, 1 << 27, 6, 0, crossed), 9),
        (line(1, 15, 1 << 27, 6, 0, crossed), 10),
        (line(1, 15, 0, 6, 0, crossed), 11),
        (line(1, 15, 0, 5, 0, crossed), 3),
        (line(1, 15, 0, 5, 1, crossed), 5),
        (line(1, 15, 0, 5, 1, far), 6),
        (line(2, 15, 1 << 27, 6, 0, crossed), 9),
        (line(2, 16, 1 << 27, 6, 0, crossed), 11),
        (line(2, 16, 1 << 27, 5, 0, crossed), 3),
        (line(3, 15, 1 << 27, 6, 0, crossed), 9),
        (line(3, 16, 1 << 27, 6, 0, crossed), 3),
        (line(3, 16, 1 << 27, 6, 1, crossed), 5),
        (line(3, 16, 1 << 27, 6, 1, far), 6),
    ] {
        assert!(answer.starts_with(&format!("layout {number} ")), "{number}: {answer}");
    }
}

/// Kind 12: in layout 3 the homing torque stands in bits 8 to 19, and no other layout has any.
#[test]
fn homing_torque_of_the_words() {
    let before = |layout: u32| {
        let words = written(layout, &torques(2, 1000, [0; 4], ""));
        words.lines().take(12).map(|line| format!("{line}\n")).collect::<String>()
    };
    let taken = |layout: u32, data: u32| {
        let script = format!("{}word {:08X}", before(layout), 0xC000_0000 | data);
        answers(script.as_bytes()).lines().last() == Some("word 0")
    };
    for torque in [0, 1, 0x555, 0xAAA, 2999, 3000, 3001, 3002, 4095] {
        for option in [0, 1, 2, 3, 4, 5, 6, 7, 10, 18, 34, 66, 130, 255] {
            let option_fits = option == 2 || option == 6;
            let data = torque << 8 | option;
            assert_eq!(taken(3, data), option_fits && torque <= 3000, "{data:X}");
            assert_eq!([taken(1, data), taken(2, data)], [option_fits && torque == 0; 2], "{data:X}");
        }
    }
    for bit in 20..28 {
        for layout in [1, 2, 3] {
            assert!(!taken(layout, 1 << bit | 2), "{layout}, {bit}");
            assert!(!taken(layout, 1 << bit | 1 << 8 | 6), "{layout}, {bit}");
        }
    }
}

/// Says the words, is enabled in mode 6 and asks for 3000 both ways: control word, command, standstill and set, and what is
/// handed out.
fn torques_are(script: &str, ticks: &[(&str, &str, &str, i64, i64)]) {
    let mut script = script.to_string();
    for control in ["0", "6", "F", "F"] {
        script += &format!("tick {control} homing 0 at 0 ---- still set1 0\n");
    }
    let mut expected = Vec::new();
    for &(control, command, rest, above, below) in ticks {
        for (sign, torque) in [("", above), ("-", below)] {
            script += &format!("tick {control} {command} {sign}3000 at 0 ---- {rest} 0\n");
            expected.push(torque.to_string());
        }
    }
    let answers = answers(script.as_bytes());
    let torques: Vec<&str> = answers.lines().filter_map(|line| line.split(' ').nth(3)).collect();
    assert_eq!(torques[torques.len() - expected.len()..], expected, "{script}");
}

#[test]
fn homing_torque_is_the_cap() {
    let sheet = |maximum, homing| written(3, &torques(6, maximum, [800, 600, 300, 200], homing));
    const ENABLED: &str = "F";
    // Below both others: in mode 6 alone, and in quick stop, where the mode goes with the command.
    torques_are(
        &sheet(1000, "150"),
        &[
            (ENABLED, "homing", "still set1", 150, -150),
            (ENABLED, "homing", "moving set2", 150, -150),
            (ENABLED, "torque", "moving set1", 0, 0),
            (ENABLED, "torque", "still set1", 800, -600),
            (ENABLED, "homing", "moving set1", 0, 0),
            (ENABLED, "position 0", "still set2", 300, -200),
            (ENABLED, "homing", "still set2", 150, -150),
            ("1F", "homing", "moving set1", 150, -150),
            ("12", "homing", "moving set1", 150, -150),
            ("12", "torque", "moving set1", 800, -600),
            ("12", "homing", "moving set2", 150, -150),
            ("12", "position 0", "moving set2", 300, -200),
            (ENABLED, "homing", "still set2", 150, -150),
        ],
    );
    let shutdown = "tick 6 rest at 0 ---- still set1 0\n".repeat(2);
    let hybrid = "tick F hybrid 0 0 0 0 3 0 0 at 0 ---- still set1 0\n".repeat(3);
    let answered = answers((sheet(1000, "150") + &shutdown + &hybrid).as_bytes());
    assert!(answered.ends_with("tick 0 torque 800 speed 0 position 0 status 0237 mode -1 alarm 0\n"));
    // Each of the three as the least.
    for (maximum, homing, [above_1, below_1, above_2, below_2]) in [
        (1000, "0", [0; 4]),
        (1000, "250", [250, 250, 250, 200]),
        (1000, "700", [700, 600, 300, 200]),
        (1000, "1000", [800, 600, 300, 200]),
        (100, "3000", [100; 4]),
        (3000, "3000", [800, 600, 300, 200]),
    ] {
        torques_are(
            &sheet(maximum, homing),
            &[(ENABLED, "homing", "still set1", above_1, -below_1), (ENABLED, "homing", "still set2", above_2, -below_2)],
        );
    }
}

/// Layouts 1 and 2 read as the maximum, whatever was in force or left halfway before.
#[test]
fn homing_torque_of_older_layouts() {
    let low = written(3, &torques(2, 1000, [3000; 4], "100"));
    let halfway = |words: usize| low.lines().take(words).map(|line| format!("{line}\n")).collect::<String>();
    for layout in [1, 2, 3] {
        let old = written(layout, &torques(2, 700, [3000; 4], ""));
        for before in [String::new(), low.clone(), halfway(12), halfway(13), halfway(15), low.repeat(2) + &halfway(14)] {
            let script = before + &old;
            torques_are(&script, &[("F", "homing", "still set1", 700, -700), ("F", "torque", "still set2", 700, -700)]);
        }
    }
}
