//! The rows of the table: what is fed before, and what is counted.

use crate::baseline::{Command, Gains, Tick, HOM};
use crate::words::{event, Event, AXIS_FIELDS};

/// 01's sheet S.
pub const SHEET: [u32; 15] = [
    0x00000001, 0x10000017, 0x20004E20, 0x300003E8, 0x40000000, 0x50000003, 0x60000002, 0x7FFFFC18, 0x800003E8, 0x900003E8,
    0xA0960320, 0xB04B012C, 0xC0000002, 0xD00007D0, 0xF0E1622B,
];

/// Its fields, in the order of the settings struct.
pub const FIELDS: [u32; AXIS_FIELDS] = [23, 20000, 1000, 0, 3, 2, -1000i32 as u32, 1000, 1000, 800, 600, 300, 300, 2, 2000, 1000];

/// S for a touring rail, whose differences take 33 bits, in layout 2.
pub const TOURING_SHEET: [u32; 16] = [
    0x00000002, 0x10000017, 0x20004E20, 0x300003E8, 0x4EC04D00, 0x50000001, 0x60000004, 0x78CA6C00, 0x87359400, 0x900003E8,
    0xA0960320, 0xB04B012C, 0xC0000002, 0xD00007D0, 0xE0000788, 0xFFA1B6B4,
];

/// Its fields.
pub const TOURING_FIELDS: [u32; AXIS_FIELDS] = [
    23, 20000, 1000, -1_900_000_000i32 as u32, 1, 4, -2_000_000_000i32 as u32, 2_000_000_000, 1000, 800, 600, 300, 300, 2, 2000, 1000,
];

/// A homing torque below what the homing ticks ask for.
const HOMING_TORQUE: u32 = 60;

/// The touring rail's sheet with that homing torque, in layout 3.
pub fn homing_sheet() -> [u32; 16] {
    sheet_with(TOURING_SHEET, &[(0, 3), (12, HOMING_TORQUE << 8 | 2)])
}

/// Its fields.
pub fn homing_fields() -> [u32; AXIS_FIELDS] {
    let mut fields = TOURING_FIELDS;
    fields[15] = HOMING_TORQUE;
    fields
}

/// A sheet with other data in the words of these kinds, and the sum to match.
fn sheet_with<const WORDS: usize>(mut sheet: [u32; WORDS], changes: &[(usize, u32)]) -> [u32; WORDS] {
    const DATA: u32 = 0x0FFF_FFFF;
    for &(kind, data) in changes {
        sheet[kind] = (kind as u32) << 28 | data & DATA;
    }
    let sum: u32 = sheet[..WORDS - 1].iter().map(|word| word & DATA).sum();
    sheet[WORDS - 1] = 15 << 28 | sum & DATA;
    sheet
}

pub const NAMES: [&str; 24] = [
    "settings word: start",
    "settings word: one between, mean of 13",
    "settings word: end, takes over",
    "settings word: start of layout 2",
    "settings word: kind 14 of layout 2",
    "settings word: end of layout 2, takes over",
    "settings word: kind 12 of layout 3",
    "settings word: end of layout 3, takes over",
    "settings word: whole sheet of layout 3, mean of 16",
    "settings word: refused (1)",
    "tick refused (8)",
    "tick: rest",
    "tick: torque",
    "tick: position, not homed",
    "tick: position, followed, narrow gear",
    "tick: position, followed, wide gear",
    "tick: hybrid",
    "tick: homing, not started",
    "tick: homing start",
    "tick: homing leg running",
    "tick: homing leg running, homing torque holds",
    "tick: homing leg ends, next begins",
    "tick: homing leg ends, homed",
    "tick: into Fault reaction",
];

/// Before, and counted.
pub struct Row {
    pub before: Vec<Event>,
    pub counted: Vec<Event>,
}

const SHUTDOWN: u16 = 0x06;
const ENABLE: u16 = 0x0f;
const ENABLE_AND_START: u16 = 0x1f;

const STILL: Tick =
    Tick { control: ENABLE, command: Command::Rest, position: 103, switches: 0, still: true, set: 0, alarm: 0 };

fn words(words: &[u32]) -> Vec<Event> {
    words.iter().map(|&word| Event::Word(word)).collect()
}

fn ticks(ticks: impl IntoIterator<Item = Tick>) -> Vec<Event> {
    ticks.into_iter().map(|t| event(&t)).collect()
}

pub fn then(before: &[Event], more: &[Event]) -> Vec<Event> {
    [before, more].concat()
}

/// A homing tick; the mode changes at standstill, in the start tick.
fn homing(position: i32, switches: u8) -> Tick {
    Tick { control: ENABLE_AND_START, command: Command::Homing(100), position, switches, still: position == 100, ..STILL }
}

/// The rehearsed homing of method 23: started at 100, homed at 103.
const ROUTE: [(i32, u8); 5] = [(100, 0), (110, HOM), (112, 0), (108, HOM), (103, 0)];

fn route(n: usize) -> Vec<Event> {
    ticks(ROUTE[..n].iter().map(|&(position, switches)| homing(position, switches)))
}

/// How many times longer than under S a rail is on which every target is too wide for the narrow gear.
const RAIL: i32 = 134_000;

/// S for that rail. The offset keeps every target away from where the difference is 0.
fn long_rail() -> [u32; 15] {
    let (lower, upper) = (-1000 * RAIL, 1000 * RAIL);
    sheet_with(SHEET, &[(4, 1_000_000), (5, 10_000), (6, 9_999), (7, lower as u32), (8, upper as u32)])
}

pub fn rows() -> [Row; NAMES.len()] {
    let enabling = ticks([SHUTDOWN, SHUTDOWN, ENABLE, ENABLE].map(|control| Tick { control, ..STILL }));
    let enabled = then(&words(&SHEET), &enabling);
    let homed = then(&enabled, &route(5));
    let homing_sheet = words(&homing_sheet());
    let capped = then(&homing_sheet, &enabling);
    let homed_on_rail = then(&then(&words(&long_rail()), &enabling), &route(5));
    let many = |f: &dyn Fn(i32) -> Tick| ticks((0..100).map(f));
    let row = |before: &[Event], counted: Vec<Event>| Row { before: before.to_vec(), counted };
    let none = [];
    let gains = |i: i32| Gains { kp: 2.0, kd: 0.1, pd: 0.5, vd: 0.0, t: 0.1, p: i as f32 * 0.01, v: 0.2 };
    let position = |i: i32, unit: i32| Command::Position((i * 23 - 1150) * unit, 100);
    [
        row(&none, words(&[SHEET[0]; 100])),
        row(&words(&SHEET[..1]), words(&SHEET[1..14])),
        row(&words(&SHEET[..14]), words(&SHEET[14..])),
        row(&none, words(&[TOURING_SHEET[0]; 100])),
        row(&words(&TOURING_SHEET[..14]), words(&TOURING_SHEET[14..15])),
        row(&words(&TOURING_SHEET[..15]), words(&TOURING_SHEET[15..])),
        row(&homing_sheet[..12], homing_sheet[12..13].to_vec()),
        row(&homing_sheet[..15], homing_sheet[15..].to_vec()),
        row(&none, homing_sheet.clone()),
        row(&none, words(&[SHEET[5]; 100])),
        row(&none, many(&|_| STILL)),
        row(&homed, many(&|i| Tick { position: 103 + i, ..STILL })),
        row(&homed, many(&|i| Tick { command: Command::Torque(i as i16 * 20 - 1000), set: i as u8 & 1, ..STILL })),
        row(&enabled, many(&|i| Tick { command: position(i, 1), ..STILL })),
        row(&homed, many(&|i| Tick { command: position(i, 1), ..STILL })),
        row(&homed_on_rail, many(&|i| Tick { command: position(i, RAIL), ..STILL })),
        row(&homed, many(&|i| Tick { command: Command::Hybrid(gains(i)), ..STILL })),
        row(&homed, many(&|_| Tick { command: Command::Homing(100), ..STILL })),
        row(&enabled, route(1)),
        row(&then(&enabled, &route(1)), many(&|i| homing(101 + i, 0))),
        row(&then(&capped, &route(1)), many(&|i| homing(101 + i, 0))),
        row(&then(&enabled, &route(1)), ticks([homing(110, HOM)])),
        row(&then(&enabled, &route(4)), ticks([homing(103, 0)])),
        row(&homed, ticks([Tick { alarm: 1 << 20, ..STILL }])),
    ]
}

/// Rated torques under which hybrid commands storm: the least, S's, the greatest.
pub const STORMS: [u32; 3] = [1, 2000, 1 << 24];

/// Patterns at which single floats change their kind; the sign is drawn beside.
const EDGES: [u32; 12] = [
    0x00000000, 0x00000001, 0x007FFFFF, 0x00800000, 0x3F800000, 0x4B800000, 0x4F000000, 0x7F000000, 0x7F7FFFFF, 0x7F800000, 0x7F800001,
    0x7FFFFFFF,
];

/// A hybrid command whose floats are ordinary but for some, more in one and fewer in another, which are edges, any pattern at all, or the float
/// before with its sign turned, which cancels. The numbers are drawn by xorshift.
fn storm_command(seed: &mut u32) -> Command {
    let mut draw = || {
        *seed ^= *seed << 13;
        *seed ^= *seed >> 17;
        *seed ^= *seed << 5;
        *seed
    };
    let wild = draw() % 8;
    let mut f = [0.0f32; 7];
    for i in 0..7 {
        let sign = draw() & 1 << 31;
        f[i] = f32::from_bits(match if draw() % 8 < wild { draw() % 3 } else { 3 } {
            0 => sign | EDGES[draw() as usize % EDGES.len()],
            1 => draw(),
            2 => f[i.saturating_sub(1)].to_bits() ^ 1 << 31,
            _ => sign | (117 + draw() % 16) << 23 | draw() >> 9,
        });
    }
    Command::Hybrid(Gains { kp: f[0], kd: f[1], pd: f[2], vd: f[3], t: f[4], p: f[5], v: f[6] })
}

/// Hybrid ticks under S with another rated torque: one of the storm, then five tame ones, which end a fault and enable again.
pub fn storm(rated: u32) -> Row {
    let sheet = sheet_with(SHEET, &[(13, rated)]);
    let tame = Command::Hybrid(Gains { kp: 2.0, kd: 0.1, pd: 0.5, vd: 0.0, t: 0.1, p: 0.3, v: 0.2 });
    let enabling = [0x00, 0x80, SHUTDOWN, ENABLE, ENABLE].map(|control| Tick { control, command: tame, ..STILL });
    let mut seed = 402;
    let turn = |_| [&[Tick { command: storm_command(&mut seed), ..STILL }], &enabling[..]].concat();
    Row { before: then(&words(&sheet), &ticks(enabling)), counted: ticks((0..1000).flat_map(turn)) }
}
