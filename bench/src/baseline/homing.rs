//! Homing routes: one byte a leg, and the step from leg to leg.

use super::{HOM, INDEX, NOT, POT};

/// Phases. Below IDLE: the running leg's place in the table.
pub const IDLE: u8 = 0xf0;
pub const HOMED: u8 = 0xf1;
pub const FAILED: u8 = 0xf2;

/// Places in a row: route a from 0, route b without its first leg from TURN, and from ON the route of a start with the switch on that the
/// first leg awaits.
const TURN: u8 = 4;
const ON: u8 = 8;

/// Bits of a leg. The low four are those of the switch that it awaits; without one, it is the end of its route.
const SWITCH: u8 = POT | NOT | HOM | INDEX;
const DROP: u8 = 16;
const FAST: u8 = 32;
const FORWARD: u8 = 64;

const PFR: u8 = FORWARD | FAST | HOM;
const PFD: u8 = FORWARD | FAST | DROP | HOM;
const NFR: u8 = FAST | HOM;
const NFD: u8 = FAST | DROP | HOM;
const PSR: u8 = FORWARD | HOM;
const PSD: u8 = FORWARD | DROP | HOM;
const NSR: u8 = HOM;
const NSD: u8 = DROP | HOM;
const PSZ: u8 = FORWARD | INDEX;
const NFL: u8 = FAST | NOT;
const PSL: u8 = FORWARD | DROP | NOT;
const END: u8 = 0;

/// 23 to 26, 34, 17 and 1.
const ROWS: [[u8; 12]; 7] = [
    [PFR, NSD, END, END, NFR, PSD, NSD, END, NSD, END, END, END],
    [PFR, NSD, PSR, END, NFD, PSR, END, END, NSD, PSR, END, END],
    [PFD, NSR, END, END, NFR, PSD, NSR, END, PSD, NSR, END, END],
    [PFR, NSD, PSD, END, NFR, PSD, END, END, PSD, END, END, END],
    [PSZ, END, END, END, END, END, END, END, PSZ, END, END, END],
    [NFL, PSL, END, END, END, END, END, END, PSL, END, END, END],
    [NFL, PSL, PSZ, END, END, END, END, END, PSL, PSZ, END, END],
];

/// Sixteen places a row, so that a byte is the index. Rows with this bit have the directions and the limits turned.
const TURNED: u8 = 8 << 4;

/// Rows with this bit have no route b.
const NO_TURN: u8 = 4 << 4;

static LEGS: [u8; 256] = {
    let mut legs = [END; 256];
    let mut i = 0;
    while i < 12 * ROWS.len() {
        let (row, place) = (i / 12, i % 12);
        let leg = ROWS[row][place];
        if leg != END {
            let limits = leg & (POT | NOT);
            legs[row << 4 | place] = leg;
            legs[TURNED as usize | row << 4 | place] = leg ^ FORWARD ^ if limits != 0 { POT | NOT } else { 0 };
        }
        i += 1;
    }
    legs
};

/// The first place of a method's row; 35 has one without a leg.
fn row(method: u8) -> u8 {
    match method {
        23..=26 => (method - 23) << 4,
        27..=30 => TURNED | (method - 27) << 4,
        33 => TURNED | 4 << 4,
        34 => 4 << 4,
        17 => 5 << 4,
        18 => TURNED | 5 << 4,
        1 => 6 << 4,
        2 => TURNED | 6 << 4,
        _ => 7 << 4,
    }
}

#[derive(Clone, Copy)]
pub struct Leg(u8);

impl Leg {
    pub fn at(place: u8) -> Leg {
        Leg(LEGS[place as usize])
    }

    pub fn forward(self) -> bool {
        self.0 & FORWARD != 0
    }

    pub fn fast(self) -> bool {
        self.0 & FAST != 0
    }
}

/// In a place, or homed where the route ends there.
fn enter(place: u8) -> u8 {
    if Leg::at(place).0 == END {
        HOMED
    } else {
        place
    }
}

/// The phase after the start tick.
pub fn start(method: u8, switches: u8) -> u8 {
    let row = row(method);
    let on = switches & Leg::at(row).0 & SWITCH != 0;
    enter(if on { row + ON } else { row })
}

/// The phase after a later tick that keeps homing and is not halted. A limit ahead counts as long as it is on; a leg that awaits it ends,
/// and is the last of no route.
pub fn step(place: u8, moved: i32, before: u8, now: u8) -> u8 {
    let leg = Leg::at(place);
    let along = if leg.forward() { moved > 0 } else { moved < 0 };
    let turns = if leg.0 & DROP != 0 { before & !now } else { now & !before };
    if along && turns & leg.0 & SWITCH != 0 {
        return enter(place + 1);
    }
    let ahead = if leg.forward() { POT } else { NOT };
    if now & ahead == 0 {
        place
    } else if leg.0 & ahead != 0 {
        place + 1
    } else if place & (NO_TURN | 15) == 0 {
        place + TURN
    } else {
        FAILED
    }
}
