//! The narrow gear, asked directly: the program's answers do not tell which gear a count comes from.

use rival::gear;
use rival::random::Random;
use rival::sheet::Sheet;
use rival::writer::Settings;

/// Offset, numerator, denominator and stops.
type Gear = (i64, i64, i64, i64, i64);

/// The sheet, if it is acceptable.
fn sheet((offset, numerator, denominator, lower_stop, upper_stop): Gear) -> Option<Sheet> {
    let settings = Settings {
        method: 35,
        fast: 1,
        slow: 1,
        offset,
        numerator,
        denominator,
        lower_stop,
        upper_stop,
        quick_stop_option: 2,
        rated_torque: 1,
        ..Settings::default()
    };
    settings.words(2).map(|words| Sheet::of(&words)).filter(|sheet| sheet.stops_are_sound().is_ok())
}

/// What request (iii) says, in 64 bits.
fn expected((offset, numerator, denominator, lower, upper): Gear, target: i32) -> Option<i32> {
    let difference = i64::from(target).clamp(lower, upper) - offset;
    let product = difference * numerator;
    let fits = i32::try_from(difference).is_ok() && i32::try_from(product).is_ok();
    fits.then_some(product.div_euclid(denominator) as i32)
}

/// Says whether it was narrow; either way the followed position is the wide gear's.
fn narrow(gear: Gear, target: i64) -> bool {
    let sheet = sheet(gear).expect("the sheet is acceptable");
    let target = target as i32;
    let narrow = gear::narrow(&sheet, target);
    assert_eq!(narrow, expected(gear, target), "{gear:?}, {target}");
    let wide = gear::counts(&sheet, target.clamp(sheet.lower_stop(), sheet.upper_stop()));
    assert_eq!(i64::from(gear::follow(&sheet, 0, target).position), wide, "{gear:?}, {target}");
    narrow.is_some()
}

#[test]
fn on_the_edges() {
    for (product, numerator, denominator, fits) in [
        (0x7FFF_FFFE, 9, 2, true),
        (0x7FFF_FFFE, 1_015_839, 1 << 20, true),
        (0x7FFF_FFFF, 1, 2, true),
        (0x8000_0000, 1, 2, false),
        (0x8000_0000, 16, 2, false),
        (0x8000_0000, 1 << 20, 1 << 20, false),
        (-0x8000_0000, 1, 2, true),
        (-0x8000_0000, 16, 2, true),
        (-0x8000_0000, 1 << 20, 1 << 20, true),
        (-0x8000_0001, 1, 3, false),
        (-0x8000_0001, 3, 3, false),
        (-0x8000_0002, 10, 3, false),
        (-0x8000_0002, 1_047_553, 1 << 20, false),
    ] {
        let difference: i64 = product / numerator;
        for offset in [-difference / 2, -difference / 9 * 4] {
            let place = offset + difference;
            let gear = (offset, numerator, denominator, place.min(0), place.max(0));
            assert_eq!(narrow(gear, place), fits, "{gear:?}");
            assert_eq!(narrow(gear, place + difference.signum()), fits, "{gear:?}, clamped");
        }
    }
}

/// Differences of 33 bits, up to the greatest there are; one that is cut to 32 bits would be narrow.
#[test]
fn beyond_32_bits() {
    const ENDS: (i64, i64) = (-(1 << 31), (1 << 31) - 1);
    for offset in [ENDS.0, ENDS.0 + 1, -1, 0, 1, ENDS.1 - 1, ENDS.1] {
        for (numerator, denominator) in [(1, 4), (1, 5), (1 << 18, 1 << 20), (1, 1 << 20)] {
            let gear = (offset, numerator, denominator, ENDS.0, ENDS.1);
            for target in [ENDS.0, ENDS.0 + 1, -1, 0, 1, offset, ENDS.1 - 1, ENDS.1] {
                let fits = i32::try_from((target - offset) * numerator).is_ok();
                assert_eq!(narrow(gear, target), fits, "{gear:?}, {target}");
            }
        }
    }
    let reaches = |gear: Gear| sheet(gear).is_some();
    assert!(reaches((-1, 1, 2, ENDS.0, ENDS.1)) && reaches((-2, 1, 2, ENDS.0, ENDS.1)));
    assert!(!reaches((-3, 1, 2, ENDS.0, ENDS.1)) && !reaches((1, 1, 2, ENDS.0, ENDS.1)));
    assert!(!reaches((ENDS.0, 1, 1, ENDS.1 - 1, ENDS.1)) && !reaches((ENDS.1, 1, 1, ENDS.0, ENDS.0 + 1)));
}

#[test]
fn anywhere() {
    let mut random = Random::new(402);
    let mut seen = [0; 2];
    for _ in 0..1_000_000 {
        let mut up_to = |most: u32| {
            let bits = random.between(0, i64::from(most));
            random.between(0, (1 << bits) - 1)
        };
        let (numerator, denominator) = (1 + up_to(20), 1 + up_to(20));
        let bits = 28 + 4 * up_to(1) as u32;
        let mut place = || up_to(bits) - (1 << (bits - 1));
        let gear = (place(), numerator, denominator, place(), place());
        let near = gear.0 + ((1 << 31) / numerator) * [-1, 1][up_to(1) as usize] + up_to(2) - 2;
        let far = up_to(32) - (1 << 31);
        if sheet(gear).is_some() {
            for target in [near.clamp(i32::MIN.into(), i32::MAX.into()), far] {
                seen[usize::from(narrow(gear, target))] += 1;
            }
        }
    }
    assert!(seen.iter().all(|&times| times > 10_000), "{seen:?}");
}
