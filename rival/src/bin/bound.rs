//! `bound SEED COUNT`: tries the promise of (02) about runs on COUNT rails that meet its inequalities. Methods 23 to 30 have to
//! home within the ticks promised; on the same rails the other methods have to end as a rail without Z has them end. Exits
//! with 1 where one did not.

use std::process::ExitCode;

use rival::rail::Rail;
use rival::random::Random;
use rival::script::sheet_s;
use rival::simulator::{run, Run, Stop};
use rival::writer::Settings;

const MOST: i64 = 1 << 20;

/// Nothing, little, or as much as this.
fn spare(random: &mut Random, most: i64) -> i64 {
    let most = most.max(0);
    let (some, any) = (random.between(0, most.min(9)), random.between(0, most));
    random.pick(&[0, 0, 1.min(most), some, any])
}

/// Mostly a small one; each inequality is often met just so. A long one is crossed in steps that are not too short.
fn any_roomy_rail(random: &mut Random) -> Rail {
    let longest = random.pick(&[12, 40, 40, 200, 200, 2000, MOST]);
    let least = (longest / 4000).max(1);
    let slow = least + spare(random, longest / 8 - least);
    let fast = slow + spare(random, longest / 4 - slow);
    let width = fast + spare(random, longest / 2 - 2 * fast);
    let cam = fast + spare(random, longest - width - 2 * fast);
    let length = cam + width + fast + spare(random, longest - width - cam - fast);
    Rail { length, cam, width, fast, slow }
}

fn any_start(random: &mut Random, Rail { length, cam, width, .. }: Rail) -> i64 {
    let any = random.between(0, length - 1);
    random.pick(&[0, length - 1, cam - 1, cam, cam + width - 1, cam + width, any, any, any])
}

struct Case {
    method: u32,
    rail: Rail,
    start: i64,
}

impl Case {
    fn run(&self) -> Run {
        let settings = Settings { method: i64::from(self.method), ..sheet_s() };
        run(&self.rail, &settings, self.start, self.rail.promised_ticks()).expect("the rail is fit and the sheet acceptable")
    }

    fn text(&self) -> String {
        let rail = self.rail.measures().map(|measure| measure.to_string()).join(" ");
        format!("method {}, rail {rail}, run {} {}", self.method, self.start, self.rail.promised_ticks())
    }
}

/// How the other methods end where there is no Z.
fn ends_as_it_has_to(method: u32, run: &Run) -> bool {
    match method {
        17 | 18 => run.stop == Stop::Homed,
        35 => run.stop == Stop::Homed && run.ticks == 1,
        _ => run.stop == Stop::Error,
    }
}

fn numbers() -> Option<(u64, u64)> {
    let arguments: Vec<String> = std::env::args().skip(1).collect();
    match &arguments[..] {
        [seed, count] => Some((seed.parse().ok()?, count.parse().ok()?)),
        _ => None,
    }
}

fn main() -> ExitCode {
    let Some((seed, count)) = numbers() else {
        eprintln!("bound SEED COUNT");
        return ExitCode::from(2);
    };
    let random = &mut Random::new(seed);
    let (mut broken, mut others, mut ticks) = (0, 0, 0);
    let (mut most, mut at_most) = (0.0, None);
    for _ in 0..count {
        let rail = any_roomy_rail(random);
        assert!(rail.is_fit() && rail.is_roomy(), "{rail:?}");
        let start = any_start(random, rail);
        let case = Case { method: random.between(23, 30) as u32, rail, start };
        let run = case.run();
        ticks += run.ticks;
        if run.stop != Stop::Homed {
            println!("not homed but {:?} after {} ticks: {}", run.stop, run.ticks, case.text());
            broken += 1;
        }
        let share = run.ticks as f64 / rail.promised_ticks() as f64;
        if share > most {
            (most, at_most) = (share, Some((run.ticks, case)));
        }
        for method in [17, 18, 1, 2, 33, 34, 35] {
            let case = Case { method, rail, start };
            let run = case.run();
            if ends_as_it_has_to(method, &run) {
                others += 1;
            } else {
                println!("{:?} after {} ticks: {}", run.stop, run.ticks, case.text());
                broken += 1;
            }
        }
    }
    println!("{count} rails, {ticks} ticks under methods 23 to 30, {others} runs under others as they have to be");
    if let Some((ticks, case)) = at_most {
        println!("largest share of the bound: {most:.4}, {ticks} of {} ticks: {}", case.rail.promised_ticks(), case.text());
    }
    println!("broken: {broken}");
    if broken == 0 {
        ExitCode::SUCCESS
    } else {
        ExitCode::FAILURE
    }
}
