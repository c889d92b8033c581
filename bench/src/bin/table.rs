//! Prints the table: `table CALLGRIND EVENTS SYMBOLS CODE`. CALLGRIND is the profile of `workload`, EVENTS what it printed, SYMBOLS and CODE
//! the outputs of `nm -S` and `objdump -d` on it.

use std::collections::{BTreeSet, HashMap};
use std::mem::size_of;
use std::{env, fs, io};

use bench::baseline;
use bench::rows::NAMES;
use bench::words::AXIS_WORDS;

/// Instructions of each callee, inclusive, by caller.
fn calls(profile: &str) -> HashMap<(String, String), u64> {
    let mut names: HashMap<String, String> = HashMap::new();
    let mut costs = HashMap::new();
    let (mut caller, mut callee) = (String::new(), String::new());
    let mut lines = profile.lines();
    // A name stands after its number where it first occurs.
    let mut name = |text: &str| {
        let (number, name) = text.split_once(' ').unwrap_or((text, ""));
        if !name.is_empty() {
            names.insert(number.to_string(), name.to_string());
        }
        names.get(number).cloned().unwrap_or_default()
    };
    while let Some(line) = lines.next() {
        if let Some(text) = line.strip_prefix("fn=") {
            caller = name(text);
        } else if let Some(text) = line.strip_prefix("cfn=") {
            callee = name(text);
        } else if line.starts_with("calls=") {
            let cost = lines.next().and_then(|l| l.split(' ').next_back()?.parse::<u64>().ok()).unwrap_or(0);
            *costs.entry((caller.clone(), callee.clone())).or_insert(0) += cost;
        }
    }
    costs
}

/// The code of a program: each function's bytes, and the functions that it calls or jumps into.
struct Code<'a> {
    bytes: HashMap<&'a str, u64>,
    callees: HashMap<&'a str, BTreeSet<&'a str>>,
}

impl<'a> Code<'a> {
    fn read(symbols: &'a str, code: &'a str) -> Code<'a> {
        let symbol = |line: &'a str| {
            let [_, size, kind, name] = line.splitn(4, ' ').collect::<Vec<_>>()[..] else { return None };
            kind.eq_ignore_ascii_case("t").then_some((name, u64::from_str_radix(size, 16).ok()?))
        };
        let mut callees: HashMap<&str, BTreeSet<&str>> = HashMap::new();
        let mut function = "";
        for line in code.lines() {
            let named = line.split_once('<').and_then(|(_, text)| Some(text.rsplit_once('>')?.0));
            let instruction = line.rsplit('\t').next().unwrap_or("");
            if let (Some(name), true) = (named, line.ends_with(">:")) {
                function = name;
            } else if let (Some(name), true) = (named, instruction.starts_with("call") || instruction.starts_with('j')) {
                callees.entry(function).or_default().insert(name.split("+0x").next().unwrap_or(name));
            } else if instruction.starts_with("call") {
                callees.entry(function).or_default().insert("a pointer");
            }
        }
        Code { bytes: symbols.lines().filter_map(symbol).collect(), callees }
    }

    /// Bytes of the functions and of all that they reach; a panic, where no run leads, is not counted.
    fn reached(&self, functions: &[&'a str]) -> io::Result<f64> {
        let mut seen = BTreeSet::new();
        let mut left = functions.to_vec();
        let mut sum = 0;
        while let Some(function) = left.pop() {
            if !function.contains("panic") && seen.insert(function) {
                sum += self.bytes.get(function).ok_or_else(|| io::Error::other(format!("code of unknown size: {function}")))?;
                left.extend(self.callees.get(function).into_iter().flatten());
            }
        }
        Ok(sum as f64)
    }
}

fn print_row(name: &str, proved: f64, plain: f64) {
    println!("| {name} | {proved:.0} | {plain:.0} | {:.2} |", proved / plain);
}

fn main() -> io::Result<()> {
    let files: Vec<String> = env::args().skip(1).map(fs::read_to_string).collect::<io::Result<_>>()?;
    let [profile, events, symbols, code] = &files[..] else {
        return Err(io::Error::other("usage: table CALLGRIND EVENTS SYMBOLS CODE"));
    };
    let costs = calls(profile);
    let cost = |caller: &str, callees: &[&str]| {
        let counted = |(a, b): &(String, String)| a.ends_with(caller) && callees.contains(&&b[..]);
        costs.iter().filter(|(pair, _)| counted(pair)).map(|(_, &cost)| cost).sum::<u64>() as f64
    };
    let count: Vec<f64> = events.lines().filter_map(|line| line.parse().ok()).collect();

    println!("| instructions for each | proved | baseline | ratio |\n|---|---|---|---|");
    for (i, n) in count.iter().enumerate() {
        let script = format!("words and ticks of a generated script, mean of {n}");
        let name = NAMES.get(i).map_or(&script[..], |name| name);
        let per = |calls: &[&str]| (cost(&format!("row{i}::whole"), calls) - cost(&format!("row{i}::before"), calls)) / n;
        print_row(name, per(&["axis_word", "axis_tick"]), per(&["baseline_word", "baseline_tick"]));
    }
    for (name, caller) in [
        ("settings written as words", "write_layout_1"),
        ("settings written as words of layout 2", "write_layout_2"),
        ("settings written as words of layout 3", "write_layout_3"),
    ] {
        print_row(name, cost(caller, &["axis_write"]), cost(caller, &["baseline_write"]));
    }

    println!("\n| bytes | proved | baseline | ratio |\n|---|---|---|---|");
    print_row("axis", (AXIS_WORDS * size_of::<u32>()) as f64, size_of::<baseline::Axis>() as f64);
    let code = Code::read(symbols, code);
    let row = |name, proved: &[&'static str], plain: &[&'static str]| {
        print_row(name, code.reached(proved)?, code.reached(plain)?);
        Ok::<(), io::Error>(())
    };
    row("code: words and ticks", &["axis_fresh", "axis_word", "axis_tick"], &["baseline_fresh", "baseline_word", "baseline_tick"])?;
    row("code: writer", &["axis_write"], &["baseline_write"])
}
