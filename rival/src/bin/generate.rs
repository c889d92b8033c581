//! `generate SEED LINES [--weird N]`: a test script of about LINES lines, the same for the same SEED. N of a hundred lines
//! have a weird one put before them (5 where N is not given). `generate SEED LINES rails`: a script of runs on paper rails.

use std::io::{self, BufWriter};
use std::process::ExitCode;

use rival::script::Script;

const WEIRD: u64 = 5;

enum Kind {
    Scenes { weird: u64 },
    Rails,
}

fn asked() -> Option<(u64, u64, Kind)> {
    let arguments: Vec<String> = std::env::args().skip(1).collect();
    let number = |argument: &String| argument.parse().ok();
    let (numbers, kind) = arguments.split_at_checked(2)?;
    let kind = match kind {
        [] => Kind::Scenes { weird: WEIRD },
        [option, weird] if option == "--weird" => Kind::Scenes { weird: number(weird)? },
        [rails] if rails == "rails" => Kind::Rails,
        _ => return None,
    };
    Some((number(&numbers[0])?, number(&numbers[1])?, kind))
}

fn main() -> io::Result<ExitCode> {
    let Some((seed, lines, kind)) = asked() else {
        eprintln!("generate SEED LINES [--weird N | rails]");
        return Ok(ExitCode::from(2));
    };
    let output = BufWriter::new(io::stdout().lock());
    match kind {
        Kind::Scenes { weird } => Script::new(seed, weird, output).write(lines)?,
        Kind::Rails => Script::new(seed, WEIRD, output).write_rails(lines)?,
    }
    Ok(ExitCode::SUCCESS)
}
