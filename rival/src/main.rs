//! The program: lines on standard input, answers on standard output.

use std::io::{self, BufReader, BufWriter, Write};

use rival::lines::next_text;
use rival::program::Program;

fn main() -> io::Result<()> {
    let mut input = BufReader::new(io::stdin().lock());
    let mut output = BufWriter::new(io::stdout().lock());
    let mut program = Program::default();
    while let Some(text) = next_text(&mut input)? {
        if let Some(answer) = program.answer(&text) {
            writeln!(output, "{answer}")?;
        }
        if !input.buffer().contains(&b'\n') {
            output.flush()?; // no whole line is at hand: whoever waits for the answer gets it before more is read
        }
    }
    output.flush()
}
