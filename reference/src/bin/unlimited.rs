//! The console with registers of any size, for the tests of tools/aspa-check: what it files
//! in batches is filed here all at once. `file` and `dfile` put their list into the map, and
//! no row refuses it; every other line is answered as the second program answers it.

use reference::{console, AsNumber, Model, Table};
use std::io::{self, BufRead, BufReader, BufWriter, Write};

fn main() -> io::Result<()> {
    let mut input = BufReader::with_capacity(1 << 16, io::stdin().lock());
    let mut output = BufWriter::with_capacity(1 << 16, io::stdout().lock());
    let mut model = Model::new();
    let mut line = Vec::new();
    while input.read_until(b'\n', &mut line)? > 0 {
        let text = line.strip_suffix(b"\n").unwrap_or(&line);
        match filed(&mut model, text) {
            Some(answer) => writeln!(output, "{answer}")?,
            None => writeln!(output, "{}", console::answer(&mut model, text))?,
        }
        line.clear();
        // Whoever waits for the answers has sent no more.
        if input.buffer().is_empty() {
            output.flush()?;
        }
    }
    output.flush()
}

/// Puts a filing's list into its register. None for any other line, and for a register
/// that is words since a poke.
fn filed(model: &mut Model, line: &[u8]) -> Option<&'static str> {
    let words: Vec<&str> = std::str::from_utf8(line).ok()?.split(' ').collect();
    let (table, numbers) = match words.split_first()? {
        (&"file", numbers) => (&mut model.register, numbers),
        (&"dfile", numbers) => (&mut model.overrides, numbers),
        _ => return None,
    };
    let numbers: Option<Vec<u32>> = numbers.iter().map(|word| word.parse().ok()).collect();
    let numbers = numbers?;
    let ([source, customer, list @ ..], Table::Held(records)) = (&numbers[..], table) else {
        return None;
    };
    let list = list.iter().map(|number| AsNumber(*number)).collect();
    match records.insert((AsNumber(*customer), *source), list) {
        None => Some("new"),
        Some(_) => Some("replaced"),
    }
}
