//! The console: answers each line of standard input until it ends.

use reference::{console, Model};
use std::io::{self, BufRead, BufReader, BufWriter, Read, Write};

fn main() -> io::Result<()> {
    serve(io::stdin().lock(), io::stdout().lock())
}

fn serve(input: impl Read, output: impl Write) -> io::Result<()> {
    let mut input = BufReader::with_capacity(1 << 16, input);
    let mut output = BufWriter::with_capacity(1 << 16, output);
    let mut model = Model::new();
    let mut line = Vec::new();
    while next_line(&mut input, &mut line)? {
        writeln!(output, "{}", console::answer(&mut model, &line))?;
        // Whoever types a line waits for its answer before the next.
        if input.buffer().is_empty() {
            output.flush()?;
        }
    }
    output.flush()
}

/// Puts the next line, without its newline, into `line`; false at the end.
/// Of a line that is too long, one byte past the limit is kept to show it.
fn next_line(input: &mut impl BufRead, line: &mut Vec<u8>) -> io::Result<bool> {
    line.clear();
    let mut started = false;
    loop {
        let part = match input.fill_buf() {
            Err(e) if e.kind() == io::ErrorKind::Interrupted => continue,
            part => part?,
        };
        if part.is_empty() {
            return Ok(started);
        }
        started = true;
        let newline = part.iter().position(|b| *b == b'\n');
        let text = &part[..newline.unwrap_or(part.len())];
        let room = console::LONGEST_LINE + 1 - line.len();
        line.extend(&text[..text.len().min(room)]);
        let taken = newline.map_or(part.len(), |at| at + 1);
        input.consume(taken);
        if newline.is_some() {
            return Ok(true);
        }
    }
}

#[cfg(test)]
mod tests {
    use super::*;

    fn answers(input: &[u8]) -> Vec<String> {
        let mut output = Vec::new();
        serve(input, &mut output).unwrap();
        let text = String::from_utf8(output).unwrap();
        assert!(text.is_empty() || text.ends_with('\n'));
        text.lines().map(str::to_string).collect()
    }

    /// Gives its bytes one at a time.
    struct Slowly<'a>(&'a [u8]);

    impl Read for Slowly<'_> {
        fn read(&mut self, into: &mut [u8]) -> io::Result<usize> {
            let Some((first, rest)) = self.0.split_first() else { return Ok(0) };
            into[0] = *first;
            self.0 = rest;
            Ok(1)
        }
    }

    #[test]
    fn ends_of_the_input() {
        assert!(answers(b"").is_empty());
        assert_eq!(answers(b"\n"), ["error"]);
        assert_eq!(answers(b"register\n"), ["0 0"]);
        assert_eq!(answers(b"register"), ["0 0"]);
        assert_eq!(answers(b"register\nledger"), ["0 0", "0 0"]);
        assert_eq!(answers(b"register\n\nledger\n"), ["0 0", "error", "0 0"]);
    }

    #[test]
    fn bytes_that_are_no_text() {
        assert_eq!(
            answers(b"\xff\nregister\r\nregister\x00\ndrop\t1\nregister\n"),
            ["error", "error", "error", "error", "0 0"]
        );
    }

    #[test]
    fn long_lines() {
        let hex = |n: usize| "00".repeat(n);
        // 12 bytes and 262,132 digits: just not too long
        let longest = format!("judge 1 200 {}", hex(131_066));
        assert_eq!(longest.len(), 262_144);
        let longer = format!("judge 1 20 {}", hex(131_067));
        assert_eq!(longer.len(), 262_145);
        let far = format!("judge 1 20 {}", hex(200_000));
        let input = format!("{longest}\n{longer}\n{far}\nregister\n{longest}");
        let expected = ["refused 11", "error", "error", "0 0", "refused 11"];
        assert_eq!(answers(input.as_bytes()), expected);
        let mut output = Vec::new();
        serve(Slowly(input.as_bytes()), &mut output).unwrap();
        assert_eq!(String::from_utf8(output).unwrap().lines().collect::<Vec<_>>(), expected);
    }
}
