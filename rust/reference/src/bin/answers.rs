//! Answers the commands of the vectors, from standard input to standard output; `answers fast`
//! by the fast modules.

use std::io::{self, BufRead, Write};

use reference::protocol::{answer, Command};

fn main() -> io::Result<()> {
    let respond = match std::env::args().nth(1).as_deref() {
        Some("fast") => Command::fast,
        _ => Command::plain,
    };
    let mut out = io::BufWriter::new(io::stdout().lock());
    for line in io::stdin().lock().split(b'\n') {
        writeln!(out, "{}", answer(&line?, respond))?;
    }
    out.flush()
}
