//! Lines to standard output. A reader that has seen enough and closes it is no failure.

use std::io::{stdout, BufWriter, ErrorKind, Result, Write};

pub fn print(lines: &[String]) -> Result<()> {
    match write(lines) {
        Err(why) if why.kind() == ErrorKind::BrokenPipe => Ok(()),
        done => done,
    }
}

fn write(lines: &[String]) -> Result<()> {
    let mut out = BufWriter::new(stdout().lock());
    for line in lines {
        writeln!(out, "{line}")?;
    }
    out.flush()
}
