//! g726 encode mu 2 2 | decode mu: spandsp's G.726 at 16 kbit/s in a pipe, one code to an octet, to
//! be measured beside the tool. The words are the tool's, so far as there is such a thing here.

use std::process::ExitCode;

#[cfg(not(spandsp))]
fn run(_words: &str) -> Result<(), String> {
    Err("built without libspandsp-dev".to_string())
}

#[cfg(spandsp)]
use pipe::run;

#[cfg(spandsp)]
mod pipe {
    use peer::spandsp::Peer;
    use second::g711::Law;
    use std::io::{self, BufWriter, Read, Write};

    /// As many as the tool's frames have.
    const SAMPLES: u64 = 160;

    type Code = fn(&mut Peer, &[u8]) -> Vec<u8>;

    pub fn run(words: &str) -> Result<(), String> {
        let code: Code = match words {
            "encode mu 2 2" => Peer::encode,
            "decode mu" => Peer::decode,
            _ => return Err("called as: g726 encode mu 2 2 | decode mu".to_string()),
        };
        pipe(code).map_err(|error| error.to_string())
    }

    fn pipe(code: Code) -> io::Result<()> {
        let mut peer = Peer::new(Law::Mu);
        let mut input = io::stdin().lock();
        let mut output = BufWriter::new(io::stdout().lock());
        let mut piece = Vec::new();
        while input.by_ref().take(SAMPLES).read_to_end(&mut piece)? > 0 {
            output.write_all(&code(&mut peer, &piece))?;
            piece.clear();
        }
        output.flush()
    }
}

fn main() -> ExitCode {
    let words: Vec<String> = std::env::args().skip(1).collect();
    match run(&words.join(" ")) {
        Ok(()) => ExitCode::SUCCESS,
        Err(line) => {
            eprintln!("g726: {line}");
            ExitCode::FAILURE
        }
    }
}
