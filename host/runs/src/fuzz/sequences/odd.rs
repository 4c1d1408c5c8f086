//! Calls of `sequences` whose standard streams are no ordinary pipes.

use crate::fuzz::ends::{Odd, Redirected};
use crate::fuzz::fixed::{call, given};
use crate::run::{Done, Files, Given};

const NAME: &str = "sequences";
/// Values that are codewords of three bits too.
const SOUND: &[u8] = b"07\n0602\n0F\n";
const REFUSED: &[u8] = b"07\n0602\nxx\n";

pub fn odd() -> Odd {
    Odd {
        name: NAME,
        slow: slow(),
        unread: given(&["write"], &[0xFF; 100_000]),
        unwaiting: call(&["read"]),
        redirected: [closed(), full()].concat(),
    }
}

/// Each command, with so many pieces that every read has to wait.
fn slow() -> Vec<Given> {
    let lines = b"010203\n".repeat(30);
    let text = [lines.as_slice(), b"B4\n"].concat();
    vec![
        given(&["read"], &text),
        given(&["write"], &text),
        homed("encode", &text),
        homed("decode", &lines),
    ]
}

fn homed(command: &str, input: &[u8]) -> Given {
    Given {
        files: Files::from([("h".into(), b"0FF0\n00\n".to_vec())]),
        ..given(&[command, "a", "3", "2", "h"], input)
    }
}

/// The homing file must not be taken for a stream that is closed. Closed output is left out: a program in Rust writes to /dev/null
/// then, and the proved one says that it cannot write.
fn closed() -> Vec<Redirected> {
    let unheard = |done| Done {
        said: Vec::new(),
        ..done
    };
    let mut found = Vec::new();
    for command in ["encode", "decode"] {
        for (how, input, due) in [
            ("<&-", &b""[..], (|done| done) as fn(Done) -> Done),
            ("2>&-", REFUSED, unheard),
            ("2>&-", SOUND, unheard),
        ] {
            let given = homed(command, input);
            found.push(Redirected { how, given, due });
        }
    }
    found
}

/// Standard output that takes nothing, also where the text is refused; where nothing is written nothing
/// fails.
fn full() -> Vec<Redirected> {
    let failed = |_| Done {
        said: format!("{NAME}: cannot write standard output: No space left on device\n").into(),
        status: Some(1),
        ..Done::default()
    };
    [
        ("read", SOUND, failed as fn(Done) -> Done),
        ("read", REFUSED, failed),
        ("read", b"00\n", |done| done),
        ("read", b"", |done| done),
        ("write", b"", failed),
        ("--help", b"", failed),
        ("--version", b"", failed),
    ]
    .map(|(word, input, due)| Redirected {
        how: ">/dev/full",
        given: given(&[word], input),
        due,
    })
    .to_vec()
}
