//! The mutants that no call can tell from the codec, each with its reason. They are stored in blocks
//! with an empty line between them: the two lines of a mutant's name, or of several mutants' that have
//! one reason, and then the reason. A line that begins with `#` is a remark.

use crate::mutant::Identity;

/// As they are stored.
pub const LISTED: &str = include_str!("../equivalents.txt");

#[derive(Clone, Debug, PartialEq, Eq)]
pub struct Equivalent {
    pub identity: Identity,
    pub reason: String,
}

pub fn parse(text: &str) -> Result<Vec<Equivalent>, String> {
    let kept: Vec<&str> = text.lines().filter(|line| !line.starts_with('#')).collect();
    let mut found: Vec<Equivalent> = Vec::new();
    for block in kept.split(|line| line.trim().is_empty()) {
        for entry in entries(block)? {
            if found.iter().any(|other| other.identity == entry.identity) {
                return Err(format!("listed twice:\n{}", entry.identity));
            }
            found.push(entry);
        }
    }
    Ok(found)
}

fn entries(block: &[&str]) -> Result<Vec<Equivalent>, String> {
    let mut rest = block;
    let mut identities = Vec::new();
    while let [line, change, after @ ..] = rest {
        let Some(identity) = identity(line, change) else {
            break;
        };
        identities.push(identity);
        rest = after;
    }
    if identities.is_empty() != rest.is_empty() {
        return Err(format!("not a name and a reason:\n{}", block.join("\n")));
    }
    let reason = rest.join(" ");
    let entry = |identity| Equivalent {
        identity,
        reason: reason.clone(),
    };
    Ok(identities.into_iter().map(entry).collect())
}

/// The two lines as a mutant's name is written; none where they are something else.
fn identity(line: &str, change: &str) -> Option<Identity> {
    let (file, line) = line.split_once(": ")?;
    let parts: Vec<&str> = change.split('`').collect();
    let &[place, from, " by ", to, ""] = parts.as_slice() else {
        return None;
    };
    let place = place.strip_prefix("place ")?.strip_suffix(": ")?;
    Some(Identity {
        file: file.to_string(),
        line: line.to_string(),
        place: place.parse().ok()?,
        from: from.to_string(),
        to: to.to_string(),
    })
}

#[cfg(test)]
mod tests {
    use super::*;

    const TWO: &str = "\
# remark
a.rs: let b = c - d;
place 1: `-` by `+`
a.rs: let b = c - d;
place 2: `if a` by ``
They are the same,
as a law says.

b.rs: 0 => 32,
place 1: `32` by `33`
Nothing reads it.
";

    #[test]
    fn blocks_are_read() {
        let found = parse(TWO).unwrap();
        let reasons: Vec<&str> = found.iter().map(|entry| entry.reason.as_str()).collect();
        let one = "They are the same, as a law says.";
        assert_eq!(reasons, [one, one, "Nothing reads it."]);
        let expected = Identity {
            file: "a.rs".to_string(),
            line: "let b = c - d;".to_string(),
            place: 2,
            from: "if a".to_string(),
            to: "".to_string(),
        };
        assert_eq!(found[1].identity, expected);
    }

    #[test]
    fn a_name_is_read_as_it_is_written() {
        for entry in parse(TWO).unwrap() {
            let again = parse(&format!("{}\nreason\n", entry.identity)).unwrap();
            assert_eq!(again[0].identity, entry.identity);
        }
    }

    #[test]
    fn what_is_no_entry_is_told() {
        let no_reason = "a.rs: b\nplace 1: `c` by `d`\n";
        for text in [
            no_reason,
            "a.rs: b\nplace x: `c` by `d`\nreason\n",
            "reason\n",
        ] {
            assert!(parse(text).is_err_and(|line| line.contains("not a name and a reason")));
        }
        assert!(parse(&format!("{TWO}\n{TWO}")).is_err_and(|line| line.contains("twice")));
    }
}
