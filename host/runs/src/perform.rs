//! A run done by a program, in a folder of its own.

use crate::run::{Done, Given};
use tool::scratch::Scratch;
use tool::Tool;

pub fn perform(tool: &Tool, given: &Given) -> Result<Done, String> {
    let scratch = Scratch::with(&given.files)?;
    let output = tool.run_in(scratch.folder(), &given.words, &given.input)?;
    Ok(Done {
        output: output.octets,
        said: output.said,
        status: output.status,
        files: scratch.files()?,
    })
}

#[cfg(test)]
mod tests {
    use super::*;
    use crate::run::Files;

    #[test]
    fn files_input_and_status_are_those_of_the_run() {
        let shell = Tool {
            command: ["sh", "-c"].map(str::to_string).to_vec(),
        };
        let given = Given {
            words: vec!["cat a - >b; rm a; echo said >&2; exit 3".into()],
            input: b"in".to_vec(),
            files: Files::from([("a".into(), b"file, ".to_vec())]),
        };
        let expected = Done {
            output: Vec::new(),
            said: b"said\n".to_vec(),
            status: Some(3),
            files: Files::from([("b".into(), b"file, in".to_vec())]),
        };
        assert_eq!(perform(&shell, &given), Ok(expected));
    }
}
