//! Who looks at a mutant: the programs that hold the second codec to what the proved programs print,
//! as `host/check` calls them. The cheapest is first.

pub struct Witness {
    pub name: &'static str,
    /// What cargo is told to build.
    pub build: &'static [&'static str],
    /// The words that start it in the folder of the workspace; it ends with 0 where nothing differs.
    pub run: &'static [&'static str],
}

pub const WITNESSES: [Witness; 4] = [
    Witness {
        name: "answers",
        build: &["-p", "answers"],
        run: &["target/release/answers", "compare"],
    },
    Witness {
        name: "vectors",
        build: &["-p", "sequences", "--bin", "check"],
        run: &["target/release/check"],
    },
    Witness {
        name: "runs",
        build: &["-p", "runs", "-p", "second-tool"],
        run: &[
            "target/release/runs",
            "runs/stored",
            "target/release/second-tool",
        ],
    },
    Witness {
        name: "sequences",
        build: &["-p", "runs", "-p", "second-sequences"],
        run: &[
            "target/release/runs",
            "runs/stored-sequences",
            "target/release/second-sequences",
        ],
    },
];
