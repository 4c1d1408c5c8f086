//! What is printed at the end: the mutants that nothing saw and no reason excuses, the reasons that
//! excuse nothing, and the total.

use crate::equivalents::Equivalent;
use crate::mutant::Mutant;
use crate::verdict::Verdict;
use crate::witness::{Witness, WITNESSES};
use std::fmt;

pub struct Report<'a> {
    mutants: &'a [Mutant],
    verdicts: &'a [Verdict],
    equivalents: &'a [&'a Equivalent],
}

impl<'a> Report<'a> {
    pub fn new(
        mutants: &'a [Mutant],
        verdicts: &'a [Verdict],
        equivalents: &'a [&'a Equivalent],
    ) -> Report<'a> {
        Report {
            mutants,
            verdicts,
            equivalents,
        }
    }

    /// Whether every unseen mutant is listed, and all that is listed is there and unseen.
    pub fn is_good(&self) -> bool {
        self.unlisted().next().is_none() && self.stale().next().is_none()
    }

    fn judged(&self) -> impl Iterator<Item = (&'a Mutant, Verdict)> + '_ {
        self.mutants.iter().zip(self.verdicts.iter().copied())
    }

    fn unlisted(&self) -> impl Iterator<Item = &'a Mutant> + '_ {
        self.judged()
            .filter(|(mutant, verdict)| *verdict == Verdict::Unseen && !self.is_listed(mutant))
            .map(|(mutant, _)| mutant)
    }

    fn is_listed(&self, mutant: &Mutant) -> bool {
        let is_it = |entry: &&Equivalent| entry.identity == mutant.identity;
        self.equivalents.iter().any(is_it)
    }

    /// Entries that do not hold, each with what is wrong.
    fn stale(&self) -> impl Iterator<Item = (&'a Equivalent, String)> + '_ {
        self.equivalents
            .iter()
            .filter_map(|entry| Some((*entry, self.wrong_with(entry)?)))
    }

    fn wrong_with(&self, entry: &Equivalent) -> Option<String> {
        let mut judged = self.judged();
        match judged.find(|(mutant, _)| mutant.identity == entry.identity) {
            None => Some("there is no such mutant".to_string()),
            Some((_, Verdict::NotBuilt)) => Some("it is not built".to_string()),
            Some((_, Verdict::Seen(by))) => Some(format!("{by} sees it")),
            Some((_, Verdict::Unseen)) => None,
        }
    }

    fn count(&self, wanted: impl Fn(Verdict) -> bool) -> usize {
        self.verdicts
            .iter()
            .filter(|verdict| wanted(**verdict))
            .count()
    }

    fn seen(&self) -> String {
        let by = |witness: &Witness| {
            let count = self.count(|verdict| verdict == Verdict::Seen(witness.name));
            format!("{} {count}", witness.name)
        };
        let all = self.count(|verdict| matches!(verdict, Verdict::Seen(_)));
        format!("{all} seen ({})", WITNESSES.each_ref().map(by).join(", "))
    }

    /// Their numbers, where there are any: they should be few.
    fn not_built(&self) -> Option<String> {
        let numbers: Vec<String> = self
            .judged()
            .filter(|(_, verdict)| *verdict == Verdict::NotBuilt)
            .map(|(mutant, _)| mutant.number.to_string())
            .collect();
        (!numbers.is_empty()).then(|| numbers.join(", "))
    }

    fn total(&self) -> String {
        let not_built = self.count(|verdict| verdict == Verdict::NotBuilt);
        let unseen = self.count(|verdict| verdict == Verdict::Unseen);
        let unlisted = self.unlisted().count();
        format!(
            "mutants: {} built, {}, {unseen} unseen, {} of them listed as equivalent; {not_built} more were not built",
            self.verdicts.len() - not_built,
            self.seen(),
            unseen - unlisted
        )
    }
}

impl fmt::Display for Report<'_> {
    fn fmt(&self, f: &mut fmt::Formatter) -> fmt::Result {
        for mutant in self.unlisted() {
            let Mutant {
                identity,
                number,
                line_number,
                ..
            } = mutant;
            writeln!(
                f,
                "unseen: mutant {number}, line {line_number}\n{identity}\n"
            )?;
        }
        for (entry, wrong) in self.stale() {
            writeln!(
                f,
                "listed as equivalent, but {wrong}:\n{}\n",
                entry.identity
            )?;
        }
        if let Some(numbers) = self.not_built() {
            writeln!(f, "not built: {numbers}\n")?;
        }
        write!(f, "{}", self.total())
    }
}

#[cfg(test)]
mod tests {
    use super::*;
    use crate::equivalents::parse;
    use crate::mutant::mutants;
    use crate::verdict::verdicts;

    const LISTED: &str = "a.rs: a + b;\nplace 1: `+` by `-`\nBecause.\n";

    /// What is said of a source with one mutant, judged so, with these entries listed.
    fn said(verdict: Verdict, listed: &str) -> (String, bool) {
        let mutants = mutants("a.rs", "a + b;");
        let judge = |_: &Mutant| Ok(verdict);
        let verdicts = verdicts(&mutants, vec![judge], &|_| {}).unwrap();
        let entries = parse(listed).unwrap();
        let entries: Vec<&Equivalent> = entries.iter().collect();
        let report = Report::new(&mutants, &verdicts, &entries);
        (report.to_string(), report.is_good())
    }

    #[test]
    fn what_nothing_sees_is_reported() {
        let (text, is_good) = said(Verdict::Unseen, "");
        assert!(!is_good);
        assert!(text.starts_with("unseen: mutant 0, line 1\na.rs: a + b;\nplace 1: `+` by `-`\n"));
        assert!(text.contains("1 unseen, 0 of them listed"));
    }

    #[test]
    fn what_is_seen_or_listed_or_not_built_is_good() {
        let (text, is_good) = said(Verdict::Seen("vectors"), "");
        assert!(
            is_good && text.starts_with("mutants: 1 built, 1 seen ("),
            "{text}"
        );
        assert!(text.contains("vectors 1") && text.contains("0 unseen"));
        let (text, is_good) = said(Verdict::Unseen, LISTED);
        assert!(is_good && text.contains("1 unseen, 1 of them listed"));
        let (text, is_good) = said(Verdict::NotBuilt, "");
        assert!(is_good && text.starts_with("not built: 0\n"));
        assert!(text.contains("mutants: 0 built"));
    }

    #[test]
    fn entries_that_do_not_hold_are_reported() {
        let other = LISTED.replace("a + b", "a - b");
        for (verdict, listed, wrong) in [
            (Verdict::Seen("runs"), LISTED, "runs sees it"),
            (Verdict::NotBuilt, LISTED, "it is not built"),
            (Verdict::Seen("runs"), &other, "there is no such mutant"),
        ] {
            let (text, is_good) = said(verdict, listed);
            assert!(!is_good);
            assert!(text.contains(&format!("but {wrong}:\na.rs: ")), "{text}");
        }
    }
}
