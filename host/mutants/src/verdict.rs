//! What became of each mutant, by several judges at once.

use crate::mutant::Mutant;
use std::sync::Mutex;
use std::thread;

#[derive(Clone, Copy, Debug, PartialEq, Eq)]
pub enum Verdict {
    /// It does not compile, and so is no mutant.
    NotBuilt,
    /// By the witness of this name.
    Seen(&'static str),
    Unseen,
}

/// A verdict for each mutant, in their order. Each judge takes the next mutant that none has taken;
/// where one fails, the others take no more.
pub fn verdicts<J>(
    mutants: &[Mutant],
    judges: Vec<J>,
    tell: &(dyn Fn(Verdict) + Sync),
) -> Result<Vec<Verdict>, String>
where
    J: FnMut(&Mutant) -> Result<Verdict, String> + Send,
{
    let waiting = Mutex::new(mutants.iter().enumerate());
    let next = || waiting.lock().expect("no judge panics").next();
    let work = |mut judge: J| -> Result<Vec<(usize, Verdict)>, String> {
        let mut found = Vec::new();
        while let Some((place, mutant)) = next() {
            let verdict = judge(mutant).inspect_err(|_| while next().is_some() {})?;
            tell(verdict);
            found.push((place, verdict));
        }
        Ok(found)
    };
    let mut found = at_once(judges, &work)?;
    found.sort_by_key(|&(place, _)| place);
    Ok(found.into_iter().map(|(_, verdict)| verdict).collect())
}

/// The work of each, done at the same time, and all results together.
pub fn at_once<W, R>(
    workers: Vec<W>,
    work: &(dyn Fn(W) -> Result<Vec<R>, String> + Sync),
) -> Result<Vec<R>, String>
where
    W: Send,
    R: Send,
{
    thread::scope(|scope| {
        let start = |worker| scope.spawn(move || work(worker));
        let started: Vec<_> = workers.into_iter().map(start).collect();
        let ended = started
            .into_iter()
            .map(|one| one.join().expect("no worker panics"));
        let parts: Vec<Vec<R>> = ended.collect::<Result<_, _>>()?;
        Ok(parts.into_iter().flatten().collect())
    })
}

#[cfg(test)]
mod tests {
    use super::*;
    use crate::mutant::mutants;
    use std::sync::atomic::{AtomicUsize, Ordering};

    #[test]
    fn every_mutant_has_its_verdict_in_order() {
        let all = mutants("a.rs", "1; 2; 3; 4; 5;");
        let judge = |mutant: &Mutant| match mutant.identity.to.as_str() {
            "3" => Ok(Verdict::Unseen),
            "5" => Ok(Verdict::NotBuilt),
            _ => Ok(Verdict::Seen("it")),
        };
        let told = AtomicUsize::new(0);
        let tell = |_| {
            told.fetch_add(1, Ordering::Relaxed);
        };
        let found = verdicts(&all, vec![judge; 3], &tell).unwrap();
        let expected: Vec<Verdict> = all.iter().map(|mutant| judge(mutant).unwrap()).collect();
        assert_eq!(found, expected);
        assert_eq!(told.into_inner(), all.len());
    }

    #[test]
    fn a_judge_that_fails_ends_it() {
        let all = mutants("a.rs", "1; 2; 3; 4; 5;");
        let asked = AtomicUsize::new(0);
        let judge = |_: &Mutant| {
            asked.fetch_add(1, Ordering::Relaxed);
            Err("no room".to_string())
        };
        assert_eq!(
            verdicts(&all, vec![judge], &|_| {}),
            Err("no room".to_string())
        );
        assert_eq!(asked.into_inner(), 1);
    }
}
