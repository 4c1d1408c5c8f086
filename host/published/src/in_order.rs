//! Work on many things at once, of which the results come in their order.

use std::collections::BTreeMap;
use std::ops::ControlFlow;
use std::sync::atomic::{AtomicUsize, Ordering};
use std::sync::mpsc::channel;
use std::thread;

/// Each result is handed on once it and all before it are there, until one of them is to be the last.
pub fn in_order<T: Sync, R: Send>(
    things: &[T],
    workers: usize,
    work: impl Fn(&T) -> R + Sync,
    mut done: impl FnMut(&T, R) -> ControlFlow<()>,
) {
    let next = AtomicUsize::new(0);
    let (sender, results) = channel();
    thread::scope(|scope| {
        for _ in 0..workers {
            let (sender, next, work) = (sender.clone(), &next, &work);
            scope.spawn(move || loop {
                let place = next.fetch_add(1, Ordering::Relaxed);
                let Some(thing) = things.get(place) else {
                    break;
                };
                // Where nobody waits for results any more, none are wanted.
                if sender.send((place, work(thing))).is_err() {
                    break;
                }
            });
        }
        drop(sender);
        let mut waiting = BTreeMap::new();
        let mut due = 0;
        for (place, result) in results {
            waiting.insert(place, result);
            while let Some(result) = waiting.remove(&due) {
                if done(&things[due], result).is_break() {
                    return;
                }
                due += 1;
            }
        }
    });
}

#[cfg(test)]
mod tests {
    use super::*;
    use std::time::Duration;

    fn collected(last: usize) -> Vec<usize> {
        let things: Vec<usize> = (0..50).collect();
        let slow = |&thing: &usize| {
            thread::sleep(Duration::from_micros(100 * (thing as u64 * 7 % 5)));
            2 * thing
        };
        let mut found = Vec::new();
        in_order(&things, 4, slow, |&thing, result| {
            assert_eq!(result, 2 * thing);
            found.push(thing);
            if thing == last {
                ControlFlow::Break(())
            } else {
                ControlFlow::Continue(())
            }
        });
        found
    }

    #[test]
    fn results_come_in_order_and_end_with_the_last() {
        assert_eq!(collected(50), (0..50).collect::<Vec<_>>());
        assert_eq!(collected(9), (0..10).collect::<Vec<_>>());
    }
}
