//! Threads that work on several things at once; what they answer comes in the
//! order of the things.

use crate::progress::Progress;
use std::collections::BTreeMap;
use std::io::{self, Write};
use std::sync::atomic::{AtomicUsize, Ordering};
use std::sync::mpsc::{self, Receiver, RecvTimeoutError, Sender};
use std::thread::{self, Builder};
use std::time::Duration;

/// So long a wait for an answer lets the progress be drawn.
const TICK: Duration = Duration::from_millis(100);

/// Does the work on each item, with up to so many threads, each with a room of
/// its own. Each answer is told as soon as it and those before it are there; an
/// error in telling ends it all.
pub fn in_order<T: Sync, A: Send, R: Default>(
    items: &[T],
    jobs: usize,
    work: impl Fn(&T, &mut R) -> A + Sync,
    progress: &mut Progress<impl Write>,
    tell: impl FnMut(A) -> io::Result<()>,
) -> io::Result<()> {
    let next = AtomicUsize::new(0);
    let (sender, receiver) = mpsc::channel();
    let worker = |sender: Sender<(usize, A)>| {
        let mut room = R::default();
        while let Some((number, item)) = take(items, &next) {
            if sender.send((number, work(item, &mut room))).is_err() {
                return;
            }
        }
    };
    thread::scope(|scope| {
        let start = |_: &usize| {
            let (worker, sender) = (&worker, sender.clone());
            let started = Builder::new().spawn_scoped(scope, move || worker(sender));
            started.is_ok()
        };
        let started = (0..jobs.min(items.len())).take_while(start).count();
        if started == 0 {
            worker(sender.clone());
        }
        drop(sender);
        tell_in_order(receiver, progress, tell)
    })
}

/// The next item that nobody works on, with its number.
fn take<'a, T>(items: &'a [T], next: &AtomicUsize) -> Option<(usize, &'a T)> {
    let number = next.fetch_add(1, Ordering::Relaxed);
    items.get(number).map(|item| (number, item))
}

/// Tells the answers by their numbers.
fn tell_in_order<A>(
    answers: Receiver<(usize, A)>,
    progress: &mut Progress<impl Write>,
    mut tell: impl FnMut(A) -> io::Result<()>,
) -> io::Result<()> {
    let mut early = BTreeMap::new();
    let mut next = 0;
    loop {
        match answers.recv_timeout(TICK) {
            Ok((number, answer)) => {
                early.insert(number, answer);
                progress.advance();
            }
            Err(RecvTimeoutError::Timeout) => {}
            Err(RecvTimeoutError::Disconnected) => break,
        }
        while let Some(answer) = early.remove(&next) {
            progress.erase();
            tell(answer)?;
            next += 1;
        }
        progress.draw();
    }
    progress.erase();
    Ok(())
}

#[cfg(test)]
mod tests {
    use super::*;
    use std::io::ErrorKind;
    use std::sync::Barrier;

    fn silent(all: usize) -> Progress<io::Sink> {
        Progress::new(io::sink(), false, all)
    }

    /// Early items take longest.
    fn slow_square(&item: &u64, room: &mut u64) -> (u64, u64) {
        thread::sleep(Duration::from_millis(20_u64.saturating_sub(item)));
        *room += 1;
        (item * item, *room)
    }

    #[test]
    fn answers_come_in_order() {
        let items: Vec<u64> = (0..40).collect();
        for jobs in [1, 2, 7, 1_000] {
            let mut told = Vec::new();
            let tell = |(square, _)| {
                told.push(square);
                Ok(())
            };
            in_order(&items, jobs, slow_square, &mut silent(40), tell).expect("nothing fails");
            let squares: Vec<u64> = items.iter().map(|item| item * item).collect();
            assert_eq!(told, squares, "{jobs} jobs");
        }
    }

    /// Each waits for the other, so neither ends unless both are worked on.
    #[test]
    fn two_are_worked_on_at_once() {
        let both = Barrier::new(2);
        let work = |&item: &u64, _: &mut ()| {
            both.wait();
            item
        };
        let mut told = Vec::new();
        let tell = |item| {
            told.push(item);
            Ok(())
        };
        in_order(&[5, 4], 2, work, &mut silent(2), tell).expect("nothing fails");
        assert_eq!(told, [5, 4]);
    }

    #[test]
    fn a_thread_keeps_its_room() {
        let items: Vec<u64> = (0..10).collect();
        let mut rooms = Vec::new();
        let tell = |(_, room)| {
            rooms.push(room);
            Ok(())
        };
        in_order(&items, 1, slow_square, &mut silent(10), tell).expect("nothing fails");
        assert_eq!(rooms, (1..=10).collect::<Vec<_>>());
    }

    #[test]
    fn an_error_in_telling_ends_it() {
        let items: Vec<u64> = (0..1_000_000).collect();
        let worked = AtomicUsize::new(0);
        let work = |&item: &u64, _: &mut ()| {
            worked.fetch_add(1, Ordering::Relaxed);
            thread::sleep(Duration::from_micros(50));
            item
        };
        let tell = |item| match item {
            3 => Err(io::Error::from(ErrorKind::BrokenPipe)),
            _ => Ok(()),
        };
        let ended = in_order(&items, 2, work, &mut silent(1_000_000), tell);
        assert_eq!(ended.expect_err("an error").kind(), ErrorKind::BrokenPipe);
        assert!(worked.into_inner() < 1_000_000);
    }

    #[test]
    fn no_items() {
        let work = |_: &u64, _: &mut ()| panic!("there is nothing to work on");
        let tell = |()| panic!("there is nothing to tell");
        in_order(&[], 2, work, &mut silent(0), tell).expect("nothing fails");
    }
}
