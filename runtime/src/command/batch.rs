//! Several plans at once, in parallel.

use crate::cards::Card;
use crate::text::LONGEST_TEXT;
use std::ffi::{OsStr, OsString};
use std::fs::File;
use std::io::{self, IsTerminal, Read, Write};
use std::sync::atomic::{AtomicUsize, Ordering};
use std::sync::mpsc::{channel, Receiver, RecvTimeoutError};
use std::thread;
use std::time::{Duration, Instant};

/// How long nothing is said of the progress, and how often it is said then.
const QUIET: Duration = Duration::from_millis(700);
const OFTEN: Duration = Duration::from_millis(200);

/// The cards of all files, in the order given.
pub(super) fn cards_of(files: &[OsString]) -> Vec<Card> {
    let workers = thread::available_parallelism().map_or(1, |n| n.get()).min(files.len());
    let next = AtomicUsize::new(0);
    let (sender, receiver) = channel();
    let mut cards: Vec<Option<Card>> = files.iter().map(|_| None).collect();
    thread::scope(|scope| {
        for _ in 0..workers {
            let (sender, next) = (sender.clone(), &next);
            scope.spawn(move || loop {
                let place = next.fetch_add(1, Ordering::Relaxed);
                let Some(file) = files.get(place) else {
                    break;
                };
                if sender.send((place, card_of(file))).is_err() {
                    break;
                }
            });
        }
        drop(sender);
        collect(&receiver, &mut cards);
    });
    cards.into_iter().flatten().collect()
}

/// Takes the cards as they come, with a line on the progress if a person is waiting.
fn collect(receiver: &Receiver<(usize, Card)>, cards: &mut [Option<Card>]) {
    let watched = io::stderr().is_terminal();
    let (begin, mut said) = (Instant::now(), false);
    let mut done = 0;
    loop {
        match receiver.recv_timeout(OFTEN) {
            Ok((place, card)) => {
                cards[place] = Some(card);
                done += 1;
            }
            Err(RecvTimeoutError::Timeout) => {}
            Err(RecvTimeoutError::Disconnected) => break,
        }
        if watched && begin.elapsed() > QUIET && done < cards.len() {
            said = true;
            let _ = write!(io::stderr(), "\rgate: {done} of {} plans", cards.len());
        }
    }
    if said {
        let _ = write!(io::stderr(), "\r\x1b[K");
    }
}

fn card_of(file: &OsStr) -> Card {
    let name = file.to_string_lossy();
    match bytes_of(file) {
        Ok(bytes) => Card::of(&name, &bytes),
        Err(error) => Card::unreadable(&name, error.to_string()),
    }
}

/// What stands in a file, or in standard input if it is `-`. One byte above the limit is enough to see that it is over it.
pub(super) fn bytes_of(file: &OsStr) -> io::Result<Vec<u8>> {
    let limit = LONGEST_TEXT as u64 + 1;
    let mut bytes = Vec::new();
    if file == "-" {
        io::stdin().lock().take(limit).read_to_end(&mut bytes)?;
    } else {
        File::open(file)?.take(limit).read_to_end(&mut bytes)?;
    }
    Ok(bytes)
}
