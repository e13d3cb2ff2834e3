//! Messages of 004 clause 9.2 drawn at random, written and read beside the model.

use crate::wire::Wire;
use crate::wire_generate::{damage, draw, Raw, FORMS};
use crate::wire_tried::Tried;
use slavotuk_model::wire_write::form;
use std::sync::atomic::{AtomicBool, AtomicUsize, Ordering};
use std::thread;

/// The least number of messages of each form, of so many drawn.
const DRAWN_FOR_ONE: u64 = 200;

/// Messages that one worker draws at a time, from one seed.
const BLOCK: usize = 5_000;

/// How often something came up.
struct Count {
    drawn: u64,
    read: u64,
    calls: u64,
    written: [u64; FORMS],
    refused: u64,
    short: u64,
    damaged_and_read: u64,
    damaged_and_refused: u64,
}

impl Count {
    fn nothing() -> Count {
        Count {
            drawn: 0,
            read: 0,
            calls: 0,
            written: [0; FORMS],
            refused: 0,
            short: 0,
            damaged_and_read: 0,
            damaged_and_refused: 0,
        }
    }

    fn add(&mut self, other: &Count) {
        self.drawn += other.drawn;
        self.read += other.read;
        self.calls += other.calls;
        for (sum, written) in self.written.iter_mut().zip(other.written) {
            *sum += written;
        }
        self.refused += other.refused;
        self.short += other.short;
        self.damaged_and_read += other.damaged_and_read;
        self.damaged_and_refused += other.damaged_and_refused;
    }

    fn line(&self) -> String {
        let written: u64 = self.written.iter().sum();
        format!(
            "messages at random: {} drawn, {written} written, {} too long, {} refused; {} read, {} read damaged, {} refused damaged; {} calls",
            self.drawn, self.short, self.refused, self.read, self.damaged_and_read, self.damaged_and_refused, self.calls
        )
    }

    /// Every form is written, and each kind of answer comes up.
    fn judge(&self) -> Result<String, String> {
        let least = self.drawn / DRAWN_FOR_ONE;
        let mut rare = self.written.iter().filter(|written| **written < least);
        let others = [
            self.short,
            self.refused,
            self.damaged_and_read,
            self.damaged_and_refused,
        ];
        if rare.next().is_some() || others.iter().any(|count| *count < least) {
            return Err(format!(
                "something came up under {least} times: {:?}, {others:?}",
                self.written
            ));
        }
        Ok(format!(
            "each of {FORMS} forms of the 31 messages was written at least {least} times"
        ))
    }
}

/// At least so many messages, drawn on every core, up to the first difference.
pub fn test(side: &dyn Wire, messages: usize, seed: u64) -> Vec<Result<String, String>> {
    let blocks = (messages + BLOCK - 1) / BLOCK;
    let cores = thread::available_parallelism().map_or(1, usize::from);
    let (next, stopped) = (AtomicUsize::new(0), AtomicBool::new(false));
    let work = || {
        let mut count = Count::nothing();
        while !stopped.load(Ordering::Relaxed) {
            let block = next.fetch_add(1, Ordering::Relaxed);
            if block >= blocks {
                break;
            }
            if let Err(what) = block_of(side, seed ^ (block as u64) << 32, &mut count) {
                stopped.store(true, Ordering::Relaxed);
                return (count, Some(what));
            }
        }
        (count, None)
    };
    let finished: Vec<_> = thread::scope(|scope| {
        let workers: Vec<_> = (0..cores).map(|_| scope.spawn(work)).collect();
        let join = |worker: thread::ScopedJoinHandle<_>| worker.join().expect("a worker ends");
        workers.into_iter().map(join).collect()
    });
    let mut count = Count::nothing();
    finished.iter().for_each(|(counted, _)| count.add(counted));
    let failure = finished.into_iter().find_map(|(_, failure)| failure);
    match failure {
        Some(what) => vec![Err(format!("{}\n  {what}", count.line()))],
        None => vec![Ok(count.line()), count.judge()],
    }
}

fn block_of(side: &dyn Wire, seed: u64, count: &mut Count) -> Result<(), String> {
    let mut tried = Tried::of(side, seed);
    for _ in 0..BLOCK {
        drawn_message(&mut tried, count)?;
    }
    count.calls += tried.beside.calls;
    Ok(())
}

/// Draws a message, writes it, reads it, damages it and reads it again.
fn drawn_message(tried: &mut Tried, count: &mut Count) -> Result<(), String> {
    let drawn_form = tried.random.below(FORMS);
    let message = draw(drawn_form, &mut tried.random);
    let mut raw = Raw::of(&message);
    let spoilt = tried.random.percent(15);
    if spoilt {
        raw.spoil(&mut tried.random);
    }
    let room = tried.room(raw.length());
    let written = tried.write(&raw, room)?;
    count.drawn += 1;
    let mut bytes = match written.number {
        0 => {
            count.written[drawn_form] += u64::from(!spoilt);
            tried.read_back(&raw, written.bytes())?;
            count.read += 1;
            written.bytes().to_vec()
        }
        15 => {
            count.short += 1;
            form(&message)
        }
        _ => {
            count.refused += 1;
            form(&message)
        }
    };
    damage(&mut bytes, &mut tried.random);
    let number = tried.read_and_walk(&bytes)?.number;
    count.damaged_and_read += u64::from(number == 0);
    count.damaged_and_refused += u64::from(number == 14);
    Ok(())
}
