//! The program as a process: with reads that come up short, and the memory that it takes.

use crate::figures_drawers::{every_row_count, piece, LONGEST_PIECE, MOST_IMAGES};
use crate::figures_program::{printed, stop, Program, PATIENCE};
use crate::figures_trial::{Setting, Trial};
use std::fs::{self, File};
use std::io::{self, BufRead, BufReader, Read, Seek, SeekFrom, Write};
use std::process::{Child, ChildStdin, ChildStdout};
use std::sync::mpsc::{self, Receiver};
use std::thread;

/// Kibibytes that the memory may grow by from the first image to the last.
const GROWTH: u64 = 64;

/// A drawer handed over in parts: each is there when the program has read what came before and waits.
pub fn short_reads(setting: &Setting) -> Result<String, String> {
    const PARTS: [usize; 6] = [1, 2, 3, 7, 4_095, 65_537];
    let mut trial = Trial::new(setting, "short-reads");
    let images = every_row_count();
    let drawer = [
        &images[..],
        &piece(&images.repeat(15)[..LONGEST_PIECE]),
        &images,
        &[0],
    ]
    .concat();
    for part in PARTS {
        let printed = print_in_parts(&setting.program, &drawer, part);
        trial.judge(format!("in parts of {part} bytes"), &drawer, printed)?;
    }
    Ok(trial.counted("a drawer in parts of 1, 2, 3, 7, 4,095 and 65,537 bytes"))
}

fn print_in_parts(program: &Program, drawer: &[u8], part: usize) -> Result<String, String> {
    let mut child = program.begin()?;
    let input = child.stdin.take().expect("standard input is a pipe");
    let state = state_of(&child)?;
    let output = thread::scope(|scope| {
        scope.spawn(move || write_in_parts(input, drawer, part, state));
        child.wait_with_output()
    });
    printed(output.map_err(|error| format!("waiting for its end: {error}"))?)
}

fn write_in_parts(mut input: ChildStdin, drawer: &[u8], part: usize, mut state: File) {
    for part in drawer.chunks(part) {
        while is_running(&mut state) {
            thread::yield_now();
        }
        if input.write_all(part).is_err() {
            // the program has ended, and what it printed tells whether it might
            return;
        }
    }
}

fn state_of(child: &Child) -> Result<File, String> {
    let file = format!("/proc/{}/stat", child.id());
    File::open(&file).map_err(|error| format!("{file}: {error}"))
}

/// Whether a process is at work: what waits for its standard input is not.
fn is_running(state: &mut File) -> bool {
    let mut text = String::new();
    let read = state
        .seek(SeekFrom::Start(0))
        .and_then(|_| state.read_to_string(&mut text));
    // the state follows the program's name, which is in brackets
    read.is_ok() && text.contains(") R ")
}

/// The memory after the first of 4,096 images of the longest length that can be said, and after the last of them.
pub fn memory(setting: &Setting) -> Result<String, String> {
    let mut child = setting.program.begin()?;
    let outcome = measure_memory(&mut child);
    stop(&mut child);
    let (first, last) = outcome?;
    let line = format!("memory: {first} KiB after one image of 65,535 bytes, {last} KiB after {MOST_IMAGES} of them");
    match last <= first + GROWTH {
        true => Ok(line),
        false => Err(format!("{line}; it may grow by {GROWTH} KiB")),
    }
}

fn measure_memory(child: &mut Child) -> Result<(u64, u64), String> {
    let mut input = child.stdin.take().expect("standard input is a pipe");
    let lines = lines_of(child.stdout.take().expect("standard output is a pipe"));
    let image = piece(&[0x2a; LONGEST_PIECE]);
    let mut hand_over = |count: usize| {
        let mut images = (0..count).map(|_| &image);
        let written = images.try_for_each(|image| input.write_all(image));
        written.map_err(|error| format!("handing over images: {error}"))?;
        (0..count).try_for_each(|_| expect_line(&lines, "bad"))
    };
    hand_over(1)?;
    let first = most_memory(child)?;
    hand_over(MOST_IMAGES - 1)?;
    let last = most_memory(child)?;
    drop(input);
    expect_line(&lines, "total 0 0 0")?;
    Ok((first, last))
}

/// The lines as they come, so that the program never waits for somebody to read them.
fn lines_of(output: ChildStdout) -> Receiver<io::Result<String>> {
    let (sender, lines) = mpsc::channel();
    thread::spawn(move || {
        // nobody asks for the other lines where sending fails
        BufReader::new(output)
            .lines()
            .try_for_each(|line| sender.send(line))
    });
    lines
}

fn expect_line(lines: &Receiver<io::Result<String>>, expected: &str) -> Result<(), String> {
    match lines.recv_timeout(PATIENCE) {
        Ok(Ok(line)) if line == expected => Ok(()),
        Ok(Ok(line)) => Err(format!("expected '{expected}', printed '{line}'")),
        Ok(Err(error)) => Err(format!("reading what it prints: {error}")),
        Err(_) => Err(format!("expected '{expected}', and no line came")),
    }
}

/// The most memory that a process has had, in KiB.
fn most_memory(child: &Child) -> Result<u64, String> {
    let file = format!("/proc/{}/status", child.id());
    let status = fs::read_to_string(&file).map_err(|error| format!("{file}: {error}"))?;
    let most = status.lines().find_map(|line| {
        let words = line.strip_prefix("VmHWM:")?.split_whitespace().next();
        words?.parse().ok()
    });
    most.ok_or(format!("{file} has no VmHWM"))
}
