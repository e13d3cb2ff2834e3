//! Lines of chance: whatever they are, the console goes on to its end.

mod common;

use common::*;

/// Numbers of chance, the same in each run.
struct Chance(u64);

impl Chance {
    fn below(&mut self, bound: usize) -> usize {
        // xorshift64
        self.0 ^= self.0 << 13;
        self.0 ^= self.0 >> 7;
        self.0 ^= self.0 << 17;
        (self.0 % bound as u64) as usize
    }

    fn one_of<'a>(&mut self, words: &[&'a str]) -> &'a str {
        words[self.below(words.len())]
    }
}

const WORDS: [&str; 84] = [
    "open",
    "close",
    "select",
    "start",
    "continue",
    "elevate",
    "drop",
    "end",
    "record",
    "records",
    "list",
    "kill",
    "set-word",
    "show",
    "request",
    "read",
    "write",
    "END_AUTH",
    "AUTH_POLICY",
    "AUTH_ERROR",
    "part",
    "CredentialID=3",
    "PersistMethod=2",
    "ErrorCode=0xff",
    "ID=1",
    "VendorID=",
    "VendorIDLen=300",
    "Policy=00*65535",
    "PolicyVersion=",
    "=",
    "history",
    "help",
    "fresh",
    "user",
    "elevated",
    "kind",
    "yes",
    "no",
    "keep",
    "remove",
    "all",
    "names",
    "none",
    "0",
    "1",
    "2",
    "3",
    "4",
    "7",
    "8",
    "31",
    "32",
    "0x10",
    "65535",
    "65536",
    "4294967295",
    "4294967296",
    "-1",
    "1.0",
    "0.1",
    "0.4",
    "2.0",
    "1.",
    ".",
    "P",
    "Q",
    "R",
    "00*48",
    "00*16+11*32",
    "00*",
    "*",
    "+",
    "\"text\"",
    "\"",
    "\"\"",
    "0=15",
    "1=16",
    "2=15/15",
    "3=15/",
    "/",
    "8e00ffff",
    "0e000000",
    "é",
    "#",
];

/// The start of a line that could be a good one.
const HEADS: [&str; 25] = [
    "open 0",
    "open 1",
    "select 0 0x10",
    "select 1 0x10",
    "open 1.0",
    "select 1.0 0x10",
    "start 1.0 1",
    "start 0 0",
    "start 0 1 P",
    "start 1 1 R",
    "record 0 user 1 0 yes",
    "record 0 elevated",
    "list 0 user 0 0 yes",
    "kill 0 user 0",
    "set-word 0 user 0 0 yes 1",
    "set-word 0 elevated 1 31",
    "elevate 0 1 Q",
    "end 0 0 0 yes",
    "continue 1 0 P",
    "drop",
    "close",
    "write END_AUTH CredentialID=1",
    "write AUTH_ERROR ErrorCode=255 ErrorData=0",
    "write AUTH_POLICY PolicyAttributes=0 CredentialID=1 part ID=0",
    "write SET_AUTH_POLICY SetAuthPolicyOp=1 CredentialID=1 part",
];

fn some_words(chance: &mut Chance) -> String {
    let mut line = String::new();
    if chance.below(2) == 0 {
        line.push_str(chance.one_of(&HEADS));
    }
    for _ in 0..chance.below(7) {
        line.push_str(chance.one_of(&[" ", " ", " ", "\t", ""]));
        line.push_str(chance.one_of(&WORDS));
    }
    line
}

fn some_bytes(chance: &mut Chance) -> Vec<u8> {
    let length = chance.below(60);
    (0..length).map(|_| chance.below(256) as u8).collect()
}

/// Runs a script of chance lines and looks that its end was reached, with a state to show.
fn goes_through(mut script: Vec<u8>) {
    script.extend(b"\nshow\nrequest 4660\n");
    let run = run(script);
    assert!(!run.err.contains("panicked"), "{}", run.err);
    assert!(matches!(run.code, Some(0 | 1)), "{:?}", run.code);
    assert!(
        run.out.ends_with("GET_AUTH_PROCESSES, wanted 4660\n"),
        "{}",
        run.out
    );
    assert!(
        run.err.lines().all(|line| line.starts_with("line ")),
        "{}",
        run.err
    );
}

#[test]
fn lines_of_random_bytes() {
    let mut chance = Chance(0x5eed);
    let mut script = Vec::new();
    for _ in 0..5000 {
        script.extend(some_bytes(&mut chance));
        script.push(b'\n');
    }
    goes_through(script);
}

#[test]
fn lines_of_random_words() {
    for seed in 1..=4 {
        let mut chance = Chance(seed * 0x9e37_79b9);
        let lines: Vec<String> = (0..3000).map(|_| some_words(&mut chance)).collect();
        goes_through(lines.join("\n").into_bytes());
    }
}

fn with_changed_bytes(example: &[u8]) {
    let mut chance = Chance(77);
    for _ in 0..40 {
        let mut script = example.to_vec();
        for _ in 0..20 {
            let at = chance.below(script.len());
            script[at] = chance.below(256) as u8;
        }
        goes_through(script);
    }
}

#[test]
fn good_lines_with_a_changed_byte() {
    with_changed_bytes(include_bytes!("../../examples/worked-steps.txt"));
    with_changed_bytes(include_bytes!("../../examples/elevation.txt"));
    with_changed_bytes(include_bytes!("../../examples/ports.txt"));
    with_changed_bytes(include_bytes!("../../examples/messages.txt"));
}

/// Every message of the example, with some of its bytes changed, some left out and some added.
#[test]
fn messages_with_changed_bytes() {
    let example = good(include_str!("../../examples/messages.txt"));
    let messages = example.split("0 done\n").map(bytes_of);
    let messages: Vec<Vec<u8>> = messages.filter(|message| !message.is_empty()).collect();
    assert!(messages.len() > 31);
    let mut chance = Chance(0xbeef);
    let mut script = String::new();
    for _ in 0..200 {
        for message in &messages {
            let mut bytes = message.clone();
            for _ in 0..chance.below(4) {
                let at = chance.below(bytes.len());
                bytes[at] = chance.below(256) as u8;
            }
            if chance.below(4) == 0 {
                bytes.resize(chance.below(bytes.len() + 4), 0);
            }
            let digits: String = bytes.iter().map(|byte| format!("{byte:02x}")).collect();
            script.push_str(&format!("read {digits}\n"));
        }
    }
    goes_through(script.into_bytes());
}

/// The bytes that the console has drawn in lines.
fn bytes_of(drawn: &str) -> Vec<u8> {
    let lines = drawn.lines().take_while(|line| line.starts_with("  "));
    let digits = lines.flat_map(|line| line.split_whitespace().skip(1));
    digits
        .map_while(|digits| u8::from_str_radix(digits, 16).ok())
        .collect()
}
