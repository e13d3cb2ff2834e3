//! Bad lines, and what surrounds the calls: show, history, help, arguments, exit codes.

mod common;

use common::*;
use std::io::Write;
use std::process::Stdio;

const SETUP: &str = "open 0\nselect 0 0x10\nstart 0 0 P\nstart 0 1 R\n";

/// Bad lines, each with a part of its message.
const BAD: [(&str, &str); 77] = [
    ("opne 3", "no command 'opne'"),
    ("OPEN 3", "no command 'OPEN'"),
    ("\u{1b}[31m", "no command '\\u{1b}[31m'"),
    ("\u{202e}nepo 'x'", "no command '\\u{202e}nepo'"),
    ("open", "session is missing"),
    ("open x", "session: 'x' is no number"),
    ("open -1", "session: '-1' is no number"),
    ("open +1", "session: '+1' is no number"),
    ("open 1.", "session: '' is no number"),
    ("open .0", "port: '' is no number"),
    ("open .", "port: '' is no number"),
    ("open 1.0.0", "session: '0.0' is no number"),
    ("open 1..0", "session: '.0' is no number"),
    ("open x.0", "port: 'x' is no number"),
    ("open 1.x", "session: 'x' is no number"),
    ("open -1.0", "port: '-1' is no number"),
    ("open 1,0", "session: '1,0' is no number"),
    ("open 1 .0", "'.0' is too much"),
    ("open 4294967296.0", "port: '4294967296' is over 32 bits"),
    ("records 1. 1 0 9 4", "session: '' is no number"),
    ("open 0x", "'0x' is no number"),
    ("open 0xg", "'0xg' is no number"),
    ("open 1 2", "'2' is too much"),
    ("open 4294967296", "'4294967296' is over 32 bits"),
    ("open 0x100000000", "'0x100000000' is over 32 bits"),
    ("open \"0\"", "session stands without quotation marks"),
    ("select 0", "version is missing"),
    ("start 1 0", "name is missing"),
    ("start 1 0 PQ", "name: 'PQ': not hexadecimal digits"),
    (
        "start 1 0 123",
        "name: '123': a byte has two hexadecimal digits",
    ),
    ("start 1 0 00*", "a count of repetitions has to follow *"),
    ("start 1 0 00*99999999999", "over 4194304 bytes"),
    ("start 1 0 \"abc", "a quotation mark is not closed"),
    (
        "start 1 0 \"abc\"d",
        "a blank has to follow a closing quotation mark",
    ),
    ("elevate 0 0 Q", "yes or no is missing"),
    ("elevate 0 0 Q maybe", "'maybe' is neither yes nor no"),
    ("end 0 0 0 yes", "keep or remove is missing"),
    ("end 0 0 0 yes save", "'save' is neither keep nor remove"),
    ("end 0 0 65536 yes remove", "number: 65536 is over 16 bits"),
    ("record 0", "claim is missing"),
    (
        "record 0 admin 4",
        "claim: 'admin' is neither user nor elevated",
    ),
    (
        "record 0 user 1 65536 yes 4",
        "number: 65536 is over 16 bits",
    ),
    ("record 0 user 1 0 yes", "class is missing"),
    ("record 0 elevated", "class is missing"),
    ("record 0 elevated 4 5", "'5' is too much"),
    ("list 0 user 0 0 yes", "wanted is missing"),
    ("list 0 user 0 0 yes every", "wanted: 'every' is no number"),
    (
        "list 0 user 0 0 yes all 65537",
        "at most 65536 bytes can be lent",
    ),
    ("kill 0 user 0 0 yes", "name is missing"),
    ("set-word 0 user 0 0 yes 1", "word is missing"),
    (
        "set-word 0 user 0 0 yes 1 4294967296 0",
        "word: '4294967296' is over 32 bits",
    ),
    // a second word left out would clear marks
    ("set-word 0 user 0 0 yes 1 16", "second is missing"),
    ("set-word 0 elevated 1 16", "second is missing"),
    (
        "set-word 0 user 0 0 yes 1 16 4294967296",
        "second: '4294967296' is over 32 bits",
    ),
    ("set-word 0 user 0 0 yes 1 16 0 0", "'0' is too much"),
    ("records 0 1 3 2 4", "3 comes after 2"),
    ("fresh 8=1", "credential 8: a module has credentials 0 to 7"),
    ("fresh 0=1 0=2", "credential 0 is given twice"),
    ("fresh 0", "'0' is no CREDENTIAL=WORD"),
    ("fresh 0=", "word: '' is no number"),
    ("fresh 0=15/", "second: '' is no number"),
    ("fresh 0=/4", "word: '' is no number"),
    ("fresh 0=15/4/2", "second: '4/2' is no number"),
    ("fresh none 0=1", "'none' is no CREDENTIAL=WORD"),
    ("request 65536", "wanted: 65536 is over 16 bits"),
    ("read", "message is missing"),
    ("read 00*4194304 00", "'00': over 4194304 bytes"),
    ("read 8e0", "'8e0': a byte has two hexadecimal digits"),
    ("rescue", "from is missing"),
    ("rescue board.image", "to is missing"),
    ("rescue \"board.image\"", "to is missing"),
    ("rescue from to more", "'more' is too much"),
    ("rescue from \"to", "a quotation mark is not closed"),
    (
        "rescue \"from\"to",
        "a blank has to follow a closing quotation mark",
    ),
    ("show me", "'me' is not names"),
    ("help me", "no command 'me'"),
    ("history now", "'now' is too much"),
];

#[test]
fn a_bad_line_gets_its_message_and_leaves_the_state() {
    let shown = good(format!("{SETUP}show\nhistory\n"));
    for (line, message) in BAD {
        let run = run(format!("{SETUP}\n# a comment\n{line}\nshow\nhistory\n"));
        assert!(run.err.starts_with("line 7: "), "{line}: {}", run.err);
        assert!(run.err.contains(message), "{line}: {}", run.err);
        assert_eq!(run.err.lines().count(), 1, "{line}");
        assert_eq!(run.out, shown, "{line}");
        assert_eq!(run.code, Some(1), "{line}");
    }
}

#[test]
fn each_bad_line_is_counted_where_it_stands() {
    let run = run("open x\n\nopen 0\n  # open y\n\topen z\r\nopen 0\r\n");
    let lines: Vec<&str> = run.err.lines().collect();
    assert_eq!(lines.len(), 2);
    assert!(lines[0].starts_with("line 1: "));
    assert!(lines[1].starts_with("line 5: "));
    assert_eq!(run.out, "0 done\n2 session\n");
}

#[test]
fn bytes_that_are_no_text_get_a_message() {
    let run = run(b"open \xff\nopen 0\n\xc3\x28\n");
    assert_eq!(run.err, "line 1: not UTF-8 text\nline 3: not UTF-8 text\n");
    assert_eq!((run.out.as_str(), run.code), ("0 done\n", Some(1)));
}

#[test]
fn a_line_of_any_length_gets_an_answer() {
    let mut script = vec![b'7'; 20 * 1024 * 1024];
    script.extend(b"\nopen 0\nopen ");
    script.resize(script.len() + 1024 * 1024, b'1');
    script.extend(b"\nopen 1\n");
    let run = run(script);
    let lines: Vec<&str> = run.err.lines().collect();
    assert_eq!(lines[0], "line 1: over 16777216 bytes long");
    assert!(lines[1].starts_with("line 3: open: session: '1111"));
    assert!(lines[1].len() < 120, "{}", lines[1]);
    assert_eq!(run.out, "0 done\n0 done\n");
}

#[test]
fn a_last_line_needs_no_end() {
    assert_eq!(good("open 0\nopen 0"), "0 done\n2 session\n");
    assert_eq!(good(""), "");
}

#[test]
fn quit_ends_the_script() {
    assert_eq!(good("open 0\nquit\nopen x\n"), "0 done\n");
    let run = run("open x\nquit\n");
    assert_eq!(run.code, Some(1));
}

#[test]
fn a_refusal_is_an_answer() {
    assert_eq!(good("close 0\n"), "2 session\n");
}

#[test]
fn show_draws_the_state() {
    let drawn = "\
sessions of port 0
  0.0  open with version 1.0
  0.1  open without a version
  0.2  closed
  0.3  closed
sessions of port 1
  1.0  closed
  1.1  closed
  1.2  open with version 1.0
  1.3  closed
credentials
  0  word 0x0000000f  0 list others, 1 kill others, 2 save own, 3 set words
  1  word 0xc0000114/0x80000102  2 save own, device 4, 30; only elevated: device 8, 31
  5  word 0x00000000  no class
  6  word 0x0000000f/0x00000004  0 list others, 1 kill others, 3 set words; only elevated: 2 save own
  2 to 4, 7  not provisioned
processes, 4 of 12; of their names bytes 0, 1, 16, 46, 47
  place  credential  type              session  next number  name
      0           0  active user           0.0            1  0000..11..1111  P
      1           1  active elevation      0.0            -  0000..22..2222  Q
      2           1  saved user              -            1  0000..11..1112  R
      3           0  active user           1.2            0  0000..00..0001
";
    let script = "fresh 0=15 1=0 5=0 6=15/4\nopen 0\nselect 0 0x10\nopen 1\nstart 0 0 P\nset-word 0 user 0 0 yes 1 0xc0000114 0x80000102\nelevate 0 1 Q yes\n\
                  start 0 1 R\nend 0 1 0 yes keep\nopen 1.2\nselect 1.2 0x10\nstart 1.2 0 00*47+01\n";
    let out = good(format!("{script}show\n"));
    assert_eq!(
        out.lines().skip(13).collect::<Vec<_>>().join("\n") + "\n",
        drawn
    );

    let names = good(format!("{script}show names\n"));
    assert!(names.contains("processes, 4 of 12\n"));
    assert!(names.contains("saved user              -            1  00*16+11*31+12  R\n"));
    assert!(names.ends_with("active user           1.2            0  00*47+01\n"));

    let none = good("fresh none\nshow\n");
    assert!(none.ends_with("credentials\n  0 to 7  not provisioned\nprocesses, 0 of 12\n"));
}

#[test]
fn history_has_every_call_since_the_last_fresh() {
    let script = "open 0\nselect  0   16\nshow\nrequest all\nopen 0\nhistory\nfresh 3=0x10\nopen 3\nstart 3 3 \"a\tb\"\nhistory\n";
    let told = "\
since the start, with fresh 0=15 1=16
     1  open 0: 0 done
     2  select  0   16: 0 done
     3  open 0: 2 session
0 done
a new history begins
0 done
3 no version
since fresh 3=0x10
     1  open 3: 0 done
     2  start 3 3 \"a\\tb\": 3 no version
";
    let out = good(script);
    let from = out.find("since").unwrap();
    assert_eq!(&out[from..], told);
}

const COMMANDS: [&str; 26] = [
    "fresh", "open", "close", "select", "start", "continue", "elevate", "drop", "end", "record",
    "records", "list", "kill", "set-word", "show", "request", "read", "write", "save", "load",
    "image", "restore", "rescue", "history", "help", "quit",
];

#[test]
fn help_names_every_command() {
    let overview = good("help\n");
    let named: Vec<&str> = overview
        .lines()
        .skip(1)
        .map_while(|line| line.strip_prefix("  "))
        .map(|line| line.split(' ').next().unwrap())
        .collect();
    assert_eq!(named, COMMANDS);
    assert!(overview.lines().all(|line| line.len() <= 80), "{overview}");
    for name in COMMANDS
        .into_iter()
        .chain(["session", "number", "claim", "name", "message"])
    {
        let details = good(format!("help {name}\n"));
        assert!(details.lines().count() >= 2, "{details}");
        assert!(details.lines().all(|line| line.len() <= 80), "{details}");
    }
}

#[test]
fn the_version_is_said() {
    for version in ["--version", "-V"] {
        let output = console().arg(version).output().unwrap();
        assert!(output.status.success());
        let version = env!("CARGO_PKG_VERSION");
        let said = format!("slavotuk-console {version}, library {version}\n");
        assert_eq!(String::from_utf8(output.stdout).unwrap(), said);
    }
}

#[test]
fn other_arguments_are_bad() {
    for help in ["--help", "-h"] {
        let output = console().arg(help).output().unwrap();
        assert_eq!(output.status.code(), Some(0));
        let text = String::from_utf8(output.stdout).unwrap();
        assert!(text.starts_with("usage: slavotuk-console"));
        assert!(text.lines().all(|line| line.len() <= 80), "{text}");
        assert!(COMMANDS
            .iter()
            .all(|name| text.contains(&format!("\n  {name}"))));
    }
    for arguments in [&["file"][..], &["--help", "more"], &["--verbose"], &[""]] {
        let output = console().args(arguments).output().unwrap();
        assert_eq!(output.status.code(), Some(2), "{arguments:?}");
        assert!(output.stdout.is_empty());
        assert!(!output.stderr.is_empty());
    }
}

#[test]
fn a_closed_pipe_ends_quietly() {
    let mut child = spawn(&mut console());
    drop(child.stdout.take());
    let mut input = child.stdin.take().unwrap();
    for _ in 0..1000 {
        // the console may be gone by now
        let _ = input.write_all(b"show\n");
    }
    drop(input);
    let output = child.wait_with_output().unwrap();
    assert_eq!(output.status.code(), Some(0));
    assert_eq!(String::from_utf8_lossy(&output.stderr), "");
}

#[test]
fn output_that_is_lost_is_a_failure() {
    let Ok(full) = std::fs::File::options().write(true).open("/dev/full") else {
        return;
    };
    let mut child = console()
        .stdin(Stdio::piped())
        .stdout(full)
        .stderr(Stdio::piped())
        .spawn()
        .unwrap();
    child.stdin.take().unwrap().write_all(b"show\n").unwrap();
    let output = child.wait_with_output().unwrap();
    assert_eq!(output.status.code(), Some(1));
    assert!(String::from_utf8_lossy(&output.stderr).starts_with("standard output: "));
}
