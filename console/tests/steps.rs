//! Document 01's thirteen steps, those of document 02's orders 7 and 10, and what else a call can be handed.

mod common;

use common::*;

const EXAMPLES: &str = concat!(env!("CARGO_MANIFEST_DIR"), "/../examples/");

/// What an example is to print.
fn expected(example: &str) -> String {
    std::fs::read_to_string(format!("{EXAMPLES}{example}.out")).unwrap()
}

#[track_caller]
fn prints_what_is_expected(example: &str) {
    let script = std::fs::read(format!("{EXAMPLES}{example}.txt")).unwrap();
    let (out, expected) = (good(script), expected(example));
    for (at, (line, wanted)) in out.lines().zip(expected.lines()).enumerate() {
        assert_eq!(line, wanted, "line {}", at + 1);
    }
    assert_eq!(out, expected);
}

/// The numbers in the history at an example's end.
fn numbers(example: &str) -> Vec<u32> {
    let expected = expected(example);
    let history = expected.split_once("\nsince ").unwrap().1;
    let number = |line: &str| -> u32 {
        let answer = line.rsplit_once(": ").unwrap().1;
        answer.split(' ').next().unwrap().parse().unwrap()
    };
    history.lines().skip(1).map(number).collect()
}

#[test]
fn worked_steps_are_answered_as_document_01_says() {
    prints_what_is_expected("worked-steps");
}

#[test]
fn the_steps_of_order_7_are_answered_as_expected() {
    prints_what_is_expected("elevation");
}

/// The numbers of the eight steps of order 7, apart from the file of expected output.
const STATED_OF_ORDER_7: [&[u32]; 8] = [
    &[0, 0, 0, 0, 0],
    &[0, 18, 9, 10, 10, 0, 8, 1],
    &[0, 18, 18, 15, 10],
    &[6, 6, 18],
    &[18, 18, 10, 5],
    &[0, 5, 0, 0, 18],
    &[15, 0, 0, 10, 0, 0, 18],
    &[0, 6, 0],
];

#[test]
fn the_steps_of_order_7_have_the_stated_numbers() {
    assert_eq!(numbers("elevation"), STATED_OF_ORDER_7.concat());
}

#[test]
fn the_steps_of_order_10_are_answered_as_expected() {
    prints_what_is_expected("ports");
}

/// The numbers of the twelve steps of order 10, apart from the file of expected output.
const STATED_OF_ORDER_10: [&[u32]; 12] = [
    &[1, 1, 1, 1, 0, 2, 0],
    &[0, 3, 0, 2],
    &[0, 12, 0, 7, 7],
    &[0, 6, 0],
    &[15, 0, 0],
    &[0, 6],
    &[0, 7, 12, 0, 0, 6, 0],
    &[0, 7, 0, 0, 0],
    &[12, 0, 0],
    &[0; 12],
    &[11, 12, 11, 0, 0, 11],
    &[0],
];

#[test]
fn the_steps_of_order_10_have_the_stated_numbers() {
    assert_eq!(numbers("ports"), STATED_OF_ORDER_10.concat());
}

/// The numbers that document 01 states in its steps, apart from the file of expected output. Document 02 corrects the numbers of the claims, and no answer.
const STATED: [&[u32]; 11] = [
    &[1, 0, 2],
    &[3, 4, 0, 0],
    &[5, 0, 12],
    &[0, 7],
    &[0, 9],
    &[8, 10, 0],
    &[1, 10],
    &[6, 6],
    &[0, 6],
    &[15, 0],
    &[0, 0, 0, 6, 0],
];

#[test]
fn worked_steps_have_the_stated_numbers() {
    let numbers = numbers("worked-steps");
    let stated = STATED.concat();
    assert_eq!(numbers[..stated.len()], stated);
    // step 12: 4 calls for sessions 2 and 3, 12 for the processes, then 11, 0, 0; step 13, by an accepted record and by a refused one; the relay
    let rest = &numbers[stated.len()..];
    assert_eq!(rest[..16], [0; 16]);
    assert_eq!(rest[16..24], [11, 0, 0, 0, 0, 13, 13, 13]);
    assert_eq!(rest[24..29], [0, 10, 13, 13, 13]);
    assert_eq!(rest[29..], [0, 6, 0, 0, 0, 9, 0]);
}

#[test]
fn wrong_values_are_the_modules_to_answer() {
    let setup = "open 0\nselect 0 0x10\nstart 0 1 P\n";
    let wrong = [
        "open 4",
        "open 0xffffffff",
        "open 0.4",
        "open 0.7",
        "open 1.4",
        "open 2.0",
        "open 4.0",
        "open 256.0",
        "open 1.256",
        "open 0x80000000.0",
        "open 4294967295.4294967295",
        "close 0x80000000",
        "drop 256",
        "select 4 0x10",
        "select 2.0 0x10",
        "close 2.0",
        "drop 3.0",
        "start 0 8 Q",
        "start 0 65536 Q",
        "start 0 0x80000000 Q",
        "start 0 0 00*47",
        "start 0 0 00*49",
        "start 0 0 \"forty-nine bytes of text, which is one byte too many\"",
        "continue 0 0 00",
        "elevate 0 0 Q 2",
        "elevate 7 0 Q yes",
        "elevate 2.0 0 Q yes",
        "start 2.0 0 Q",
        "continue 2.0 0 Q",
        "end 2.0 1 0 yes remove",
        "record 2.0 user 1 0 yes 4",
        "list 2.0 user 1 0 yes 1",
        "kill 2.0 user 1 0 yes Q",
        "set-word 2.0 user 1 0 yes 1 1 0",
        "end 0 1 0 2 remove",
        "end 0 1 0 yes 2",
        "record 0 user 1 0 yes 3",
        "record 0 user 1 0 yes 32",
        "record 0 user 8 0 yes 4",
        "record 0 user 1 0 2 4",
        "record 0 kind 2 1 0 yes 4",
        "list 0 user 1 0 yes 8",
        "list 0 user 1 0 yes 65534",
        "list 0 user 1 0 yes 65536",
        "kill 0 user 1 0 yes 00*47",
        "set-word 0 user 1 0 yes 8 1 0",
    ];
    for line in wrong {
        let lines = answers(&format!("{setup}{line}\n"));
        assert_eq!(lines[3..], ["1 argument"], "{line}");
    }
}

/// Each call of document 01 on port 1: a plain number, and its number behind port 0, reach another session.
#[test]
fn a_call_reaches_the_port_it_names() {
    let script = "open 1.3\nselect 1.3 16\nstart 1.3 0 P\nelevate 1.3 1 Q yes\nset-word 1.3 user 0 0 yes 1 0x80000000 0\nrecord 1.3 elevated 31\n\
                  drop 1.3\nlist 1.3 user 0 1 yes 1 4\nkill 1.3 user 0 2 yes R\nend 1.3 0 3 yes keep\ncontinue 1.3 0 P\nrecords 1.3 0 4 5 4\nclose 1.3\n";
    let numbers = [0, 0, 0, 0, 0, 0, 0, 0, 6, 0, 0, 10, 0];
    let lines = answers(script);
    let answered = lines.iter().filter(|line| !line.starts_with(' '));
    let answered = answered.filter(|line| !line.starts_with("AUTH") && !line.starts_with("number"));
    let answered: Vec<&str> = answered
        .map(|line| line.split(' ').next().unwrap())
        .collect();
    assert_eq!(answered, numbers.map(|number| number.to_string()));
    for other in ["3", "0.3"] {
        let script = script.replacen("open 1.3", &format!("open {other}"), 1);
        let refused = answers(&script);
        assert_eq!(refused[0], "0 done");
        assert!(
            refused[1..]
                .iter()
                .all(|line| line == "2 session" || line.starts_with("number")),
            "{refused:?}"
        );
    }
}

#[test]
fn an_elevated_claims_other_values_are_ignored() {
    let script = "open 0\nselect 0 0x10\nelevate 0 1 P yes\nrecord 0 elevated 4\nrecord 0 kind 1 0xffffffff 65535 7 4\nrecord 0 elevated 5\n";
    assert_eq!(answers(script)[3..], ["0 done", "0 done", "10 not granted"]);
}

#[test]
fn names_have_several_forms() {
    let p = format!("{}{}", "00".repeat(16), "11".repeat(32));
    let script = format!("open 0\nselect 0 0x10\nstart 0 0 P\nstart 0 1 {p}\nstart 0 1 00*16+11*31+11\nstart 0 1 00*16+11*31+12\nstart 0 1 R\n");
    let taken = "12 name taken";
    assert_eq!(
        answers(&script)[3..],
        [taken, taken, "0 done", "7 already active"]
    );

    let text =
        "open 0\nselect 0 0x10\nstart 0 0 \"a b\"\nstart 0 1 612062+00*45\nstart 0 1 \"a b \"\n";
    assert_eq!(answers(text)[3..], [taken, "0 done"]);
}

#[test]
fn calls_reach_the_call_they_name() {
    let script = "open 0\nselect 0 16\nstart 0 0 P\nelevate 0 1 Q no\nelevate 0 1 Q yes\nset-word 0 user 0 0 yes 1 0x80000000 0\n\
                  record 0 elevated 31\ndrop 0\ndrop 0\nend 0 0 1 yes keep\ncontinue 0 0 P\nend 0 0 2 yes remove\ncontinue 0 0 P\nclose 0\nclose 0\n";
    let numbers = [0, 0, 0, 8, 0, 0, 0, 0, 6, 0, 0, 0, 6, 0, 2];
    let lines = answers(script);
    assert_eq!(lines.len(), numbers.len());
    for (line, number) in lines.iter().zip(numbers) {
        assert!(line.starts_with(&format!("{number} ")), "{lines:?}");
    }
}

#[test]
fn series_of_records_end_at_the_first_refusal() {
    let setup = "open 0\nselect 0 0x10\nstart 0 1 P\n";
    let script = format!("{setup}records 0 1 0 9 4\nrecords 0 1 9 12 4\nrecords 0 1 10 10 5\nrecords 0 1 10 10 4\nrecords 0 1 11 65535 4\nhistory\n");
    let lines = answers(&script);
    let expected = [
        "0 done",
        "numbers 0 to 9, 10 records",
        "9 out of turn",
        "number 9 after 0 accepted records",
        "10 not granted",
        "number 10 after 0 accepted records",
        "9 out of turn",
        "number 10 after 0 accepted records",
        "13 spent",
        "number 65535 after 65524 accepted records",
    ];
    assert_eq!(lines[3..13], expected);
    assert_eq!(
        lines[17],
        "     4  records 0 1 0 9 4: 0 done, numbers 0 to 9, 10 records"
    );
}

#[test]
fn a_list_is_drawn_as_bytes_and_decoded() {
    let script = "open 0\nselect 0 0x10\nstart 0 0 \"ab\"\nelevate 0 1 R yes\nlist 0 user 0 0 yes 1\nlist 0 user 0 1 yes 2\n";
    let drawn = "\
0 done
     0  0e 00 01 00 01 00 01 00 00 00 00 00 00 00 00 00
    16  00 00 00 00 00 00 00 11 11 11 11 11 11 11 11 11
    32  11 11 11 11 11 11 11 11 11 11 11 11 11 11 11 11
    48  11 11 11 11 11 11 12
AUTH_PROCESSES, 1 row
  row 0: credential 1, type 1 active elevation, name 00*16+11*31+12  R
0 done
     0  0e 00 00 00
AUTH_PROCESSES, 0 rows";
    assert_eq!(answers(script)[4..].join("\n"), drawn);
}

#[test]
fn messages_are_read() {
    let script = "request all\nrequest 258\nread 8e7f0102\nread 8e00010200\nread 0e00 0200 ffff 02 6162+00*46 0700 00 01*48\n\
                  read 0e00 0100 0000 03 00*48\nread 0e000100\nread 00*0\nread 0f000000\n";
    let drawn = "\
0 done
     0  8e 00 ff ff
GET_AUTH_PROCESSES, wanted 65535, all
0 done
     0  8e 00 02 01
GET_AUTH_PROCESSES, wanted 258
0 done
GET_AUTH_PROCESSES
  CredentialID=513
14 message
code 8e, but no GET_AUTH_PROCESSES
0 done
AUTH_PROCESSES
  AuthProcInfoCount=2
  part 0: CredentialID=65535 AuthProcessType=2 AuthProcID=6162+00*46  saved user
  part 1: CredentialID=7 AuthProcessType=0 AuthProcID=01*48  active user
14 message
code 0e, but no AUTH_PROCESSES
14 message
code 0e, but no AUTH_PROCESSES
14 message
no message has no bytes
14 message
code 0f, but no PROCESS_KILLED
";
    assert_eq!(good(script), drawn);
}

#[test]
fn the_largest_message_is_read() {
    let out = good("read 0e00ffff 00*3342285\n");
    assert_eq!(out.lines().nth(2), Some("  AuthProcInfoCount=65535"));
    assert_eq!(out.lines().count(), 3 + 65535);
}
