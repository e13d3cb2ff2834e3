//! An input as a text, so that a program in any language can be timed on it.

use crate::input::{Call, Input};
use crate::numbers::{name_of, DONE};
use slavotuk::entries::{self, RawClaim};
use slavotuk::layout::state::{CREDENTIALS_AT, CREDENTIAL_LENGTH, SECOND};
use slavotuk::{Credential, Session, STATE_LENGTH};
use std::fmt::Write;
use std::fs;
use std::path::Path;
use std::str::FromStr;

/// The bytes of a second word, with which a credential ends.
const SECOND_LENGTH: usize = CREDENTIAL_LENGTH - SECOND;
/// The hex digits of a state, and of states of before: files from then are still read.
const DIGITS: usize = 2 * STATE_LENGTH;
const ONE_PORT_DIGITS: usize = DIGITS - 2 * Session::PER_PORT;
const ONE_WORD_DIGITS: usize = ONE_PORT_DIGITS - 2 * SECOND_LENGTH * Credential::COUNT;

/// What a file says: an input, and the state that its calls leave.
#[derive(Debug, PartialEq, Eq)]
pub struct Recorded {
    pub input: Input,
    pub left: Vec<u8>,
}

// ---- written

impl Recorded {
    /// Writes a file; `drawn` says where its calls come from.
    pub fn write(&self, file: &Path, drawn: &str) -> Result<(), String> {
        fs::write(file, self.text(drawn)).map_err(|error| told(file, &error.to_string()))
    }

    fn text(&self, drawn: &str) -> String {
        let mut text = head(&self.input, drawn);
        text += &format!("state {}\n", hex(&self.input.state));
        for call in &self.input.calls {
            text += &line_of(call);
        }
        text + &format!("left {}\n", hex(&self.left))
    }
}

fn head(input: &Input, drawn: &str) -> String {
    let answers: Vec<String> = input
        .tally()
        .into_iter()
        .map(|(number, calls)| format!("{calls} get {number} ({})", name_of(number)))
        .collect();
    format!(
        "\
# {}: {} record calls of the management login module, to time a program on.
# {drawn}
# Answers: {}.
# The line `state` has the {STATE_LENGTH} bytes before the first call in hex digits, `left` those after the last; docs/STATE.md draws them.
# Every other line is a call on what the call before it left, in decimal numbers:
# port session kind credential number verdict class answer
",
        input.name,
        input.calls.len(),
        answers.join(", "),
    )
}

fn line_of(call: &Call) -> String {
    let Call {
        port,
        session,
        claim,
        class,
        number: answer,
    } = call;
    let RawClaim {
        kind,
        credential,
        number,
        verdict,
    } = claim;
    format!("{port} {session} {kind} {credential} {number} {verdict} {class} {answer}\n")
}

fn hex(bytes: &[u8]) -> String {
    bytes.iter().fold(String::new(), |mut text, byte| {
        write!(text, "{byte:02x}").expect("a text takes every byte");
        text
    })
}

// ---- read

/// Reads a file. What is wrong with it is told, with its line.
pub fn read(file: &Path) -> Result<Recorded, String> {
    let text = fs::read_to_string(file).map_err(|error| told(file, &error.to_string()))?;
    let name = file.display().to_string();
    parse(name, &text).map_err(|fault| told(file, &fault))
}

fn told(file: &Path, fault: &str) -> String {
    format!("{}: {fault}", file.display())
}

fn parse(name: String, text: &str) -> Result<Recorded, String> {
    let mut reader = Reader::default();
    let text = text.strip_suffix('\n').unwrap_or(text);
    for (at, line) in text.split('\n').enumerate() {
        reader
            .take(line)
            .map_err(|fault| format!("line {}: {fault}", at + 1))?;
    }
    reader.end(name)
}

/// What the calls of a file are, which its state tells.
#[derive(Clone, Copy)]
enum Form {
    /// Each names its port.
    TwoPorts,
    /// They are of before there was a second port.
    OnePort,
}

impl Form {
    /// The port of every call, where they name none.
    fn only_port(self) -> Option<&'static str> {
        match self {
            Form::TwoPorts => None,
            Form::OnePort => Some("0"),
        }
    }

    /// How many numbers a call is, for people.
    fn numbers_of_a_call(self) -> &'static str {
        match self {
            Form::TwoPorts => "eight numbers",
            Form::OnePort => "seven numbers, its state having one port,",
        }
    }
}

/// What the lines so far have said.
#[derive(Default)]
struct Reader {
    state: Option<(Form, Vec<u8>)>,
    calls: Vec<Call>,
    left: Option<Vec<u8>>,
}

impl Reader {
    fn take(&mut self, line: &str) -> Result<(), String> {
        if line.starts_with('#') {
            return Ok(());
        }
        if self.left.is_some() {
            return Err("text after the line `left`".to_string());
        }
        let begun = self.state.as_ref().map(|(form, _)| *form);
        match (line.split_once(' '), begun) {
            (Some(("state", digits)), _) => self.take_state(digits)?,
            (_, None) => return Err("the line `state` has to come first".to_string()),
            (Some(("left", digits)), _) => self.left = Some(state_of(digits)?.1),
            (_, Some(form)) => self.calls.push(call_of(line, form)?),
        }
        Ok(())
    }

    fn take_state(&mut self, digits: &str) -> Result<(), String> {
        if self.state.is_some() {
            return Err("a second line `state`".to_string());
        }
        let (form, state) = state_of(digits)?;
        if entries::holds(&state) != DONE {
            return Err("these bytes hold no state: the entry `holds` refuses them".to_string());
        }
        self.state = Some((form, state));
        Ok(())
    }

    fn end(self, name: String) -> Result<Recorded, String> {
        let (_, state) = self.state.ok_or("there is no line `state`")?;
        if self.calls.is_empty() {
            return Err("there are no calls".to_string());
        }
        let left = self.left.ok_or("the line `left` is missing at the end")?;
        let calls = self.calls;
        Ok(Recorded {
            input: Input { name, state, calls },
            left,
        })
    }
}

fn call_of(line: &str, form: Form) -> Result<Call, String> {
    let only_port = form.only_port().into_iter();
    let words: Vec<&str> = only_port.chain(line.split(' ')).collect();
    match words[..] {
        [port, session, kind, credential, number, verdict, class, answer] => Ok(Call {
            port: number_of("port", port)?,
            session: number_of("session", session)?,
            claim: RawClaim {
                kind: number_of("kind", kind)?,
                credential: number_of("credential", credential)?,
                number: number_of("number", number)?,
                verdict: number_of("verdict", verdict)?,
            },
            class: number_of("class", class)?,
            number: number_of("answer", answer)?,
        }),
        _ => Err(format!(
            "a call is {} with one space between, and not {line:?}",
            form.numbers_of_a_call()
        )),
    }
}

/// A sign is no digit, though the library takes one.
fn number_of<Number: FromStr>(column: &str, word: &str) -> Result<Number, String> {
    let width = 8 * std::mem::size_of::<Number>();
    word.parse()
        .ok()
        .filter(|_| word.bytes().all(|byte| byte.is_ascii_digit()))
        .ok_or_else(|| {
            format!("{column} is a decimal number of at most {width} bits, and not {word:?}")
        })
}

/// A state as it would be written now.
fn state_of(digits: &str) -> Result<(Form, Vec<u8>), String> {
    let values = digits
        .chars()
        .map(|digit| digit.to_digit(16).ok_or(digit))
        .collect::<Result<Vec<u32>, char>>()
        .map_err(|other| format!("{other:?} is no hex digit"))?;
    let pairs = values.chunks_exact(2);
    let bytes: Vec<u8> = pairs.map(|pair| (pair[0] << 4 | pair[1]) as u8).collect();
    match values.len() {
        DIGITS => Ok((Form::TwoPorts, bytes)),
        ONE_PORT_DIGITS => Ok((Form::OnePort, with_second_port(&bytes))),
        ONE_WORD_DIGITS => Ok((Form::OnePort, with_second_words(&with_second_port(&bytes)))),
        other => Err(format!(
            "a state is {DIGITS} hex digits, {ONE_PORT_DIGITS} where it has one port, {ONE_WORD_DIGITS} where it has no second words either, and not {other}"
        )),
    }
}

/// A state of before there was a second port, with one whose sessions are closed. The slots of port 0 are its sessions, so the places stay as they are.
fn with_second_port(old: &[u8]) -> Vec<u8> {
    let (sessions, behind) = old.split_at(Session::PER_PORT);
    [sessions, &[0; Session::PER_PORT], behind].concat()
}

/// A state of before credentials had second words, with second words of zero.
fn with_second_words(old: &[u8]) -> Vec<u8> {
    let (sessions, behind) = old.split_at(CREDENTIALS_AT);
    let (credentials, processes) = behind.split_at(SECOND * Credential::COUNT);
    let mut state = sessions.to_vec();
    for credential in credentials.chunks_exact(SECOND) {
        state.extend(credential);
        state.extend([0; SECOND_LENGTH]);
    }
    state.extend(processes);
    state
}

#[cfg(test)]
mod tests {
    use super::*;
    use crate::agreement;
    use crate::input::{all, find, ORDERED_CALLS};

    fn recorded(name: &str) -> Recorded {
        let input = find(name).unwrap().input(16);
        let left = agreement::check_calls(&input).unwrap();
        Recorded { input, left }
    }

    /// The lines without their comments: the state, sixteen calls, and what is left.
    fn lines() -> Vec<String> {
        lines_of("twelve-first")
    }

    fn lines_of(name: &str) -> Vec<String> {
        let text = recorded(name).text("Drawn.");
        text.lines()
            .filter(|line| !line.starts_with('#'))
            .map(str::to_string)
            .collect()
    }

    /// What is told of these lines.
    fn fault(lines: &[String]) -> String {
        parse("a file".to_string(), &lines.join("\n")).unwrap_err()
    }

    fn fault_with(at: usize, line: &str) -> String {
        let mut lines = lines();
        lines[at] = line.to_string();
        fault(&lines)
    }

    #[test]
    fn what_is_written_is_read() {
        for named in all() {
            let written = recorded(named.name);
            let read = parse(named.name.to_string(), &written.text("Drawn."));
            assert_eq!(read, Ok(written));
        }
    }

    #[test]
    fn a_file_is_written_and_read() {
        let file = std::env::temp_dir().join(format!("slavotuk-bench-{}", std::process::id()));
        let written = recorded("one");
        written.write(&file, "Drawn.").unwrap();
        let read = read(&file);
        fs::remove_file(&file).unwrap();
        let name = file.display().to_string();
        let Recorded { input, left } = written;
        let input = Input { name, ..input };
        assert_eq!(read, Ok(Recorded { input, left }));
    }

    const ON_PORT_0: &str = "port-0-first";

    /// The lines of calls on port 0 as they were before there was a second one: its sessions are the second four bytes of a state, and a call begins with its port.
    fn one_port_lines() -> Vec<String> {
        let mut lines = lines_of(ON_PORT_0);
        let last = lines.len() - 1;
        for (at, line) in lines.iter_mut().enumerate() {
            let (word, behind) = line.split_once(' ').unwrap();
            *line = if at == 0 || at == last {
                format!("{word} {}{}", &behind[..2 * 4], &behind[2 * 8..])
            } else {
                behind.to_string()
            };
        }
        lines
    }

    /// The same without second words: they are the last four bytes of each credential's nine.
    fn one_word_lines() -> Vec<String> {
        let mut lines = one_port_lines();
        let last = lines.len() - 1;
        for at in [0, last] {
            let (word, digits) = lines[at].split_once(' ').unwrap();
            let (sessions, behind) = digits.split_at(2 * 4);
            let (credentials, processes) = behind.split_at(2 * 9 * 8);
            let credentials: String = (0..8)
                .map(|credential| &credentials[2 * 9 * credential..][..2 * 5])
                .collect();
            lines[at] = format!("{word} {sessions}{credentials}{processes}");
        }
        lines
    }

    #[test]
    fn a_file_of_before_is_read() {
        for lines in [one_port_lines(), one_word_lines()] {
            let read = parse(ON_PORT_0.to_string(), &lines.join("\n"));
            assert_eq!(read, Ok(recorded(ON_PORT_0)));
        }
    }

    #[test]
    fn a_call_names_its_port_where_the_state_has_two() {
        let mut one_port = one_port_lines();
        let without_port = std::mem::replace(&mut one_port[1], lines()[1].clone());
        let told = format!("line 2: a call is seven numbers, its state having one port, with one space between, and not {:?}", one_port[1]);
        assert_eq!(fault(&one_port), told);
        let told = format!(
            "line 2: a call is eight numbers with one space between, and not {without_port:?}"
        );
        assert_eq!(fault_with(1, &without_port), told);
    }

    #[test]
    fn a_missing_file_is_told() {
        let told = read(Path::new("/nowhere/calls.txt")).unwrap_err();
        assert!(told.starts_with("/nowhere/calls.txt: "), "{told}");
    }

    /// FNV-1a of these lines of the order's calls: the same for both kinds of names.
    fn digest_of_calls(names: [&str; 2], line_of: fn(&Call) -> String) -> u64 {
        let digests = names.map(|name| {
            let calls = find(name).unwrap().input(ORDERED_CALLS).calls;
            let text: String = calls.iter().map(line_of).collect();
            text.bytes().fold(0xcbf2_9ce4_8422_2325, |digest, byte| {
                (digest ^ u64::from(byte)).wrapping_mul(0x0100_0000_01b3)
            })
        });
        assert_eq!(digests[0], digests[1], "{names:?}");
        digests[0]
    }

    /// Published anew with order 10: processes stand over both ports, a call names its port, and one of a port of 2 is among those that get 1.
    #[test]
    fn the_orders_calls_are_those_that_were_published() {
        let digest = digest_of_calls(["twelve-first", "twelve-last"], line_of);
        assert_eq!(digest, 0xb0e2_5d76_86be_3e65);
    }

    /// Those that had been published before there was a second port, so that what it costs is told on the same calls.
    #[test]
    fn the_calls_on_port_0_are_those_of_before() {
        let without_port = |call: &Call| {
            let line = line_of(call);
            line.strip_prefix("0 ")
                .expect("it is on port 0")
                .to_string()
        };
        let digest = digest_of_calls(["port-0-first", "port-0-last"], without_port);
        assert_eq!(digest, 0x76cf_8cfc_00d0_c3ec);
    }

    #[test]
    fn a_missing_part_is_told() {
        let lines = lines();
        let last = lines.len() - 1;
        assert_eq!(
            fault(&lines[1..]),
            "line 1: the line `state` has to come first"
        );
        assert_eq!(fault(&[]), "line 1: the line `state` has to come first");
        assert_eq!(fault(&["# a comment".into()]), "there is no line `state`");
        assert_eq!(
            fault(&lines[..last]),
            "the line `left` is missing at the end"
        );
        let without_calls = [lines[0].clone(), lines[last].clone()];
        assert_eq!(fault(&without_calls), "there are no calls");
    }

    #[test]
    fn text_after_the_end_is_told_and_a_comment_is_none() {
        let mut lines = lines();
        lines.push("# a comment".to_string());
        assert!(parse("a file".to_string(), &lines.join("\n")).is_ok());
        lines.push(lines[1].clone());
        assert_eq!(fault(&lines), "line 20: text after the line `left`");
    }

    #[test]
    fn a_second_state_is_told() {
        assert_eq!(fault_with(1, &lines()[0]), "line 2: a second line `state`");
    }

    #[test]
    fn bytes_that_hold_no_state_are_told() {
        let line = lines()[0].replacen("state 02", "state 03", 1);
        let told = "line 1: these bytes hold no state: the entry `holds` refuses them";
        assert_eq!(fault_with(0, &line), told);
    }

    #[test]
    fn wrong_hex_is_told() {
        let lines = lines();
        for (at, word) in [(0, "state"), (lines.len() - 1, "left")] {
            let line = lines[at].replacen(&format!("{word} 0"), &format!("{word} g"), 1);
            let told = format!("line {}: 'g' is no hex digit", at + 1);
            assert_eq!(fault_with(at, &line), told);
            let line = &lines[at][..lines[at].len() - 1];
            let told = format!("line {}: a state is 1434 hex digits, 1426 where it has one port, 1362 where it has no second words either, and not 1433", at + 1);
            assert_eq!(fault_with(at, line), told);
        }
    }

    #[test]
    fn a_call_of_another_form_is_told() {
        for line in [
            "",
            "1 2 3",
            "0 0 0 0 0 1 4 0 0",
            "0  0 0 0 0 1 4 0",
            " 0 0 0 0 0 1 4 0",
        ] {
            let told =
                format!("line 2: a call is eight numbers with one space between, and not {line:?}");
            assert_eq!(fault_with(1, line), told);
        }
    }

    #[test]
    fn a_number_over_its_width_is_told() {
        let columns = [
            "port",
            "session",
            "kind",
            "credential",
            "number",
            "verdict",
            "class",
            "answer",
        ];
        for (at, column) in columns.into_iter().enumerate() {
            let (width, over) = match column {
                "number" => (16, "65536"),
                _ => (32, "4294967296"),
            };
            for word in [over, "-1", "+1", "x", "0x1", "1\r"] {
                let mut words = ["0"; 8];
                words[at] = word;
                let told = format!("line 2: {column} is a decimal number of at most {width} bits, and not {word:?}");
                assert_eq!(fault_with(1, &words.join(" ")), told);
            }
        }
    }
}
