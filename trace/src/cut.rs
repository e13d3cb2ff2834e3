//! A trace cut into cases, as a stream.

use crate::groups::Groups;
use crate::lines::Line;
use crate::marks::{BEGINS, ENDS};
use crate::said::Case;
use std::io::BufRead;

/// What stands beside the trace.
pub trait Beside {
    /// What the case is that begins now.
    fn next_case(&mut self) -> Result<Case, String>;
    /// A line that is none of the trace.
    fn message(&mut self, line: &[u8]);
}

/// Reads a trace to its end, and compares its cases.
pub fn cut(mut trace: impl BufRead, beside: &mut impl Beside) -> Result<Groups, String> {
    let mut groups = Groups::default();
    let mut line = Vec::new();
    while read_line(&mut trace, &mut line)? {
        match Line::read(&line) {
            Some(read) => take(read, &mut groups, beside)?,
            None => beside.message(&line),
        }
    }
    if groups.is_running() {
        return Err("the trace ends inside a case".to_string());
    }
    Ok(groups)
}

/// Whether there was one more.
fn read_line(trace: &mut impl BufRead, line: &mut Vec<u8>) -> Result<bool, String> {
    line.clear();
    match trace.read_until(b'\n', line) {
        Ok(count) => Ok(count > 0),
        Err(error) => Err(format!("the trace can't be read: {error}")),
    }
}

fn take(line: Line, groups: &mut Groups, beside: &mut impl Beside) -> Result<(), String> {
    match line {
        Line::Store(store) if store.address == BEGINS => {
            if groups.is_running() {
                return Err("a case begins inside another".to_string());
            }
            groups.begin(beside.next_case()?);
        }
        Line::Store(store) if store.address == ENDS => {
            if !groups.is_running() {
                return Err("a case ends that has not begun".to_string());
            }
            groups.end();
        }
        other => groups.take(other),
    }
    Ok(())
}

#[cfg(test)]
mod tests {
    use super::*;
    use std::collections::VecDeque;

    /// The cases that are told, and the messages that came.
    #[derive(Default)]
    struct Written {
        cases: VecDeque<Case>,
        messages: Vec<String>,
    }

    impl Beside for Written {
        fn next_case(&mut self) -> Result<Case, String> {
            self.cases.pop_front().ok_or_else(|| "no line".to_string())
        }

        fn message(&mut self, line: &[u8]) {
            self.messages
                .push(String::from_utf8_lossy(line).trim_end().to_string());
        }
    }

    const BEGIN: &str = " S 30000000,1\n";
    const END: &str = " S 30000001,1\n";

    /// A trace of these cases, with lines around them that are in none.
    fn traced(cases: &[(&str, &str)]) -> Result<Groups, String> {
        let mut written = Written::default();
        let mut text = "I  100,4\n L 7,1\n".to_string();
        for (at, (group, lines)) in cases.iter().enumerate() {
            text += &format!("{BEGIN}{lines}{END}I  104,4\n L {at},1\n");
            written.cases.push_back(Case {
                group: group.to_string(),
                what: format!("case {at}"),
            });
        }
        cut(text.as_bytes(), &mut written)
    }

    fn told(cases: &[(&str, &str)]) -> Vec<String> {
        let groups = traced(cases).unwrap();
        groups
            .groups()
            .iter()
            .map(|group| group.told(&[]))
            .collect()
    }

    const LINES: &str = "I  200,3\n L 1000,8\nI  203,3\n S 2000,8\n M 1008,4\n";

    #[test]
    fn cases_with_the_same_lines_are_even() {
        assert_eq!(
            told(&[("kill", LINES), ("kill", LINES), ("kill", LINES)]),
            ["ok: kill: 3 cases, 2 loads each the same (2 instructions); instructions and stores the same too"]
        );
        assert!(traced(&[("kill", LINES), ("kill", LINES)])
            .unwrap()
            .groups()[0]
            .is_even());
    }

    #[test]
    fn another_address_is_a_difference() {
        let other = LINES.replace("L 1000,8", "L 1001,8");
        assert_eq!(
            told(&[("kill", LINES), ("kill", LINES), ("kill", &other)]),
            ["FAILED: kill: 1 of 3 cases have other loads than the first (case 0); \
              load 0 is the first that differs: of case 2 it is 1001,8, elsewhere; of the first case 1000,8, elsewhere"]
        );
        assert!(!traced(&[("kill", LINES), ("kill", &other)])
            .unwrap()
            .groups()[0]
            .is_even());
    }

    #[test]
    fn another_size_is_a_difference() {
        let other = LINES.replace("M 1008,4", "M 1008,2");
        assert_eq!(
            told(&[("kill", LINES), ("kill", &other), ("kill", &other)]),
            ["FAILED: kill: 2 of 3 cases have other loads than the first (case 0); \
              load 1 is the first that differs: of case 1 it is 1008,2, elsewhere; of the first case 1008,4, elsewhere"]
        );
    }

    #[test]
    fn a_load_less_or_more_is_a_difference() {
        let fewer = LINES.replace(" M 1008,4\n", "");
        assert_eq!(
            told(&[("kill", LINES), ("kill", &fewer), ("start", &fewer), ("start", LINES)]),
            ["FAILED: kill: 1 of 2 cases have other loads than the first (case 0); \
              load 1 is the first that differs: of case 1 it is none; of the first case 1008,4, elsewhere",
             "FAILED: start: 1 of 2 cases have other loads than the first (case 2); \
              load 1 is the first that differs: of case 3 it is 1008,4, elsewhere; of the first case none"]
        );
    }

    #[test]
    fn the_same_loads_in_another_order_are_a_difference() {
        let swapped = "I  200,3\n M 1008,4\nI  203,3\n S 2000,8\n L 1000,8\n";
        assert!(!traced(&[("kill", LINES), ("kill", swapped)])
            .unwrap()
            .groups()[0]
            .is_even());
    }

    #[test]
    fn other_instructions_and_stores_are_told_and_no_failure() {
        let ends = [
            "instructions and stores the same too",
            "instructions or stores differ in 1",
        ];
        for (from, to, end) in [
            ("I  203,3", "I  203,3", ends[0]),
            ("I  203,3", "I  207,3", ends[1]),
            ("S 2000,8", "S 2008,8", ends[1]),
            (" S 2000,8\n", "", ends[1]),
            (" S 2000,8\n", " S 2000,8\n S 2008,8\n", ends[1]),
        ] {
            let told = told(&[("kill", LINES), ("kill", &LINES.replace(from, to))]);
            let expected =
                format!("ok: kill: 2 cases, 2 loads each the same (2 instructions); {end}");
            assert_eq!(told, [expected], "{from} {to}");
        }
    }

    #[test]
    fn groups_are_compared_within_themselves() {
        let other = LINES.replace("1000", "3000");
        let told = told(&[
            ("kill", LINES),
            ("start", &other),
            ("kill", LINES),
            ("start", &other),
        ]);
        assert!(told[0].starts_with("ok: kill: 2 cases"), "{told:?}");
        assert!(told[1].starts_with("ok: start: 2 cases"), "{told:?}");
    }

    #[test]
    fn one_case_alone_fails() {
        let cases = [("kill", LINES)];
        assert_eq!(
            told(&cases),
            ["FAILED: kill: one case alone, and nothing to compare it with"]
        );
        assert!(!traced(&cases).unwrap().groups()[0].is_even());
    }

    #[test]
    fn marks_out_of_order_are_refused() {
        let cut_text = |text: &str| {
            let case = Case {
                group: "kill".to_string(),
                what: "alone".to_string(),
            };
            let mut written = Written {
                cases: [case.clone(), case].into(),
                ..Written::default()
            };
            cut(text.as_bytes(), &mut written).err()
        };
        assert_eq!(cut_text(&format!("{BEGIN}{END}{BEGIN}{END}")), None);
        let wrong = [
            (
                format!("{BEGIN}{BEGIN}{END}"),
                "a case begins inside another",
            ),
            (
                format!("{BEGIN}{END}{END}"),
                "a case ends that has not begun",
            ),
            (format!("{BEGIN}{LINES}"), "the trace ends inside a case"),
            (format!("{BEGIN}{END}{BEGIN}{END}{BEGIN}{END}"), "no line"),
        ];
        for (text, complaint) in wrong {
            assert_eq!(cut_text(&text).as_deref(), Some(complaint));
        }
    }

    #[test]
    fn messages_are_handed_on() {
        let mut written = Written::default();
        let text = "==1== a message\n L 1,1\nand another\n";
        cut(text.as_bytes(), &mut written).unwrap();
        assert_eq!(written.messages, ["==1== a message", "and another"]);
    }
}
