//! The lines of lackey's trace: what each says was fetched, loaded or stored, and where.

use std::fmt;

/// Where an access lies, and how many bytes it has.
#[derive(Clone, Copy, Debug, PartialEq, Eq)]
pub struct Access {
    /// The address of its first byte.
    pub address: u64,
    /// How many bytes.
    pub size: u64,
}

impl fmt::Display for Access {
    fn fmt(&self, f: &mut fmt::Formatter<'_>) -> fmt::Result {
        write!(f, "{:x},{}", self.address, self.size)
    }
}

/// What a line of the trace says.
#[derive(Clone, Copy, Debug, PartialEq, Eq)]
pub enum Line {
    /// An instruction was fetched.
    Instruction(Access),
    /// Bytes were loaded, and perhaps stored again by the same instruction.
    Load(Access),
    /// Bytes were stored.
    Store(Access),
}

impl Line {
    /// What the line says, or `None` where it is none of the trace: a message of valgrind's or of the program's.
    pub fn read(line: &[u8]) -> Option<Line> {
        let kind = match line.get(..3)? {
            b"I  " => Line::Instruction,
            b" L " | b" M " => Line::Load,
            b" S " => Line::Store,
            _ => return None,
        };
        let text = std::str::from_utf8(&line[3..]).ok()?;
        let (address, size) = text.trim_end().split_once(',')?;
        Some(kind(Access {
            address: u64::from_str_radix(address, 16).ok()?,
            size: size.parse().ok()?,
        }))
    }
}

#[cfg(test)]
mod tests {
    use super::*;

    const THERE: Access = Access {
        address: 0x001f_ff00_0778,
        size: 8,
    };

    #[test]
    fn each_kind_of_line_is_read() {
        let read = |line: &str| Line::read(line.as_bytes());
        assert_eq!(read("I  1fff000778,8\n"), Some(Line::Instruction(THERE)));
        assert_eq!(read(" L 1fff000778,8\n"), Some(Line::Load(THERE)));
        assert_eq!(read(" M 1fff000778,8\n"), Some(Line::Load(THERE)));
        assert_eq!(read(" S 1fff000778,8"), Some(Line::Store(THERE)));
    }

    #[test]
    fn other_lines_are_none_of_the_trace() {
        for line in [
            "",
            "I",
            "==17== Lackey, an example Valgrind tool",
            "trace: kill: the answer is 1 argument",
            " L 1fff000778",
            " L ,8",
            " L 1fff000778,",
            " L 1ffg000778,8",
            " S 1fff000778,8 more",
            "L  1fff000778,8",
        ] {
            assert_eq!(Line::read(line.as_bytes()), None, "{line}");
        }
    }
}
