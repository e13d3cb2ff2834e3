//! What a traced program says on its standard output: where its buffers lie, and what each case is.

use crate::lines::Access;
use slavotuk::NAME_LENGTH;

/// A buffer that the calls are lent.
#[derive(Clone, Debug, PartialEq, Eq)]
pub struct Buffer {
    name: String,
    address: u64,
    length: u64,
    names: Option<Names>,
}

/// Names that lie in a buffer, one in each of its parts.
#[derive(Clone, Debug, PartialEq, Eq)]
struct Names {
    part: String,
    first: u64,
    apart: u64,
}

/// A case: the group in which it is compared, and what sets it apart there.
#[derive(Clone, Debug, PartialEq, Eq)]
pub struct Case {
    pub group: String,
    pub what: String,
}

/// What a line says.
#[derive(Clone, Debug, PartialEq, Eq)]
pub enum Said {
    Buffer(Buffer),
    Case(Case),
}

impl Said {
    /// What the line says, its fields parted by tabs.
    pub fn read(line: &str) -> Result<Said, String> {
        let fields: Vec<&str> = line.split('\t').collect();
        match fields[..] {
            ["case", group, what] => Some(Said::Case(Case {
                group: group.to_string(),
                what: what.to_string(),
            })),
            ["buffer", name, address, length] => buffer(name, address, length, None),
            ["buffer", name, address, length, part, first, apart] => names(part, first, apart)
                .and_then(|names| buffer(name, address, length, Some(names))),
            _ => None,
        }
        .ok_or_else(|| {
            format!("the program printed '{line}', which is neither a case nor a buffer")
        })
    }
}

fn buffer(name: &str, address: &str, length: &str, names: Option<Names>) -> Option<Said> {
    Some(Said::Buffer(Buffer {
        name: name.to_string(),
        address: u64::from_str_radix(address.strip_prefix("0x")?, 16).ok()?,
        length: length.parse().ok()?,
        names,
    }))
}

fn names(part: &str, first: &str, apart: &str) -> Option<Names> {
    Some(Names {
        part: part.to_string(),
        first: first.parse().ok()?,
        apart: apart.parse().ok().filter(|apart| *apart > 0)?,
    })
}

/// Where an access lies, by its first byte.
pub fn place_of(access: Access, buffers: &[Buffer]) -> String {
    buffers
        .iter()
        .find_map(|buffer| buffer.place_of(access.address))
        .unwrap_or_else(|| "elsewhere".to_string())
}

impl Buffer {
    fn place_of(&self, address: u64) -> Option<String> {
        let at = address.checked_sub(self.address)?;
        let inside = match self.names.as_ref().and_then(|names| names.place_of(at)) {
            Some(place) => format!(" ({place})"),
            None => String::new(),
        };
        (at < self.length).then(|| format!("byte {at} of the {}{inside}", self.name))
    }
}

impl Names {
    fn place_of(&self, at: u64) -> Option<String> {
        let behind = at.checked_sub(self.first)?;
        let (index, byte) = (behind / self.apart, behind % self.apart);
        (byte < NAME_LENGTH as u64)
            .then(|| format!("{} {index}, byte {byte} of its name", self.part))
    }
}

#[cfg(test)]
mod tests {
    use super::*;
    use slavotuk::layout::state::{place_at, LENGTH, NAME, PLACE_LENGTH};

    fn buffers() -> Vec<Buffer> {
        let first = place_at(0) + NAME;
        [
            format!("buffer\tstate\t0x1000\t{LENGTH}\tplace\t{first}\t{PLACE_LENGTH}"),
            format!("buffer\tname\t0x2000\t{NAME_LENGTH}"),
        ]
        .map(|line| match Said::read(&line) {
            Ok(Said::Buffer(buffer)) => buffer,
            other => panic!("{other:?}"),
        })
        .to_vec()
    }

    #[test]
    fn a_place_is_told_by_its_buffer() {
        let buffers = buffers();
        let at = |address, byte: usize| {
            let address = address + byte as u64;
            place_of(Access { address, size: 1 }, &buffers)
        };
        let in_state = |byte| at(0x1000, byte);
        let in_name = |byte| at(0x2000, byte);
        assert_eq!(at(0x0fff, 0), "elsewhere");
        for byte in [0, place_at(0) + NAME - 1, place_at(1)] {
            assert_eq!(in_state(byte), format!("byte {byte} of the state"));
        }
        for (place, of_name) in [(0, 0), (0, 7), (11, NAME_LENGTH - 1)] {
            let byte = place_at(place) + NAME + of_name;
            let told =
                format!("byte {byte} of the state (place {place}, byte {of_name} of its name)");
            assert_eq!(in_state(byte), told);
        }
        assert_eq!(in_state(LENGTH), "elsewhere");
        assert_eq!(in_name(47), "byte 47 of the name");
        assert_eq!(in_name(NAME_LENGTH), "elsewhere");
    }

    #[test]
    fn a_case_is_its_group_and_what_it_is() {
        let case = Case {
            group: "kill".to_string(),
            what: "place 1, byte 2".to_string(),
        };
        assert_eq!(
            Said::read("case\tkill\tplace 1, byte 2"),
            Ok(Said::Case(case))
        );
    }

    #[test]
    fn other_lines_are_refused() {
        for line in [
            "",
            "case",
            "case\tkill",
            "case\tkill\tplace 1\tbyte 2",
            "kill\tplace 1",
            "buffer\tname\t0x2000",
            "buffer\tname\t2000\t48",
            "buffer\tname\t0x2000\tlong",
            "buffer\tstate\t0x1000\t717\tplace\t86",
            "buffer\tstate\t0x1000\t717\tplace\t86\t0",
        ] {
            assert!(Said::read(line).is_err(), "{line}");
        }
    }
}
