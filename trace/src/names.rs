//! A traced program: the wrapper's comparisons of names, on names that agree up to a byte and differ there, and on equal ones.

use crate::marks::Marks;
use slavotuk::{Credential, Kind, Name, Process, Row, Standing, WireCredential, NAME_LENGTH};
use std::hint::black_box;

/// Two names, and what they are.
struct Pair {
    what: String,
    one: Name,
    other: Name,
}

/// The bytes of a name. On the board of the accident all names began with 16 bytes of zero.
fn bytes_of(zeros_in_front: bool) -> [u8; NAME_LENGTH] {
    let mut bytes = std::array::from_fn(|at| (37 * at) as u8 ^ 0x5b);
    if zeros_in_front {
        bytes[..16].fill(0);
    }
    bytes
}

/// The bytes with one bit of that byte different, and with all bits of the bytes behind it where the tail is different.
fn differing(mut bytes: [u8; NAME_LENGTH], at: usize, tail: bool) -> [u8; NAME_LENGTH] {
    bytes[at] ^= 1 << (at % 8);
    if tail {
        bytes[at + 1..].iter_mut().for_each(|byte| *byte ^= 0xff);
    }
    bytes
}

fn equal_pair(zeros: bool) -> Pair {
    let bytes = bytes_of(zeros);
    Pair {
        what: format!("{}, equal", said_of_set(zeros)),
        one: Name(bytes),
        other: Name(bytes),
    }
}

fn pair_at(zeros: bool, at: usize, tail: bool) -> Pair {
    let bytes = bytes_of(zeros);
    let said_of_tail = if tail { "different" } else { "alike" };
    Pair {
        what: format!("{}, byte {at}, tail {said_of_tail}", said_of_set(zeros)),
        one: Name(bytes),
        other: Name(differing(bytes, at, tail)),
    }
}

fn said_of_set(zeros: bool) -> &'static str {
    if zeros {
        "zeros in front"
    } else {
        "drawn"
    }
}

fn pairs() -> Vec<Pair> {
    let both = [false, true];
    let places = both.map(|zeros| (0..NAME_LENGTH).map(move |at| (zeros, at)));
    places
        .into_iter()
        .flatten()
        .flat_map(|(zeros, at)| both.map(|tail| pair_at(zeros, at, tail)))
        .chain(both.map(equal_pair))
        .collect()
}

fn row(name: Name) -> Row {
    Row {
        credential: WireCredential(1),
        kind: Kind::SavedUser,
        name,
    }
}

fn process(name: Name) -> Process {
    Process {
        credential: Credential::new(1).expect("there are eight"),
        standing: Standing::SavedUser { next_number: 1 },
        name,
    }
}

/// Values that hold a name, how one is made and compared, and what the comparison has to answer of the bytes.
struct Compared<T> {
    group: &'static str,
    sides: [&'static str; 2],
    make: fn(Name) -> T,
    name: fn(&T) -> &Name,
    compare: fn(&T, &T) -> bool,
    answer: fn(&[u8], &[u8]) -> bool,
}

fn equality<T: PartialEq>(
    group: &'static str,
    sides: [&'static str; 2],
    make: fn(Name) -> T,
    name: fn(&T) -> &Name,
) -> Compared<T> {
    Compared {
        group,
        sides,
        make,
        name,
        compare: |one, other| one == other,
        answer: |one, other| one == other,
    }
}

/// What compares values, each in a case: always the same two places hold them.
struct Trial {
    marks: Marks,
    pairs: Vec<Pair>,
}

impl Trial {
    fn of<T>(&self, compared: &Compared<T>, places: &mut [T; 2]) -> Result<(), String> {
        say_places(compared, places);
        self.pairs
            .iter()
            .try_for_each(|pair| self.of_pair(compared, places, pair))
    }

    fn of_pair<T>(
        &self,
        compared: &Compared<T>,
        places: &mut [T; 2],
        pair: &Pair,
    ) -> Result<(), String> {
        *places = [pair.one, pair.other].map(compared.make);
        println!("case\t{}\t{}", compared.group, pair.what);
        self.marks.begin();
        let answer = black_box((compared.compare)(&places[0], &places[1]));
        self.marks.end();
        if answer == (compared.answer)(&pair.one.0, &pair.other.0) {
            Ok(())
        } else {
            Err(format!(
                "{}, {}: the answer is {answer}",
                compared.group, pair.what
            ))
        }
    }
}

fn say_places<T>(compared: &Compared<T>, places: &[T; 2]) {
    for (side, place) in compared.sides.iter().zip(places) {
        let name = (compared.name)(place);
        println!("buffer\t{side}\t{name:p}\t{NAME_LENGTH}");
    }
}

/// Makes all comparisons. The places stay until the end, so that none lies where another was.
pub fn try_all() -> Result<(), String> {
    let trial = Trial {
        marks: Marks::map().map_err(|error| format!("no page of marks: {error}"))?,
        pairs: pairs(),
    };
    let name = Name([0; NAME_LENGTH]);
    let (mut names, mut rows, mut processes) = ([name; 2], [row(name); 2], [process(name); 2]);

    let sides = ["left name", "right name"];
    let equal = equality("Name == Name", sides, |name| name, |name| name);
    trial.of(&equal, &mut names)?;
    let before = Compared {
        group: "Name < Name",
        compare: |one, other| one < other,
        answer: |one, other| one < other,
        ..equal
    };
    trial.of(&before, &mut names)?;

    let sides = ["name of the left row", "name of the right row"];
    let equal = equality("Row == Row", sides, row, |row| &row.name);
    trial.of(&equal, &mut rows)?;

    let sides = ["name of the left process", "name of the right process"];
    let equal = equality("Process == Process", sides, process, |process| {
        &process.name
    });
    trial.of(&equal, &mut processes)
}
