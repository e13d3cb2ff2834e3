//! The figures of document 02, order 6: what the desk's program prints for a drawer of images, each after its length in two bytes, little endian.

use crate::image;
use crate::module::{Kind, Module};

/// This many images are told of, bad ones counted.
const MOST_IMAGES: usize = 4_096;

/// Classes 0 to 31.
const CLASSES: u32 = 32;

/// What is added up over the good images.
#[derive(Default)]
struct Total {
    images: usize,
    rows: usize,
    classes: usize,
}

/// The whole text that is printed for a drawer of these bytes.
pub fn figures(drawer: &[u8]) -> String {
    let mut printed = String::new();
    let mut total = Total::default();
    let mut images = 0;
    let mut left = drawer;
    while !left.is_empty() {
        if images == MOST_IMAGES {
            printed += "too many\n";
            return printed;
        }
        let (image, rest) = take(left);
        printed += &line(image, &mut total);
        images += 1;
        left = rest;
    }
    let Total {
        images,
        rows,
        classes,
    } = total;
    printed += &format!("total {images} {rows} {classes}\n");
    printed
}

/// The bytes of the first image of a drawer, none where the drawer ends before they do; and what comes after them. What is left of an image that is cut off is part of it.
fn take(drawer: &[u8]) -> (Option<&[u8]>, &[u8]) {
    let [low, high, bytes @ ..] = drawer else {
        return (None, &[]);
    };
    let length = usize::from(u16::from_le_bytes([*low, *high]));
    if bytes.len() < length {
        return (None, &[]);
    }
    let (image, rest) = bytes.split_at(length);
    (Some(image), rest)
}

/// The line of one image, which is added to the total where it is good.
fn line(bytes: Option<&[u8]>, total: &mut Total) -> String {
    let Some(module) = bytes.and_then(|bytes| image::read(bytes).ok()) else {
        return "bad\n".to_string();
    };
    let (rows, classes) = (module.processes.len(), granted_classes(&module));
    total.images += 1;
    total.rows += rows;
    total.classes += classes;
    format!("{rows} {classes} {}\n", largest_next(&module))
}

/// How many classes each grant word holds, added up over the credentials.
fn granted_classes(module: &Module) -> usize {
    let words = module.credentials.iter().map(|credential| credential.word);
    words.map(classes_of).sum()
}

/// A word holds class k where its bit k is set.
fn classes_of(word: u32) -> usize {
    (0..CLASSES).filter(|k| word & (1 << k) != 0).count()
}

/// The largest next number of the rows, 0 without any.
fn largest_next(module: &Module) -> u16 {
    let rows = module.processes.iter();
    let numbers = rows.filter_map(|process| match process.kind {
        Kind::SavedUser { next } => Some(next),
        Kind::ActiveUser { .. } | Kind::ActiveElevation { .. } => None,
    });
    numbers.max().unwrap_or(0)
}

#[cfg(test)]
mod tests {
    use super::*;
    use crate::image::{HEAD_LENGTH, LONGEST, OLD_HEAD_LENGTH};
    use crate::module::{Credential, Process, CREDENTIALS};

    /// The document's good image: no rows, and words 15 and 16.
    fn example() -> Vec<u8> {
        example_with([0, 0])
    }

    /// The same with second words.
    fn example_with(seconds: [u32; 2]) -> Vec<u8> {
        let mut credentials = [Credential::UNPROVISIONED; CREDENTIALS];
        credentials[0] = Credential::with(15, seconds[0]);
        credentials[1] = Credential::with(16, seconds[1]);
        image::write(&Module::fresh(credentials))
    }

    /// The image in the old layout.
    fn old(image: &[u8]) -> Vec<u8> {
        let mut old = [&image[..OLD_HEAD_LENGTH], &image[HEAD_LENGTH..]].concat();
        old[8] = OLD_HEAD_LENGTH as u8;
        old
    }

    /// An image in which every grant word is this one, with a row for each of the numbers.
    fn image_of(word: u32, numbers: &[u16]) -> Vec<u8> {
        let mut module = Module::fresh([Credential::with(word, !word); CREDENTIALS]);
        for (row, next) in numbers.iter().enumerate() {
            module.processes.push(Process {
                credential: row % CREDENTIALS,
                kind: Kind::SavedUser { next: *next },
                name: [row as u8; 48],
            });
        }
        image::write(&module)
    }

    fn with_length(length: usize, bytes: &[u8]) -> Vec<u8> {
        [&(length as u16).to_le_bytes(), bytes].concat()
    }

    fn piece(bytes: &[u8]) -> Vec<u8> {
        with_length(bytes.len(), bytes)
    }

    fn drawer(pieces: &[Vec<u8>]) -> Vec<u8> {
        pieces.concat()
    }

    #[test]
    fn the_documents_example() {
        assert_eq!(figures(&piece(&example())), "0 5 0\ntotal 1 0 5\n");
        assert_eq!(figures(&[]), "total 0 0 0\n");
    }

    #[test]
    fn every_class_of_every_credential_counts_one() {
        for class in 0..32 {
            let mut credentials = [Credential::with(0, u32::MAX); CREDENTIALS];
            for credential in 0..CREDENTIALS {
                credentials[credential].word = 1 << class;
                let image = image::write(&Module::fresh(credentials));
                let first = format!("0 {} 0\n", credential + 1);
                assert!(figures(&piece(&image)).starts_with(&first));
                assert!(figures(&piece(&old(&image))).starts_with(&first));
            }
        }
        let full = piece(&image_of(u32::MAX, &[]));
        assert_eq!(figures(&full), "0 256 0\ntotal 1 0 256\n");
    }

    #[test]
    fn the_largest_number_wherever_it_stands() {
        for (numbers, largest) in [
            (&[1][..], 1),
            (&[1, 65_535, 300], 65_535),
            (&[300, 299], 300),
            (&[255, 256], 256),
        ] {
            let printed = figures(&piece(&image_of(0, numbers)));
            let rows = numbers.len();
            assert_eq!(printed, format!("{rows} 0 {largest}\ntotal 1 {rows} 0\n"));
        }
    }

    #[test]
    fn the_total_is_of_the_good_images() {
        let images = [
            piece(&image_of(1, &[7, 8])),
            piece(&[]),
            piece(&example()[1..]),
            piece(&image_of(3, &[9])),
        ];
        let lines = "2 8 8\nbad\nbad\n1 16 9\n";
        let printed = format!("{lines}total 2 3 24\n");
        assert_eq!(figures(&drawer(&images)), printed);
    }

    /// The first words alone are counted, and marked classes are among them.
    #[test]
    fn both_layouts_in_one_drawer() {
        let images = [
            piece(&example_with([15, 0])),
            piece(&old(&example())),
            piece(&old(&image_of(1, &[7, 8]))),
            piece(&example_with([u32::MAX, u32::MAX])),
            piece(&image_of(3, &[9])),
        ];
        let lines = "0 5 0\n0 5 0\n2 8 8\n0 5 0\n1 16 9\n";
        let printed = format!("{lines}total 5 3 39\n");
        assert_eq!(figures(&drawer(&images)), printed);
    }

    #[test]
    fn a_lone_byte_and_what_is_cut_off_are_bad() {
        let good = piece(&example());
        for left in 1..good.len() {
            let printed = figures(&[&good, &good[..left]].concat());
            assert_eq!(printed, "0 5 0\nbad\ntotal 1 0 5\n", "{left}");
        }
        // bytes that would be an image, of an image that says to have one more
        let cut_off = with_length(HEAD_LENGTH + 1, &example());
        assert_eq!(figures(&cut_off), "bad\ntotal 0 0 0\n");
    }

    #[test]
    fn a_length_is_believed() {
        for length in [HEAD_LENGTH + 1, LONGEST + 1, 65_535] {
            let mut bytes = piece(&example()).repeat(2_000);
            bytes.truncate(length);
            let both = [piece(&bytes), piece(&example())].concat();
            assert_eq!(figures(&both), "bad\n0 5 0\ntotal 1 0 5\n");
        }
    }

    #[test]
    fn past_4096_it_is_too_many() {
        let (good, bad) = (piece(&example()), piece(&[]));
        for (image, line, total) in [
            (&good, "0 5 0\n", "total 4096 0 20480\n"),
            (&bad, "bad\n", "total 0 0 0\n"),
        ] {
            let full = image.repeat(4_096);
            let lines = line.repeat(4_096);
            assert_eq!(figures(&full), format!("{lines}{total}"));
            for more in [&[0][..], &[0, 0], &[74, 0], &[9, 0, 1], &good] {
                let past = [&full, more].concat();
                assert_eq!(figures(&past), format!("{lines}too many\n"));
            }
        }
        for last in [&[0][..], &[74, 0], &good[..75]] {
            let full = [&good.repeat(4_095), last].concat();
            assert!(figures(&full).ends_with("0 5 0\nbad\ntotal 4095 0 20475\n"));
        }
    }
}
