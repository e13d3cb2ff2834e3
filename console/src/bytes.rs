//! Names and messages as a person writes them: hexadecimal digits, with a form for bytes that repeat.

use slavotuk::NAME_LENGTH;

/// The longest message there is has 4 + 51 × 65,535 bytes; nothing much longer is built up.
const LONGEST: usize = 4 * 1024 * 1024;

/// Document 01's names and their letters.
const LETTERS: [(&str, u8, u8); 3] = [("P", 0x11, 0x11), ("Q", 0x22, 0x22), ("R", 0x11, 0x12)];

/// 16 zero bytes, then 32 of the body, the last byte being another.
fn lettered(body: u8, last: u8) -> [u8; NAME_LENGTH] {
    let mut name = [0; NAME_LENGTH];
    name[16..].fill(body);
    name[NAME_LENGTH - 1] = last;
    name
}

/// The name that a letter of document 01 stands for.
pub fn of_letter(letter: &str) -> Option<[u8; NAME_LENGTH]> {
    let (_, body, last) = LETTERS.into_iter().find(|(known, ..)| *known == letter)?;
    Some(lettered(body, last))
}

/// The letter that document 01 gives a name.
pub fn letter_of(name: &[u8; NAME_LENGTH]) -> Option<&'static str> {
    let (letter, ..) = LETTERS
        .into_iter()
        .find(|(_, body, last)| lettered(*body, *last) == *name)?;
    Some(letter)
}

/// Adds what a text says to the bytes: parts joined by `+`, each a row of hexadecimal digits, repeated where `*` and a count follow, as in `00*16+11*32`.
pub fn read(text: &str, bytes: &mut Vec<u8>) -> Result<(), String> {
    text.split('+').try_for_each(|part| read_part(part, bytes))
}

fn read_part(part: &str, bytes: &mut Vec<u8>) -> Result<(), String> {
    let (digits, count) = match part.split_once('*') {
        Some((digits, count)) => (digits, read_count(count)?),
        None => (part, 1),
    };
    let run = read_digits(digits)?;
    let length = run.len().saturating_mul(count).saturating_add(bytes.len());
    if length > LONGEST {
        return Err(format!("over {LONGEST} bytes"));
    }
    bytes.extend(run.repeat(count));
    Ok(())
}

fn read_count(text: &str) -> Result<usize, String> {
    if text.is_empty() || !text.bytes().all(|byte| byte.is_ascii_digit()) {
        return Err("a count of repetitions has to follow *".into());
    }
    Ok(text.parse().unwrap_or(usize::MAX))
}

fn read_digits(text: &str) -> Result<Vec<u8>, String> {
    let digits: Option<Vec<u8>> = text.chars().map(digit).collect();
    let digits = digits.ok_or("not hexadecimal digits")?;
    if digits.is_empty() || digits.len() % 2 == 1 {
        return Err("a byte has two hexadecimal digits".into());
    }
    Ok(digits
        .chunks(2)
        .map(|pair| pair[0] << 4 | pair[1])
        .collect())
}

fn digit(character: char) -> Option<u8> {
    character.to_digit(16).map(|digit| digit as u8)
}

/// Writes bytes in the form that [`read`] takes, three or more equal ones as a repetition.
pub fn written(bytes: &[u8]) -> String {
    let mut parts: Vec<String> = Vec::new();
    let mut digits = String::new();
    for (byte, count) in runs(bytes) {
        if count < 3 {
            digits.push_str(&format!("{byte:02x}").repeat(count));
            continue;
        }
        if !digits.is_empty() {
            parts.push(std::mem::take(&mut digits));
        }
        parts.push(format!("{byte:02x}*{count}"));
    }
    if !digits.is_empty() {
        parts.push(digits);
    }
    parts.join("+")
}

/// Each byte with how many times it follows itself.
fn runs(bytes: &[u8]) -> Vec<(u8, usize)> {
    let mut runs: Vec<(u8, usize)> = Vec::new();
    for &byte in bytes {
        match runs.last_mut() {
            Some((last, count)) if *last == byte => *count += 1,
            _ => runs.push((byte, 1)),
        }
    }
    runs
}

#[cfg(test)]
mod tests {
    use super::*;

    fn bytes_of(text: &str) -> Result<Vec<u8>, String> {
        let mut bytes = Vec::new();
        read(text, &mut bytes).map(|()| bytes)
    }

    #[test]
    fn what_is_written_is_read_back() {
        let samples: [&[u8]; 5] = [
            &[1],
            &[0; 48],
            &[1, 1, 2, 2, 2, 3],
            &[9, 9, 9, 8, 8, 7, 7, 7],
            &lettered(0x11, 0x12),
        ];
        for bytes in samples {
            assert_eq!(bytes_of(&written(bytes)).unwrap(), bytes);
        }
        assert_eq!(written(&lettered(0x11, 0x12)), "00*16+11*31+12");
        assert_eq!(written(&[1, 1, 2, 2, 2, 3]), "0101+02*3+03");
    }

    #[test]
    fn what_is_no_row_of_bytes_is_refused() {
        for text in [
            "", "0", "000", "0g", "00*", "00*x", "*3", "00+", "+00", "00**2", "00*-1", "é0",
        ] {
            assert!(bytes_of(text).is_err(), "{text}");
        }
        assert!(bytes_of("00*4194305").is_err());
        assert!(bytes_of("00*99999999999999999999999").is_err());
        let mut bytes = bytes_of("00*4194304").unwrap();
        assert_eq!(bytes.len(), LONGEST);
        assert!(read("00", &mut bytes).is_err());
        assert_eq!(bytes_of("AbcD*2").unwrap(), [0xab, 0xcd, 0xab, 0xcd]);
    }

    #[test]
    fn letters_are_document_01s() {
        let p = of_letter("P").unwrap();
        assert_eq!(p.to_vec(), bytes_of("00*16+11*32").unwrap());
        assert_eq!(
            of_letter("Q").unwrap().to_vec(),
            bytes_of("00*16+22*32").unwrap()
        );
        assert_eq!(
            of_letter("R").unwrap().to_vec(),
            bytes_of("00*16+11*31+12").unwrap()
        );
        assert_eq!(of_letter("S"), None);
        assert_eq!(letter_of(&p), Some("P"));
        assert_eq!(letter_of(&[0; 48]), None);
    }
}
