//! Draws what the module holds, and the messages.

use crate::bytes;
use slavotuk::{
    Class, Credential, Grants, Listing, Lookup, Module, Port, Process, Row, Session,
    WireCredential, NAME_LENGTH, PLACES,
};
use std::fmt::Display;
use std::io::{self, Write};

/// A number and its name, as every call is answered.
pub fn answer(number: u32) -> String {
    let name = match slavotuk::answered(number) {
        Ok(()) => "done",
        Err(refusal) => refusal.name(),
    };
    format!("{number} {name}")
}

/// The sessions of each port, the credentials and the process table.
pub fn module(module: &Module, whole: bool, out: &mut impl Write) -> io::Result<()> {
    for port in Port::all() {
        writeln!(out, "sessions of port {port}")?;
        for session in Session::all().filter(|session| session.port() == port) {
            writeln!(out, "  {session}  {}", module.phase(session))?;
        }
    }
    writeln!(out, "credentials")?;
    let (provisioned, others): (Vec<Credential>, Vec<Credential>) =
        Credential::all().partition(|credential| module.grants(*credential).is_provisioned());
    for credential in provisioned {
        writeln!(
            out,
            "  {credential}  {}",
            granted(module.grants(credential))
        )?;
    }
    if !others.is_empty() {
        let others = ranges(others.into_iter().map(Credential::number));
        writeln!(out, "  {others}  not provisioned")?;
    }
    let processes: Vec<Process> = module.processes().collect();
    table(&processes, whole, out)
}

/// A provisioned credential's words and what they grant. The second word is drawn where it is not zero.
fn granted(grants: Grants) -> String {
    let second = match grants.second() {
        0 => String::new(),
        second => format!("/0x{second:08x}"),
    };
    let plain = classes_of(grants, Lookup::Yes);
    let marked = classes_of(grants, Lookup::OnlyElevated);
    let classes = match (plain.is_empty(), marked.is_empty()) {
        (true, true) => "no class".into(),
        (false, true) => plain,
        (true, false) => format!("only elevated: {marked}"),
        (false, false) => format!("{plain}; only elevated: {marked}"),
    };
    format!("word 0x{:08x}{second}  {classes}", grants.word())
}

/// The classes of which the lookup says this.
fn classes_of(grants: Grants, wanted: Lookup) -> String {
    let said = grants.classes().filter(|(_, answer)| *answer == wanted);
    let (device, own): (Vec<Class>, Vec<Class>) = said
        .map(|(class, _)| class)
        .partition(|class| class.is_device());
    let own = own.into_iter().filter_map(own_class).map(String::from);
    let device = ranges(device.into_iter().map(Class::number));
    let device = (!device.is_empty()).then(|| format!("device {device}"));
    own.chain(device).collect::<Vec<String>>().join(", ")
}

/// The module's own classes by what they grant.
fn own_class(class: Class) -> Option<&'static str> {
    match class {
        Class::LIST_OTHERS => Some("0 list others"),
        Class::KILL_OTHERS => Some("1 kill others"),
        Class::SAVE_OWN => Some("2 save own"),
        Class::SET_WORDS => Some("3 set words"),
        _ => None,
    }
}

/// Rising numbers, those that follow each other drawn together.
pub fn ranges(numbers: impl Iterator<Item = u8>) -> String {
    let mut ranges: Vec<(u8, u8)> = Vec::new();
    for number in numbers {
        match ranges.last_mut() {
            Some((_, last)) if *last + 1 == number => *last = number,
            _ => ranges.push((number, number)),
        }
    }
    let drawn = |(first, last)| match last - first {
        0 => format!("{first}"),
        1 => format!("{first}, {last}"),
        _ => format!("{first} to {last}"),
    };
    let drawn: Vec<String> = ranges.into_iter().map(drawn).collect();
    drawn.join(", ")
}

fn table(processes: &[Process], whole: bool, out: &mut impl Write) -> io::Result<()> {
    write!(out, "processes, {} of {PLACES}", processes.len())?;
    if processes.is_empty() {
        return writeln!(out);
    }
    let names: Vec<&[u8; NAME_LENGTH]> = processes.iter().map(|process| &process.name.0).collect();
    let shown = telling_bytes(&names);
    if !whole {
        let positions = (0u8..).zip(shown).filter(|(_, is_shown)| *is_shown);
        write!(
            out,
            "; of their names bytes {}",
            ranges(positions.map(|(at, _)| at))
        )?;
    }
    writeln!(
        out,
        "\n  place  credential  type              session  next number  name"
    )?;
    for (place, process) in processes.iter().enumerate() {
        let name = &process.name.0;
        let written = if whole {
            bytes::written(name)
        } else {
            shortened(name, &shown)
        };
        writeln!(
            out,
            "  {place:5}  {:10}  {:<16}  {:>7}  {:>11}  {written}{}",
            process.credential.number(),
            process.kind(),
            or_dash(process.session()),
            or_dash(process.next_number()),
            letter(name),
        )?;
    }
    Ok(())
}

fn or_dash(value: Option<impl Display>) -> String {
    value.map_or("-".into(), |value| value.to_string())
}

/// Document 01's letter for a name, where it has one.
fn letter(name: &[u8; NAME_LENGTH]) -> String {
    bytes::letter_of(name).map_or(String::new(), |letter| format!("  {letter}"))
}

/// Which bytes are shown of each of these names, so that no two that differ look alike: the first in which they differ from each other, and two at either
/// end. In sorted order two names first differ where some neighbours between them do, so it is enough to look at neighbours.
fn telling_bytes(names: &[&[u8; NAME_LENGTH]]) -> [bool; NAME_LENGTH] {
    let mut shown = [false; NAME_LENGTH];
    for at in [0, 1, NAME_LENGTH - 2, NAME_LENGTH - 1] {
        shown[at] = true;
    }
    let mut sorted = names.to_vec();
    sorted.sort();
    for pair in sorted.windows(2) {
        if let Some(at) = (0..NAME_LENGTH).find(|&at| pair[0][at] != pair[1][at]) {
            shown[at] = true;
        }
    }
    fill_single_gaps(&mut shown);
    shown
}

/// A byte takes no more place than the mark of its elision.
fn fill_single_gaps(shown: &mut [bool; NAME_LENGTH]) {
    for at in 1..NAME_LENGTH - 1 {
        if shown[at - 1] && shown[at + 1] {
            shown[at] = true;
        }
    }
}

/// The shown bytes of a name, `..` standing for the others.
fn shortened(name: &[u8; NAME_LENGTH], shown: &[bool; NAME_LENGTH]) -> String {
    let mut text = String::new();
    for at in 0..NAME_LENGTH {
        if shown[at] {
            text.push_str(&format!("{:02x}", name[at]));
        } else if shown[at - 1] {
            text.push_str("..");
        }
    }
    text
}

/// Bytes in lines of 16, each after its offset.
pub fn dump(message: &[u8], out: &mut impl Write) -> io::Result<()> {
    for (line, bytes) in message.chunks(16).enumerate() {
        let digits: Vec<String> = bytes.iter().map(|byte| format!("{byte:02x}")).collect();
        writeln!(out, "  {:4}  {}", 16 * line, digits.join(" "))?;
    }
    Ok(())
}

/// GET_AUTH_PROCESSES.
pub fn request(wanted: WireCredential, out: &mut impl Write) -> io::Result<()> {
    let all = if wanted.0 == 65535 { ", all" } else { "" };
    writeln!(out, "GET_AUTH_PROCESSES, wanted {wanted}{all}")
}

/// AUTH_PROCESSES.
pub fn listing(listing: &Listing, out: &mut impl Write) -> io::Result<()> {
    let count = listing.rows().len();
    let rows = if count == 1 { "row" } else { "rows" };
    writeln!(out, "AUTH_PROCESSES, {count} {rows}")?;
    for (
        place,
        Row {
            credential,
            kind,
            name,
        },
    ) in listing.rows().enumerate()
    {
        let (number, written, letter) = (kind.number(), bytes::written(&name.0), letter(&name.0));
        writeln!(
            out,
            "  row {place}: credential {credential}, type {number} {kind}, name {written}{letter}"
        )?;
    }
    Ok(())
}

#[cfg(test)]
mod tests {
    use super::*;

    #[test]
    fn only_0_is_done() {
        assert_eq!(answer(0), "0 done");
        assert_eq!(answer(15), "15 room");
        assert_eq!(answer(16), "16 unknown");
        assert_eq!(answer(18), "18 only elevated");
        assert_eq!(answer(u32::MAX), "4294967295 unknown");
    }

    fn shortened_all(names: &[[u8; NAME_LENGTH]]) -> Vec<String> {
        let names: Vec<&[u8; NAME_LENGTH]> = names.iter().collect();
        let shown = telling_bytes(&names);
        names.iter().map(|name| shortened(name, &shown)).collect()
    }

    #[test]
    fn names_that_differ_are_drawn_differently() {
        // every name of zeros but for one or two other bytes, twelve at a time
        let mut seed = 1u32;
        let mut below = |bound: usize| {
            seed = seed.wrapping_mul(1664525).wrapping_add(1013904223);
            (seed >> 8) as usize % bound
        };
        for _ in 0..500 {
            let mut names = Vec::new();
            while names.len() < 12 {
                let mut name = [0; NAME_LENGTH];
                name[below(NAME_LENGTH)] = below(3) as u8;
                name[below(NAME_LENGTH)] = below(3) as u8;
                if !names.contains(&name) {
                    names.push(name);
                }
            }
            let mut drawn = shortened_all(&names);
            drawn.sort();
            drawn.dedup();
            assert_eq!(drawn.len(), 12, "{drawn:?}");
        }
    }

    #[test]
    fn document_01s_names_are_short() {
        let names = ["P", "Q", "R"].map(|letter| bytes::of_letter(letter).unwrap());
        assert_eq!(
            shortened_all(&names),
            ["0000..11..1111", "0000..22..2222", "0000..11..1112"]
        );
        assert_eq!(shortened_all(&names[..1]), ["0000..1111"]);
    }

    #[test]
    fn classes_that_follow_each_other_are_drawn_together() {
        assert_eq!(
            ranges([4, 6, 7, 9, 10, 11, 31].into_iter()),
            "4, 6, 7, 9 to 11, 31"
        );
        assert_eq!(granted(Grants::of_word(0)), "word 0x00000000  no class");
        assert_eq!(
            granted(Grants::of_word(0xffff_fff9)),
            "word 0xfffffff9  0 list others, 3 set words, device 4 to 31"
        );
    }

    #[test]
    fn what_is_granted_only_under_elevation_is_marked() {
        let drawn = [
            ((0x30, 0x60), "word 0x00000030/0x00000060  device 4; only elevated: device 5"),
            ((15, 4), "word 0x0000000f/0x00000004  0 list others, 1 kill others, 3 set words; only elevated: 2 save own"),
            ((0x1c, !0), "word 0x0000001c/0xffffffff  only elevated: 2 save own, 3 set words, device 4"),
            ((0, !0), "word 0x00000000/0xffffffff  no class"),
        ];
        for ((word, second), text) in drawn {
            assert_eq!(granted(Grants::of_words(word, second)), text);
        }
    }
}
