//! Makes a sequence that shows an error as short and as plain as it gets, while it still shows one.

use crate::call::{name_mut, number_mut, numbers_of, session_mut, user_claim, Bytes, Call};
use crate::images;
use crate::sequence::{Failure, Sequence};
use crate::sides::Pair;
use slavotuk::entries::RawClaim;
use slavotuk::layout::{image, listing};
use slavotuk_model::layout::{self, STATE_LENGTH};
use slavotuk_model::module::{Credential, Module, Session, NAME_LENGTH};

/// The failure with its sequence made short and plain.
pub fn shrink(mut failure: Failure) -> Failure {
    failure.sequence.calls.truncate(failure.found.at + 1);
    loop {
        let before = failure.sequence.clone();
        remove_calls(&mut failure);
        plainer_lent(&mut failure);
        plainer_names(&mut failure);
        plainer_sessions(&mut failure);
        plainer_arguments(&mut failure);
        if failure.sequence == before {
            return failure;
        }
    }
}

/// Takes the sequence over if it shows an error too.
fn accept(failure: &mut Failure, mut tried: Sequence) -> bool {
    if tried == failure.sequence {
        return false;
    }
    match (failure.test)(&tried) {
        Some(found) => {
            tried.calls.truncate(found.at + 1);
            failure.sequence = tried;
            failure.found = found;
            true
        }
        None => false,
    }
}

/// Removes parts, from halves down to single calls.
fn remove_calls(failure: &mut Failure) {
    let mut size = (failure.sequence.calls.len() / 2).max(1);
    loop {
        let mut end = failure.sequence.calls.len();
        while end > 0 {
            let begin = end.saturating_sub(size);
            let _ = accept(failure, without(&failure.sequence, begin, end))
                || accept(failure, renumbered(&failure.sequence, begin, end));
            end = begin.min(failure.sequence.calls.len());
        }
        if size == 1 {
            return;
        }
        size /= 2;
    }
}

fn without(sequence: &Sequence, begin: usize, end: usize) -> Sequence {
    let mut shorter = sequence.clone();
    shorter.calls.drain(begin..end);
    shorter
}

/// Without the calls, and the later numbers of their credentials lowered by as many records as are gone.
fn renumbered(sequence: &Sequence, begin: usize, end: usize) -> Sequence {
    let mut shorter = without(sequence, begin, end);
    for gone in &sequence.calls[begin..end] {
        let Some((_, credential, _)) = user_claim(gone) else {
            continue;
        };
        for call in &mut shorter.calls[begin..] {
            let same = user_claim(call).map(|claim| claim.1) == Some(credential);
            if let (true, Some(number)) = (same, number_mut(call)) {
                *number = number.saturating_sub(1);
            }
        }
    }
    shorter
}

/// Zero bytes, or fewer processes.
fn plainer_lent(failure: &mut Failure) {
    let mut tried = failure.sequence.clone();
    tried.lent = vec![0; STATE_LENGTH];
    if accept(failure, tried) {
        return;
    }
    let mut place = 0;
    while let Some(mut module) = layout::read(&failure.sequence.lent) {
        if place >= module.processes.len() {
            return;
        }
        module.processes.remove(place);
        let mut tried = failure.sequence.clone();
        tried.lent = layout::write(&module);
        if !accept(failure, tried) {
            place += 1;
        }
    }
}

/// Each name becomes one byte 48 times, or zeros with its own last byte.
fn plainer_names(failure: &mut Failure) {
    let mut names: Vec<Vec<u8>> = Vec::new();
    for call in &mut failure.sequence.calls.clone() {
        if let Some(name) = name_mut(call) {
            if !name.is_empty() && !names.contains(name) {
                names.push(name.clone());
            }
        }
    }
    for (at, name) in names.iter().enumerate() {
        let byte = at as u8 + 1;
        let mut zeros = vec![0; name.len()];
        zeros[name.len() - 1] = byte;
        for plainer in [vec![byte; name.len()], zeros] {
            if images::runs(&plainer) < images::runs(name)
                && accept(failure, with_name(&failure.sequence, name, &plainer))
            {
                break;
            }
        }
    }
}

fn with_name(sequence: &Sequence, from: &[u8], to: &[u8]) -> Sequence {
    let mut changed = sequence.clone();
    let names = changed.calls.iter_mut().filter_map(name_mut);
    for name in names.filter(|name| *name == from) {
        *name = to.to_vec();
    }
    for call in &mut changed.calls {
        if let (Some(image), NAME_LENGTH) = (image_mut(call), to.len()) {
            images::rename(image, from, to);
        }
    }
    changed
}

/// The image handed in.
fn image_mut(call: &mut Call) -> Option<&mut Vec<u8>> {
    match call {
        Call::Restore { image } => Some(image),
        Call::Rescue { bytes, .. } => Some(bytes),
        _ => None,
    }
}

/// Each session becomes one of those before it, port 0's first.
fn plainer_sessions(failure: &mut Failure) {
    let sessions: Vec<(u32, u32)> = Session::all().map(numbers_of).collect();
    for (at, from) in sessions.iter().enumerate().rev() {
        for to in &sessions[..at] {
            let mut tried = failure.sequence.clone();
            for (port, session) in tried.calls.iter_mut().filter_map(session_mut) {
                if (*port, *session) == *from {
                    (*port, *session) = *to;
                }
            }
            if accept(failure, tried) {
                break;
            }
        }
    }
}

fn plainer_arguments(failure: &mut Failure) {
    let mut at = 0;
    while at < failure.sequence.calls.len() {
        let accepted = plainer_calls(&failure.sequence.calls[at])
            .into_iter()
            .any(|plainer| {
                let mut tried = failure.sequence.clone();
                tried.calls[at] = plainer;
                accept(failure, tried)
            });
        at += usize::from(!accepted);
    }
}

/// Calls a little plainer than this one, the plainest first. None leads back to it, so that shrinking ends.
fn plainer_calls(call: &Call) -> Vec<Call> {
    let change = |edit: &dyn Fn(&mut Call)| {
        let mut changed = call.clone();
        edit(&mut changed);
        changed
    };
    let mut plainer = vec![change(&plain_elevated_claim)];
    match call {
        Call::Fresh {
            provisioned,
            words,
            seconds,
        } => {
            let held = words.iter().zip(seconds);
            for (at, (flag, (word, second))) in provisioned.iter().zip(held).enumerate() {
                if (*flag, *word, *second) != (0, 0, 0) {
                    plainer.push(change(&|call| set_credential(call, at, 0, (0, 0))));
                }
                let provisioned = plainer_words(*word, *second).into_iter();
                plainer.extend(
                    provisioned.map(|words| change(&|call| set_credential(call, at, 1, words))),
                );
            }
        }
        Call::Record { .. } => plainer.push(change(&|call| set_class(call, 4))),
        Call::List {
            response: buffer, ..
        }
        | Call::Image { image: buffer, .. } => {
            let rooms = plainer_rooms(buffer.as_ref().len()).into_iter();
            plainer.extend(rooms.map(|room| change(&|call| set_room(call, room))));
        }
        Call::Restore { image } => {
            if images::is_old(image) && slavotuk_model::image::read(image).is_ok() {
                let image = images::renewed(image);
                plainer.push(Call::Restore { image });
            }
            for row in 0..images::rows(image) {
                let shorter = images::without_row(image, row);
                plainer.extend(shorter.map(|image| Call::Restore { image }));
            }
        }
        Call::Rescue { bytes, image, .. } => {
            let plain = images::plainer(bytes).into_iter();
            plainer.extend(plain.map(|bytes| change(&|call| set_bytes(call, &bytes))));
            let rooms = plainer_rooms(image.as_ref().len()).into_iter();
            plainer.extend(rooms.map(|room| change(&|call| set_room(call, room))));
        }
        Call::SetWord { word, second, .. } => {
            let words = plainer_words(*word, *second).into_iter();
            plainer.extend(words.map(|words| change(&|call| set_words(call, words))));
        }
        _ => {}
    }
    plainer
}

/// Rooms up to this one; with the same room the buffer is filled plainly.
fn plainer_rooms(room: usize) -> Vec<usize> {
    let rooms = [
        0,
        listing::ROWS_AT,
        image::ROWS_AT,
        room / 2,
        room.saturating_sub(1),
        room,
    ];
    let tried = rooms.into_iter().filter(|tried| *tried <= room);
    tried.collect()
}

/// Words a little plainer than these, the plainest first.
fn plainer_words(word: u32, second: u32) -> Vec<(u32, u32)> {
    let plain = [(0, 0), (15, 0), (16, 0), (31, 0), (15, 15), (31, 31)];
    let unmarked = [(word, 0)];
    let all = plain.into_iter().chain(unmarked);
    all.take_while(|words| *words != (word, second)).collect()
}

fn plain_elevated_claim(call: &mut Call) {
    if let Call::Record { claim, .. }
    | Call::List { claim, .. }
    | Call::Kill { claim, .. }
    | Call::SetWord { claim, .. } = call
    {
        if claim.kind == 1 {
            *claim = RawClaim::ELEVATED;
        }
    }
}

fn set_credential(call: &mut Call, at: usize, flag: u8, plain: (u32, u32)) {
    if let Call::Fresh {
        provisioned,
        words,
        seconds,
    } = call
    {
        provisioned[at] = flag;
        (words[at], seconds[at]) = plain;
    }
}

fn set_class(call: &mut Call, plain: u32) {
    if let Call::Record { class, .. } = call {
        *class = plain;
    }
}

fn set_room(call: &mut Call, room: usize) {
    if let Call::List {
        response: buffer,
        length,
        ..
    }
    | Call::Image {
        image: buffer,
        length,
    }
    | Call::Rescue {
        image: buffer,
        length,
        ..
    } = call
    {
        *buffer = vec![0xee; room].into();
        *length = 0;
    }
}

fn set_bytes(call: &mut Call, plain: &[u8]) {
    if let Call::Rescue { bytes, .. } = call {
        *bytes = plain.to_vec();
    }
}

fn set_words(call: &mut Call, plain: (u32, u32)) {
    if let Call::SetWord { word, second, .. } = call {
        (*word, *second) = plain;
    }
}

/// The failure, a call on each line with its number.
pub fn describe(failure: &Failure) -> Vec<String> {
    let mut pair = Pair::of(&failure.sequence.lent);
    let mut lines = describe_lent(&failure.sequence.lent);
    for (at, call) in failure.sequence.calls.iter().enumerate() {
        let answered = pair.call(call);
        if at == failure.found.at {
            lines.push(format!("{call}: {}", failure.found.what));
        } else if let Ok(answer) = answered {
            lines.push(format!("{call}: {}", answer.number));
        }
    }
    lines
}

fn describe_lent(lent: &[u8]) -> Vec<String> {
    match layout::read(lent) {
        Some(module) if module == Module::fresh([Credential::UNPROVISIONED; 8]) => {
            vec![format!("lent: {STATE_LENGTH} zero bytes")]
        }
        Some(module) => {
            let mut lines = vec![format!("lent: sessions {:?}", module.sessions)];
            for (number, credential) in module.credentials.iter().enumerate() {
                if credential.provisioned {
                    let (word, second) = (credential.word, credential.second);
                    lines.push(format!(
                        "lent: credential {number}, word {word:#x}, second {second:#x}"
                    ));
                }
            }
            for process in &module.processes {
                let name = Bytes(&process.name);
                let (credential, kind) = (process.credential, process.kind);
                lines.push(format!(
                    "lent: process of credential {credential}, {kind:?}, name {name}"
                ));
            }
            lines
        }
        None => vec![format!("lent: {}", Bytes(lent))],
    }
}

#[cfg(test)]
mod tests {
    use super::*;
    use crate::depth::Depth;
    use crate::generate::Generator;
    use crate::sequence::Found;
    use slavotuk_model::rescue;

    /// A sequence is called wrong where some process was saved; no side need be broken for that.
    fn find_save(sequence: &Sequence) -> Option<Found> {
        let mut pair = Pair::of(&sequence.lent);
        for (at, call) in sequence.calls.iter().enumerate() {
            let answer = pair.call(call).ok()?;
            if matches!(call, Call::End { keep: 1, .. }) && answer.number == 0 {
                let what = "saved".to_string();
                return Some(Found { at, what });
            }
        }
        None
    }

    fn drawn(seed: u64, length: usize) -> Sequence {
        let mut generator = Generator::new(seed);
        let lent = generator.lent();
        let mut pair = Pair::of(&lent);
        let mut calls = Vec::new();
        for _ in 0..length {
            let call = generator.next(pair.module());
            let _ = pair.call(&call);
            calls.push(call);
        }
        Sequence { lent, calls }
    }

    /// From a fresh module it takes fresh, open, select, start and end; two calls more where the word is first given by another's set word, and again two where that
    /// one got its own so.
    #[test]
    fn a_save_takes_few_calls() {
        let mut lengths = Vec::new();
        for seed in 0..20 {
            let sequence = drawn(seed, 400);
            let Some(found) = find_save(&sequence) else {
                continue;
            };
            let shrunk = shrink(Failure {
                sequence,
                found,
                test: find_save,
            });
            let calls = &shrunk.sequence.calls;
            assert_eq!(find_save(&shrunk.sequence), Some(shrunk.found));
            assert_eq!(
                calls.last().map(|call| Call::ENTRIES[call.entry()]),
                Some("end")
            );
            lengths.push(calls.len());
        }
        assert!(lengths.len() >= 10, "{lengths:?}");
        assert!(lengths.iter().all(|length| *length <= 9), "{lengths:?}");
        assert!(lengths.contains(&5), "{lengths:?}");
    }

    /// A sequence is called wrong where a rescue drops a row for its name.
    fn find_equal_names(sequence: &Sequence) -> Option<Found> {
        let mut pair = Pair::of(&sequence.lent);
        for (at, call) in sequence.calls.iter().enumerate() {
            let answer = pair.call(call).ok()?;
            if let (Call::Rescue { bytes, .. }, 0) = (call, answer.number) {
                let rescued = rescue::rescue(bytes).ok()?;
                let for_its_name = |row: &rescue::Dropped| row.reason == rescue::Reason::Name;
                if rescued.dropped.iter().any(for_its_name) {
                    let what = "dropped".to_string();
                    return Some(Found { at, what });
                }
            }
        }
        None
    }

    /// One call is left, with two rows of a plain name and no word.
    #[test]
    fn a_rescue_takes_few_bytes() {
        let mut shown = 0;
        for seed in 0..40 {
            let sequence = drawn(seed, 400);
            let Some(found) = find_equal_names(&sequence) else {
                continue;
            };
            shown += 1;
            let shrunk = shrink(Failure {
                sequence,
                found,
                test: find_equal_names,
            });
            let calls = &shrunk.sequence.calls;
            let [Call::Rescue { bytes, image, .. }] = &calls[..] else {
                panic!("{} calls are left", calls.len());
            };
            let printed = Bytes(bytes).to_string();
            let [words, first, second] = [0, 1, 2].map(|row| images::row_in(bytes, row));
            assert_eq!(
                (bytes.len(), bytes[image::ROW_COUNT_AT]),
                (second, 2),
                "{printed}"
            );
            assert_eq!(image.as_ref().len(), first, "{printed}");
            assert!(
                bytes[image::WORDS_AT..words].iter().all(|byte| *byte == 0),
                "{printed}"
            );
            for row in [words, first] {
                assert_eq!(bytes[row + image::NEXT], 1, "{printed}");
                assert_eq!(
                    images::runs(&bytes[row + image::NAME..][..NAME_LENGTH]),
                    1,
                    "{printed}"
                );
            }
        }
        assert!(shown >= 5, "{shown}");
    }

    #[test]
    fn a_sequence_without_an_error_has_none_found() {
        assert_eq!(crate::sequence::find_difference(&drawn(3, 300)), None);
        assert_eq!(crate::sequence::find_replay(&drawn(3, 300)), None);
        let plan = crate::sequence::Plan {
            calls: 300,
            replays: true,
        };
        assert!(crate::sequence::run(3, plan, &mut Depth::default()).is_ok());
    }

    #[test]
    fn later_numbers_are_lowered_with_the_records_before_them() {
        let record = |credential, number| Call::End {
            port: 0,
            session: 0,
            credential,
            number,
            verdict: 1,
            keep: 1,
        };
        let sequence = Sequence {
            lent: Vec::new(),
            calls: vec![record(0, 0), record(1, 0), record(0, 1), record(1, 1)],
        };
        assert_eq!(
            renumbered(&sequence, 0, 1).calls,
            [record(1, 0), record(0, 0), record(1, 1)]
        );
    }
}
