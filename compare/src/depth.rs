//! How deep the sequences went.

use crate::across::Across;
use crate::call::{elevated_claim, session_of, Answer, Call, ENTRIES};
use crate::claim::{passed, refusal_after, AFTER_THE_CLAIM};
use crate::images;
use slavotuk_model::module::{Grant, Kind, Name, Process, Session, PLACES, SPENT};
use slavotuk_model::Module;
use std::collections::{HashMap, HashSet};

/// One more than the largest number.
const NUMBERS: usize = 19;

/// The numbers that documents 01 and 02 let each entry answer.
#[rustfmt::skip]
const POSSIBLE: [&[usize]; ENTRIES] = [
    /* fresh         */ &[0, 1],
    /* holds         */ &[0], // a sequence has a state from its first call on
    /* open          */ &[0, 1, 2],
    /* close         */ &[0, 1, 2],
    /* drop          */ &[0, 1, 2, 3, 6],
    /* select        */ &[0, 1, 2, 4],
    /* start         */ &[0, 1, 2, 3, 5, 7, 11, 12],
    /* continue      */ &[0, 1, 2, 3, 5, 6, 7],
    /* elevate       */ &[0, 1, 2, 3, 5, 7, 8, 11, 12],
    /* end           */ &[0, 1, 2, 3, 5, 6, 8, 9, 10, 13, 18],
    /* record        */ &[0, 1, 2, 3, 5, 6, 8, 9, 10, 13, 18],
    /* list          */ &[0, 1, 2, 3, 5, 6, 8, 9, 10, 13, 15, 18],
    /* kill          */ &[0, 1, 2, 3, 5, 6, 8, 9, 13],
    /* set_word      */ &[0, 1, 2, 3, 5, 6, 8, 9, 10, 13, 18],
    /* image         */ &[0, 15],
    /* restore       */ &[0, 14],
    /* rescue        */ &[0, 14, 15],
    /* read_request  */ &[0, 14],
    /* write_request */ &[0, 15],
    /* read_count    */ &[0, 14],
    /* read_row      */ &[0, 1, 14],
];

/// What a claim that passed its check came to: the call was accepted, or refused in one of the ways after a claim.
pub const OUTCOMES: usize = 1 + AFTER_THE_CLAIM.len();

/// Counts of what came up.
#[derive(Clone, Debug, Default)]
pub struct Depth {
    /// Calls made.
    pub calls: u64,
    /// Sequences run.
    pub sequences: u64,
    /// Claims sent again.
    pub replays: u64,
    /// Of these, those that passed as the claim of another process whose turn it was.
    pub replays_of_others: u64,
    /// How often a claim was sent again, by what it came to at first and by the entry that was called in between.
    pub sent_after: [[u64; ENTRIES]; OUTCOMES],
    answered: [[u64; NUMBERS]; ENTRIES],
    filled: u64,
    removed_from: [u64; PLACES],
    used_again: [u64; PLACES],
    /// The claims that passed, by what they came to.
    claims: [u64; OUTCOMES],
    /// Those after which their process is spent: accepted, refused.
    spent: [u64; 2],
    saved: u64,
    continued: u64,
    /// Of these, those in another session than the save, and on the other port.
    continued_elsewhere: u64,
    continued_across: u64,
    elevated: u64,
    /// Of these, the records of a class that is granted only so.
    only_elevated: u64,
    /// Images written.
    images: u64,
    /// Images restored: the newest that was written, an older one, some other.
    restored: [u64; 3],
    /// Those of the old layout.
    restored_old: u64,
    /// Those that were rescued before.
    restored_rescued: u64,
    /// Damaged images rescued: those that came out as they were, and others.
    rescued: [u64; 2],
    /// Their rows.
    restored_rows: u64,
    /// Those of the processes from an image that were continued, and the claims that passed under them.
    restored_continued: u64,
    restored_claims: u64,
    across: Across,
}

/// What has to be remembered within one sequence.
#[derive(Default)]
pub struct Trail {
    /// How many places were used so far.
    used: usize,
    /// The session that a saved process was saved in.
    saved_in: HashMap<Name, Session>,
    /// The images that were written, the newest at the end.
    images: Vec<Vec<u8>>,
    /// The images that were rescued and changed by it.
    rescued: HashSet<Vec<u8>>,
    /// The processes that came from an image.
    restored: HashSet<Name>,
}

impl Depth {
    /// Takes note of a call, with the modules before and after it.
    pub fn note(&mut self, trail: &mut Trail, answer: &Answer, states: [&Module; 2]) {
        let call = &answer.made;
        self.calls += 1;
        self.answered[call.entry()][answer.number as usize] += 1;
        self.note_claim(trail, answer, states);
        let [before, after] = states;
        self.across.note(call, answer.number, before);
        if answer.number != 0 {
            return;
        }
        if let Call::Restore { image } = call {
            return self.note_restore(trail, image, after);
        }
        self.note_places(trail, before, after);
        match call {
            Call::Fresh { .. } => *trail = Trail::default(),
            Call::Image { image, length } => {
                self.images += 1;
                trail.images.push(image.as_ref()[..*length].to_vec());
            }
            Call::Rescue {
                bytes,
                image,
                length,
                ..
            } => self.note_rescue(trail, bytes, &image.as_ref()[..*length]),
            Call::End { keep: 1, .. } => self.note_save(trail, before, after),
            Call::Continue { name, .. } => self.note_continue(trail, session_of(call), name),
            _ => self.note_elevated(call, before),
        }
    }

    fn note_places(&mut self, trail: &mut Trail, before: &Module, after: &Module) {
        let stands = |name: &Name| after.processes.iter().any(|process| process.name == *name);
        if after.processes.len() < before.processes.len() {
            for (place, process) in before.processes.iter().enumerate() {
                self.removed_from[place] += u64::from(!stands(&process.name));
            }
        }
        if after.processes.len() > before.processes.len() {
            let place = before.processes.len();
            self.used_again[place] += u64::from(place < trail.used);
            self.filled += u64::from(place == PLACES - 1);
        }
        trail.used = trail.used.max(after.processes.len());
        trail.restored.retain(stands);
    }

    fn note_save(&mut self, trail: &mut Trail, before: &Module, after: &Module) {
        self.saved += 1;
        let changed = before.processes.iter().zip(&after.processes);
        for (active, saved) in changed.filter(|(one, other)| one.kind != other.kind) {
            let session = active.kind.session();
            trail
                .saved_in
                .extend(session.map(|session| (saved.name, session)));
        }
    }

    /// The processes of the image stand, and no others.
    fn note_restore(&mut self, trail: &mut Trail, image: &[u8], after: &Module) {
        let written = trail
            .images
            .iter()
            .rev()
            .position(|written| written == image);
        let whose = match written {
            Some(0) => 0,
            Some(_) => 1,
            None => 2,
        };
        self.restored[whose] += 1;
        self.restored_old += u64::from(images::is_old(image));
        self.restored_rescued += u64::from(trail.rescued.contains(image));
        self.restored_rows += after.processes.len() as u64;
        trail.used = after.processes.len();
        trail.saved_in.clear();
        trail.restored = after.processes.iter().map(|process| process.name).collect();
    }

    fn note_rescue(&mut self, trail: &mut Trail, bytes: &[u8], image: &[u8]) {
        let changed = image != bytes;
        self.rescued[usize::from(changed)] += 1;
        if changed {
            trail.rescued.insert(image.to_vec());
        }
    }

    fn note_elevated(&mut self, call: &Call, before: &Module) {
        let Some(session) = elevated_claim(call) else {
            return;
        };
        self.elevated += 1;
        let Call::Record { class, .. } = call else {
            return;
        };
        let elevation = before.find_elevation(session);
        let owner = elevation.map(|place| before.processes[place].credential);
        let only_so = |owner| before.lookup(owner, *class) == Grant::OnlyUnderElevation;
        self.only_elevated += u64::from(owner.is_some_and(only_so));
    }

    /// Of a claim that passed its check, whatever the call was answered afterwards.
    fn note_claim(&mut self, trail: &Trail, answer: &Answer, [before, after]: [&Module; 2]) {
        let Some(place) = passed(&answer.made, answer.number, before) else {
            return;
        };
        let name = &before.processes[place].name;
        let spent = |process: &Process| process.name == *name && is_spent(process.kind);
        let spent = after.processes.iter().any(spent);
        self.claims[outcome(&answer.made, answer.number)] += 1;
        self.spent[usize::from(answer.number != 0)] += u64::from(spent);
        self.restored_claims += u64::from(trail.restored.contains(name));
    }

    fn note_continue(&mut self, trail: &mut Trail, session: Option<Session>, name: &[u8]) {
        self.continued += 1;
        self.restored_continued += u64::from(trail.restored.contains(name));
        if let (Some(session), Some(saved_in)) = (session, trail.saved_in.get(name)) {
            self.continued_elsewhere += u64::from(*saved_in != session);
            self.continued_across += u64::from(saved_in.port != session.port);
        }
    }

    /// Adds what another run counted.
    pub fn add(&mut self, other: &Depth) {
        self.calls += other.calls;
        self.sequences += other.sequences;
        self.replays += other.replays;
        self.replays_of_others += other.replays_of_others;
        for (own, others) in self.sent_after.iter_mut().zip(&other.sent_after) {
            add_each(own, others);
        }
        for (own, others) in self.answered.iter_mut().zip(&other.answered) {
            add_each(own, others);
        }
        self.filled += other.filled;
        add_each(&mut self.removed_from, &other.removed_from);
        add_each(&mut self.used_again, &other.used_again);
        add_each(&mut self.claims, &other.claims);
        add_each(&mut self.spent, &other.spent);
        self.saved += other.saved;
        self.continued += other.continued;
        self.continued_elsewhere += other.continued_elsewhere;
        self.continued_across += other.continued_across;
        self.elevated += other.elevated;
        self.only_elevated += other.only_elevated;
        self.images += other.images;
        add_each(&mut self.restored, &other.restored);
        self.restored_old += other.restored_old;
        self.restored_rescued += other.restored_rescued;
        add_each(&mut self.rescued, &other.rescued);
        self.restored_rows += other.restored_rows;
        self.restored_continued += other.restored_continued;
        self.restored_claims += other.restored_claims;
        self.across.add(&other.across);
    }

    /// How many images were restored.
    pub fn power_cycles(&self) -> u64 {
        self.restored.iter().sum()
    }

    /// The table of entries and numbers, a line for each entry.
    pub fn table(&self) -> Vec<String> {
        let mut head = format!("  {:13}", "");
        let numbers: Vec<usize> = (0..NUMBERS).filter(|number| self.is_met(*number)).collect();
        for number in &numbers {
            head += &format!(" {number:>7}");
        }
        let mut lines = vec![head];
        for (entry, answered) in self.answered.iter().enumerate() {
            let mut line = format!("  {:13}", Call::ENTRIES[entry]);
            for number in &numbers {
                match (POSSIBLE[entry].contains(number), answered[*number]) {
                    (false, 0) => line += &format!(" {:>7}", "."),
                    (_, times) => line += &format!(" {times:>7}"),
                }
            }
            lines.push(line);
        }
        lines
    }

    /// Whether some entry answers the number by the documents, or has answered it.
    fn is_met(&self, number: usize) -> bool {
        let mut entries = POSSIBLE.iter().zip(&self.answered);
        entries.any(|(possible, answered)| possible.contains(&number) || answered[number] > 0)
    }

    /// Whether everything that is to come up did, each at least so many times: a line for each.
    pub fn judge(&self, least: u64) -> Vec<Result<String, String>> {
        let places = |counts: &[u64; PLACES]| {
            let fewest = counts.iter().min().copied().unwrap_or(0);
            (fewest, format!("{counts:?}"))
        };
        let (fewest_removed, removed) = places(&self.removed_from);
        let (fewest_again, again) = places(&self.used_again);
        let reached = |times: u64, what: String| match times >= least {
            true => Ok(what),
            false => Err(format!("{what}; at least {least} are wanted")),
        };
        let (filled, [spent, spent_refused]) = (self.filled, self.spent);
        let (saved, continued) = (self.saved, self.continued);
        let (elsewhere, across) = (self.continued_elsewhere, self.continued_across);
        let [newest, older, others] = self.restored;
        let (images, rows) = (self.images, self.restored_rows);
        let (back, claims) = (self.restored_continued, self.restored_claims);
        let ([as_it_was, changed], good) = (self.rescued, self.restored_rescued);
        vec![
            self.judge_possible(least),
            self.judge_impossible(),
            reached(filled, format!("the table became full {filled} times")),
            reached(fewest_removed, format!("removed from places 0 to 11: {removed}")),
            reached(fewest_again, format!("freed and used again, places 0 to 11: {again}")),
            reached(
                spent.min(spent_refused),
                format!(
                    "a next number became 65,535 {spent} times by an accepted call, {spent_refused} times by a refused one"
                ),
            ),
            self.judge_refused(least),
            reached(
                elsewhere.min(across),
                format!(
                    "{saved} saves, {continued} continues, {elsewhere} in another session than the save, {across} on the other port"
                ),
            ),
            reached(
                self.elevated.min(self.only_elevated),
                format!(
                    "{} calls accepted under an elevated claim, {} of them records of a class that is granted only so",
                    self.elevated, self.only_elevated
                ),
            ),
            reached(
                newest.min(older).min(others).min(self.restored_old),
                format!(
                    "{} power cycles: the newest of {images} images {newest} times, an older one {older}, some other {others}; the old layout {}",
                    self.power_cycles(),
                    self.restored_old
                ),
            ),
            reached(
                back.min(claims),
                format!(
                    "{rows} processes came from an image, {back} were continued, {claims} claims passed under them"
                ),
            ),
            reached(
                as_it_was.min(changed).min(good),
                format!(
                    "{changed} damaged images rescued, and {as_it_was} that came out as they were; {good} power cycles with what was rescued"
                ),
            ),
            self.across.judge(least),
        ]
    }

    fn judge_possible(&self, least: u64) -> Result<String, String> {
        let mut missing = Vec::new();
        let mut pairs = 0;
        let mut fewest = (u64::MAX, String::new());
        for (entry, numbers) in POSSIBLE.iter().enumerate() {
            for number in *numbers {
                let times = self.answered[entry][*number];
                let pair = format!("{} {number}", Call::ENTRIES[entry]);
                pairs += 1;
                if times < least {
                    missing.push(format!("{pair} ({times})"));
                }
                fewest = fewest.min((times, pair));
            }
        }
        match missing.is_empty() {
            true => Ok(format!(
                "each of the {pairs} answers of an entry that documents 01 and 02 allow came up; the rarest, {}, {} times",
                fewest.1, fewest.0
            )),
            false => Err(format!(
                "fewer than {least} times: {}",
                missing.join(", ")
            )),
        }
    }

    /// Whether each refusal after a claim came up.
    fn judge_refused(&self, least: u64) -> Result<String, String> {
        let [accepted, refused @ ..] = &self.claims;
        let each: Vec<String> = (AFTER_THE_CLAIM.iter().zip(refused))
            .map(|((entry, number), times)| format!("{entry} {number} {times} times"))
            .collect();
        let line = format!(
            "{accepted} user claims accepted; refused after their check, which counts too: {}",
            each.join(", ")
        );
        match refused.iter().all(|times| *times >= least) {
            true => Ok(line),
            false => Err(format!("{line}; at least {least} of each are wanted")),
        }
    }

    /// Whether claims of each outcome were sent again after a call of each entry.
    pub fn judge_replays(&self) -> Result<String, String> {
        let mut fewest = (u64::MAX, String::new());
        for (outcome, sent) in self.sent_after.iter().enumerate() {
            let claim = match outcome {
                0 => "accepted".to_string(),
                _ => {
                    let (entry, number) = AFTER_THE_CLAIM[outcome - 1];
                    format!("{entry} {number}")
                }
            };
            for (entry, times) in sent.iter().enumerate() {
                let pair = format!("{claim} after {}", Call::ENTRIES[entry]);
                fewest = fewest.min((*times, pair));
            }
        }
        let line = format!(
            "claims of {OUTCOMES} outcomes sent again after each of {ENTRIES} entries; the rarest, {}, {} times",
            fewest.1, fewest.0
        );
        match fewest.0 {
            0 => Err(line),
            _ => Ok(line),
        }
    }

    fn judge_impossible(&self) -> Result<String, String> {
        for (entry, answered) in self.answered.iter().enumerate() {
            for (number, times) in answered.iter().enumerate() {
                if *times > 0 && !POSSIBLE[entry].contains(&number) {
                    let name = Call::ENTRIES[entry];
                    return Err(format!("{name} answered {number}, {times} times"));
                }
            }
        }
        Ok("no other answer came up".to_string())
    }
}

/// What a claim that passed its check came to: 0 where the call was accepted, else one more than the refusal's place.
pub fn outcome(call: &Call, number: u32) -> usize {
    match number {
        0 => 0,
        _ => 1 + refusal_after(call, number).expect("documents 01 and 02 have this refusal"),
    }
}

fn add_each(own: &mut [u64], others: &[u64]) {
    for (count, other) in own.iter_mut().zip(others) {
        *count += other;
    }
}

fn is_spent(kind: Kind) -> bool {
    match kind {
        Kind::ActiveUser { next, .. } | Kind::SavedUser { next } => next == SPENT,
        Kind::ActiveElevation { .. } => false,
    }
}

#[cfg(test)]
mod tests {
    use super::*;

    #[test]
    fn an_empty_run_is_judged_too_shallow() {
        let judged = Depth::default().judge(1);
        let failed = judged.iter().filter(|line| line.is_err()).count();
        assert_eq!(failed, judged.len() - 1);
        assert!(Depth::default().judge_replays().is_err());
    }

    #[test]
    fn a_refusal_after_the_claim_that_never_came_up_is_told() {
        let mut depth = Depth {
            claims: [5; OUTCOMES],
            ..Depth::default()
        };
        assert!(depth.judge_refused(5).is_ok());
        depth.claims[5] = 4;
        let told = depth.judge_refused(5).unwrap_err();
        assert!(told.contains("list 10 4 times"), "{told}");
    }

    #[test]
    fn an_answer_that_cannot_be_is_seen() {
        let mut depth = Depth::default();
        assert!(depth.judge_impossible().is_ok());
        assert_eq!(depth.table()[0].split_whitespace().last(), Some("18"));
        assert!(!depth.table()[0].contains("17"));
        depth.answered[12][18] = 1;
        assert_eq!(
            depth.judge_impossible(),
            Err("kill answered 18, 1 times".to_string())
        );
    }
}
