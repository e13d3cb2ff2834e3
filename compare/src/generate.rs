//! Draws the calls of a sequence, with an eye on the state so that deep ones are reached.

use crate::call::{numbers_of, Answer, Call, ENTRIES};
use crate::images;
use crate::random::Random;
use slavotuk::entries::RawClaim;
use slavotuk::layout::image as places;
use slavotuk::layout::listing::{row_at, FULL_LENGTH, ROWS_AT};
use slavotuk_model::layout::{self, STATE_LENGTH};
use slavotuk_model::module::{Credential, Grant, Kind, Name, Phase, Process, Session, Wanted};
use slavotuk_model::module::{CREDENTIALS, NAME_LENGTH, PLACES, PORTS, SESSIONS, SPENT};
use slavotuk_model::{image, messages, rescue, Module};

/// Ports, handles, credentials, classes and flags on both sides of each width.
const BOUNDS: [u32; 14] = [
    0,
    1,
    2,
    3,
    4,
    7,
    8,
    255,
    256,
    257,
    65_535,
    65_536,
    1 << 31,
    u32::MAX,
];

/// Added to a good value: a side that takes fewer bits takes the sum for the good value.
const WRAPS: [u32; 4] = [1 << 8, 1 << 16, 1 << 24, 1 << 31];

/// What a sequence is after.
#[derive(Clone, Copy, Debug, PartialEq, Eq)]
enum Style {
    /// Everything.
    Mixed,
    /// Full tables: little is removed.
    Crowded,
    /// Begins with next numbers near 65,535.
    NearlySpent,
}

/// How often each entry is drawn, in the order of docs/ENTRIES.md.
#[rustfmt::skip]
fn weights(style: Style) -> [usize; ENTRIES] {
    match style {
        //                    fresh holds open close drop select start cont. elev. end rec. list kill word image rest. resc. requests listings
        Style::Mixed =>       [2,   2,    30,  15,   12,  30,    100,  60,   40,   60, 120, 50,  40,  40,  6,    4,    6,    5, 5,    10, 15],
        Style::Crowded =>     [0,   2,    30,  2,    4,   40,    160,  30,   60,   80, 50,  40,  6,   20,  3,    3,    4,    5, 5,    10, 15],
        Style::NearlySpent => [0,   2,    10,  2,    5,   10,    30,   50,   20,   40, 120, 60,  50,  40,  3,    3,    4,    5, 5,    10, 15],
    }
}

/// The source of one sequence's calls.
pub struct Generator {
    random: Random,
    style: Style,
    names: Vec<Name>,
    /// The last listing that was answered, for the readers.
    listing: Vec<u8>,
    /// The last images that were answered, written or rescued, the newest at the end.
    images: Vec<Vec<u8>>,
    /// Whether the power goes off after the newest of them.
    power_off: bool,
}

/// How many images are kept.
const KEPT_IMAGES: usize = 6;

impl Generator {
    /// The source that the seed makes.
    pub fn new(seed: u64) -> Generator {
        let mut random = Random::new(seed);
        let style = [Style::Mixed, Style::Crowded, Style::NearlySpent][random.weighted(&[4, 3, 3])];
        let names = draw_names(&mut random);
        Generator {
            random,
            style,
            names,
            listing: messages::listing(&[]),
            images: Vec::new(),
            power_off: false,
        }
    }

    /// The bytes that are lent at the beginning.
    pub fn lent(&mut self) -> Vec<u8> {
        match self.style {
            Style::NearlySpent => layout::write(&self.nearly_spent()),
            _ => self.random.bytes(STATE_LENGTH),
        }
    }

    /// The next call. A slice that holds no state gets a fresh module, or one from an image.
    pub fn next(&mut self, module: Option<&Module>) -> Call {
        let Some(module) = module else {
            return match self.random.percent(80) {
                true => self.fresh(),
                false => {
                    let image = self.drawn_image();
                    Call::Restore { image }
                }
            };
        };
        if let (true, Some(newest)) = (self.power_off, self.images.last()) {
            self.power_off = false;
            let image = newest.clone();
            return Call::Restore { image };
        }
        if !has_session(module, Phase::OpenWithVersion) && self.random.percent(60) {
            return self.entering(module);
        }
        match Call::ENTRIES[self.random.weighted(&weights(self.style))] {
            "fresh" => self.wrong_fresh(),
            "holds" => Call::Holds {},
            "open" => self.open(module),
            "close" => {
                let (port, session) = self.session(module);
                Call::Close { port, session }
            }
            "drop" => {
                let (port, session) = self.elevated_session(module);
                Call::Drop { port, session }
            }
            "select" => self.select(module),
            "start" => self.start(module),
            "continue" => self.continue_saved(module),
            "elevate" => self.elevate(module),
            "end" => self.end(module),
            "record" => self.record(module),
            "list" => self.list(module),
            "kill" => self.kill(module),
            "set_word" => self.set_word(module),
            "image" => self.image(module),
            "restore" => self.restore(),
            "rescue" => self.rescue(module),
            "read_request" => self.read_request(),
            "write_request" => self.write_request(),
            "read_count" => self.read_count(),
            _ => self.read_row(),
        }
    }

    /// Takes note of an answer.
    pub fn observe(&mut self, answer: &Answer) {
        if answer.number != 0 {
            return;
        }
        match &answer.made {
            Call::List {
                response, length, ..
            } => self.listing = response.as_ref()[..*length].to_vec(),
            Call::Image { image, length } => {
                self.keep_image(&image.as_ref()[..*length]);
                self.power_off = self.random.percent(30);
            }
            Call::Rescue { image, length, .. } => {
                self.keep_image(&image.as_ref()[..*length]);
                self.power_off = self.random.percent(5);
            }
            _ => {}
        }
    }

    fn keep_image(&mut self, image: &[u8]) {
        self.images.push(image.to_vec());
        let old = self.images.len().saturating_sub(KEPT_IMAGES);
        self.images.drain(..old);
    }

    /// A state of many processes whose next numbers are near the last one.
    fn nearly_spent(&mut self) -> Module {
        let mut module = Module {
            sessions: [[Phase::OpenWithVersion; SESSIONS]; PORTS],
            ..Module::fresh([Credential::UNPROVISIONED; CREDENTIALS])
        };
        for credential in &mut module.credentials {
            if self.random.percent(80) {
                let (word, second) = draw_words(&mut self.random);
                *credential = Credential::with(word, second);
            }
        }
        let most = self.random.below(PLACES) + 1;
        for place in 0..most {
            let process = self.nearly_spent_process(place);
            module.processes.push(process);
            if layout::read(&layout::write(&module)).is_none() {
                module.processes.pop();
            }
        }
        module
    }

    fn nearly_spent_process(&mut self, place: usize) -> Process {
        let session = self.any_session();
        let next = SPENT - self.random.pick(&[0, 0, 1, 1, 2, 3, 10, 100]);
        Process {
            credential: self.random.below(CREDENTIALS),
            kind: match self.random.below(5) {
                0 => Kind::SavedUser { next },
                1 => Kind::ActiveElevation { session },
                _ => Kind::ActiveUser { session, next },
            },
            name: self.names[place],
        }
    }

    fn fresh(&mut self) -> Call {
        let provisioned = (0..CREDENTIALS).map(|_| u8::from(self.random.percent(75)));
        let provisioned = provisioned.collect();
        let words = (0..CREDENTIALS).map(|_| draw_words(&mut self.random));
        let (words, seconds) = words.unzip();
        Call::Fresh {
            provisioned,
            words,
            seconds,
        }
    }

    /// A fresh that is mostly refused, so that the state lives on.
    fn wrong_fresh(&mut self) -> Call {
        let mut call = self.fresh();
        if let Call::Fresh {
            provisioned,
            words,
            seconds,
        } = &mut call
        {
            match self.random.below(10) {
                0 => {}
                1 => provisioned.truncate(self.random.below(8)),
                2 => provisioned.push(1),
                3 => words.truncate(self.random.below(8)),
                4 => words.push(1),
                5 => seconds.truncate(self.random.below(8)),
                6 => seconds.push(1),
                _ => provisioned[self.random.below(8)] = self.random.pick(&[2, 3, 128, 255]),
            }
        }
        call
    }

    /// Towards a session with a version.
    fn entering(&mut self, module: &Module) -> Call {
        match has_session(module, Phase::OpenWithoutVersion) {
            true => self.select(module),
            false => self.open(module),
        }
    }

    fn open(&mut self, module: &Module) -> Call {
        let (port, session) = self.session_in(module, Phase::Closed);
        Call::Open { port, session }
    }

    fn select(&mut self, module: &Module) -> Call {
        let (port, session) = self.session_in(module, Phase::OpenWithoutVersion);
        let version = match self.random.percent(80) {
            true => 0x10,
            false => {
                let others = [0, 1, 0x0f, 0x11, 0x20, 0xff, 0x110, 0x1_0010, 0x8000_0010];
                self.random.pick(&others)
            }
        };
        Call::Select {
            port,
            session,
            version,
        }
    }

    fn start(&mut self, module: &Module) -> Call {
        let (port, session) = self.session(module);
        let credential = self.credential(module);
        let name = self.new_name(module);
        Call::Start {
            port,
            session,
            credential,
            name,
        }
    }

    fn continue_saved(&mut self, module: &Module) -> Call {
        let (port, session) = self.session(module);
        let saved = self.process(module, |kind| matches!(kind, Kind::SavedUser { .. }));
        let (credential, name) = match saved {
            Some(saved) if self.random.percent(85) => {
                let credential = self.near(saved.credential as u32);
                (credential, self.near_name(saved.name))
            }
            _ => (self.credential(module), self.standing_name(module)),
        };
        Call::Continue {
            port,
            session,
            credential,
            name,
        }
    }

    fn elevate(&mut self, module: &Module) -> Call {
        let (port, session) = self.session(module);
        let credential = self.credential(module);
        let name = self.new_name(module);
        let verdict = self.flag(90);
        Call::Elevate {
            port,
            session,
            credential,
            name,
            verdict,
        }
    }

    fn end(&mut self, module: &Module) -> Call {
        let ((port, session), claim) = self.user_claim(module);
        let keep = match self.style {
            Style::Crowded => self.flag(95),
            _ => self.flag(70),
        };
        Call::End {
            port,
            session,
            credential: claim.credential,
            number: claim.number,
            verdict: claim.verdict,
            keep,
        }
    }

    fn record(&mut self, module: &Module) -> Call {
        let ((port, session), claim) = self.claim(module);
        let credential = claimant(module, (port, session), claim);
        let granted: Vec<u32> = (4..32)
            .filter(|class| module.lookup(credential, *class) != Grant::No)
            .collect();
        let class = match granted.is_empty() || self.random.percent(30) {
            true => 4 + self.random.below(28) as u32,
            false => self.random.pick(&granted),
        };
        let class = match self.random.percent(2) {
            true => self.random.pick(&[0, 1, 2, 3, 32, 33, 36, 63, 64]),
            false => self.near(class),
        };
        Call::Record {
            port,
            session,
            claim,
            class,
        }
    }

    fn list(&mut self, module: &Module) -> Call {
        let ((port, session), claim) = self.claim(module);
        let wanted = match self.random.below(10) {
            0..=3 => 65_535,
            4..=7 => claimant(module, (port, session), claim) as u32,
            8 => self.random.pick(&[65_534, 65_536, 131_071, 8, 7, 0]),
            _ => self.random.below(CREDENTIALS) as u32,
        };
        let wanted = self.near(wanted);
        let room = self.room(module, wanted);
        Call::List {
            port,
            session,
            claim,
            wanted,
            response: self.random.bytes(room).into(),
            length: self.random.next() as usize,
        }
    }

    /// Around the length of the message that is to come.
    fn room(&mut self, module: &Module, wanted: u32) -> usize {
        let rows = match wanted {
            0..=7 => module.rows(Wanted::Of(wanted as usize)),
            _ => module.rows(Wanted::All),
        };
        let exact = messages::listing(&rows).len();
        let bounds = [1, ROWS_AT, row_at(1), FULL_LENGTH];
        let others = bounds.map(|bound| [bound - 1, bound, bound + 1]).concat();
        self.room_about(exact, &others)
    }

    fn room_about(&mut self, exact: usize, others: &[usize]) -> usize {
        match self.random.below(10) {
            0..=3 => exact,
            4 => exact - 1,
            5 => exact + 1,
            6..=7 => exact + self.random.below(60),
            8 => self.random.below(exact),
            _ => self.random.pick(others),
        }
    }

    fn kill(&mut self, module: &Module) -> Call {
        let ((port, session), claim) = self.claim(module);
        let name = self.standing_name(module);
        Call::Kill {
            port,
            session,
            claim,
            name,
        }
    }

    fn set_word(&mut self, module: &Module) -> Call {
        let ((port, session), claim) = self.claim(module);
        let target = self.credential(module);
        let (word, second) = match self.random.percent(30) {
            true => self.near_words(module.credentials[target as usize % CREDENTIALS]),
            false => draw_words(&mut self.random),
        };
        Call::SetWord {
            port,
            session,
            claim,
            target,
            word,
            second,
        }
    }

    /// The words that are held, with a bit of one or both changed.
    fn near_words(&mut self, held: Credential) -> (u32, u32) {
        let bit = 1 << self.random.below(32);
        let (changed, marked) = self.random.pick(&[(bit, 0), (0, bit), (bit, bit)]);
        (held.word ^ changed, held.second ^ marked)
    }

    fn image(&mut self, module: &Module) -> Call {
        let room = self.image_room(image::write(module).len());
        Call::Image {
            image: self.random.bytes(room).into(),
            length: self.random.next() as usize,
        }
    }

    /// Around the length of an image of so many bytes.
    fn image_room(&mut self, exact: usize) -> usize {
        let bounds = [
            places::WORDS_AT,
            places::old_row_at(0),
            places::row_at(0),
            places::row_at(1),
            places::FULL_LENGTH,
        ];
        let at = self.random.pick(&bounds);
        self.room_about(exact, &[0, at - 1, at, at + 1])
    }

    /// Mostly damaged, so that the state lives on.
    fn restore(&mut self) -> Call {
        let image = self.kept_image();
        let image = self.damaged_image(image);
        Call::Restore { image }
    }

    /// An image that was answered, the newest or an older one, or one of another module.
    fn kept_image(&mut self) -> Vec<u8> {
        match self.images.is_empty() || self.random.percent(15) {
            true => self.drawn_image(),
            false => self.images[self.random.below(self.images.len())].clone(),
        }
    }

    /// The image, now and then in the old layout, and mostly damaged.
    fn damaged_image(&mut self, mut image: Vec<u8>) -> Vec<u8> {
        if self.random.percent(20) {
            image = images::old(&image);
        }
        if self.random.percent(85) {
            let fields = 1 + self.random.below(4);
            images::damage(&mut image, fields, &mut self.random);
        }
        image
    }

    /// Half of them are of the module as it stands.
    fn rescue(&mut self, module: &Module) -> Call {
        let image = match self.random.percent(50) {
            true => image::write(module),
            false => self.kept_image(),
        };
        let bytes = self.damaged_image(image);
        let rescued = rescue::rescue(&bytes);
        let room = self.image_room(rescued.map_or(image::LONGEST, |rescued| rescued.image.len()));
        Call::Rescue {
            bytes,
            image: self.random.bytes(room).into(),
            length: self.random.next() as usize,
            cleared: self.random.word() as u16,
            kept: self.random.word() as u16,
            dropped: self.random.word() as u16,
        }
    }

    fn drawn_image(&mut self) -> Vec<u8> {
        let mask = (self.random.word() | self.random.word() | self.random.word()) as u8;
        let most = if mask == 0 { 0 } else { PLACES };
        let rows = self.random.below(most + 1);
        let image = images::draw(mask, &self.names[..rows], &mut self.random);
        match self.random.percent(50) {
            true => images::old(&image),
            false => image,
        }
    }

    fn read_request(&mut self) -> Call {
        let mut message = messages::request(self.random.word() as u16).to_vec();
        self.spoil(&mut message);
        Call::ReadRequest {
            message,
            credential: self.random.word() as u16,
        }
    }

    fn write_request(&mut self) -> Call {
        let room = self.random.below(9);
        Call::WriteRequest {
            buffer: self.random.bytes(room).into(),
            credential: self.random.word() as u16,
        }
    }

    fn read_count(&mut self) -> Call {
        let mut message = self.listing.clone();
        self.spoil(&mut message);
        Call::ReadCount {
            message,
            count: self.random.word() as u16,
        }
    }

    fn read_row(&mut self) -> Call {
        let mut message = self.listing.clone();
        self.spoil(&mut message);
        let count = message.len() / messages::ROW_LENGTH;
        let length = match self.random.percent(90) {
            true => NAME_LENGTH,
            false => self.random.pick(&[0, 47, 49, 51, 96]),
        };
        Call::ReadRow {
            message,
            at: match self.random.percent(95) {
                true => self.random.below(count + 2),
                false => usize::MAX - self.random.below(60),
            },
            credential: self.random.word() as u16,
            kind: self.random.word() as u8,
            name: self.random.bytes(length).into(),
        }
    }

    /// Sometimes changes a byte of a message, or its length.
    fn spoil(&mut self, message: &mut Vec<u8>) {
        let at = self.random.below(message.len());
        match self.random.below(12) {
            0 => message[at] = self.random.word() as u8,
            1 => message[at.min(3)] ^= 1 << self.random.below(8),
            2 => message.truncate(at),
            3 => message.push(0),
            _ => {}
        }
    }

    /// A claim and the session it is made in.
    fn claim(&mut self, module: &Module) -> ((u32, u32), RawClaim) {
        let elevation = self.process(module, |kind| matches!(kind, Kind::ActiveElevation { .. }));
        let elevated = if elevation.is_some() { 35 } else { 5 };
        let (session, mut claim) = match self.random.percent(elevated) {
            true => (self.elevated_session(module), self.elevated_claim()),
            false => self.user_claim(module),
        };
        claim.kind = self.near(claim.kind);
        (session, claim)
    }

    /// What it carries beside its kind is ignored, and so may be anything.
    fn elevated_claim(&mut self) -> RawClaim {
        RawClaim {
            kind: 1,
            credential: self.random.pick(&BOUNDS),
            number: self.random.word() as u16,
            verdict: self.random.pick(&BOUNDS),
        }
    }

    fn user_claim(&mut self, module: &Module) -> ((u32, u32), RawClaim) {
        let user = self.process(module, |kind| matches!(kind, Kind::ActiveUser { .. }));
        let (session, credential, next) = match user.map(|user| (user.credential, user.kind)) {
            Some((credential, Kind::ActiveUser { session, next })) if self.random.percent(90) => {
                let session = match self.random.percent(92) {
                    true => self.near_session(session),
                    false => self.session(module),
                };
                (session, credential as u32, next)
            }
            _ => (self.session(module), self.credential(module), 0),
        };
        let claim = RawClaim {
            kind: 0,
            credential: self.near(credential),
            number: self.number(next),
            verdict: self.flag(93),
        };
        (session, claim)
    }

    fn number(&mut self, next: u16) -> u16 {
        if self.random.percent(88) {
            return next;
        }
        let drawn = self.random.word() as u16;
        let (before, after) = (next.wrapping_sub(1), next.wrapping_add(1));
        let others = [
            before,
            before,
            after,
            0,
            SPENT,
            SPENT - 1,
            next ^ 0x100,
            drawn,
        ];
        self.random.pick(&others)
    }

    /// A session in numbers, mostly one with a version.
    fn session(&mut self, module: &Module) -> (u32, u32) {
        self.session_in(module, Phase::OpenWithVersion)
    }

    fn session_in(&mut self, module: &Module, phase: Phase) -> (u32, u32) {
        let such: Vec<Session> = Session::all()
            .filter(|session| module.phase(*session) == phase)
            .collect();
        let session = match such.is_empty() || self.random.percent(12) {
            true => self.any_session(),
            false => self.random.pick(&such),
        };
        self.near_session(session)
    }

    fn any_session(&mut self) -> Session {
        let (port, handle) = (self.random.below(PORTS), self.random.below(SESSIONS));
        Session::of(port, handle)
    }

    fn elevated_session(&mut self, module: &Module) -> (u32, u32) {
        let elevation = self.process(module, |kind| matches!(kind, Kind::ActiveElevation { .. }));
        match elevation.and_then(|process| process.kind.session()) {
            Some(session) if self.random.percent(85) => self.near_session(session),
            _ => self.session(module),
        }
    }

    /// The session; now and then that of the same handle on the other port, or numbers that are wrong: the handle counted over both ports, or a port that is the same
    /// in its lowest bits, or would be if it were multiplied by four.
    fn near_session(&mut self, session: Session) -> (u32, u32) {
        let (port, handle) = numbers_of(session);
        match self.random.below(120) {
            0..=5 => (1 - port, handle),
            6 => (0, SESSIONS as u32 * port + handle),
            7 => (
                port + self.random.pick(&[2, 1 << 6, 1 << 14, 1 << 30]),
                handle,
            ),
            _ => (self.near(port), self.near(handle)),
        }
    }

    /// A credential, mostly a provisioned one.
    fn credential(&mut self, module: &Module) -> u32 {
        let first = self.random.below(CREDENTIALS);
        let credential = match module.credentials[first].provisioned || self.random.percent(40) {
            true => first,
            false => self.random.below(CREDENTIALS),
        };
        self.near(credential as u32)
    }

    /// The value; now and then one that is wrong, or wrong in its upper bits alone.
    fn near(&mut self, value: u32) -> u32 {
        match self.random.below(120) {
            0 => self.random.pick(&BOUNDS),
            1 => value.wrapping_add(self.random.pick(&WRAPS)),
            _ => value,
        }
    }

    fn flag(&mut self, yes: usize) -> u32 {
        let flag = u32::from(self.random.percent(yes));
        self.near(flag)
    }

    fn process(&mut self, module: &Module, wanted: impl Fn(Kind) -> bool) -> Option<Process> {
        let such: Vec<Process> = module
            .processes
            .iter()
            .filter(|process| wanted(process.kind))
            .copied()
            .collect();
        (!such.is_empty()).then(|| self.random.pick(&such))
    }

    /// A name that mostly no process has.
    fn new_name(&mut self, module: &Module) -> Vec<u8> {
        let taken = |name: &Name| module.processes.iter().any(|process| process.name == *name);
        let mut name = self.random.pick(&self.names);
        for _ in 0..6 {
            if !taken(&name) {
                break;
            }
            name = self.random.pick(&self.names);
        }
        self.cut(name)
    }

    /// A name that mostly a process has.
    fn standing_name(&mut self, module: &Module) -> Vec<u8> {
        match self.process(module, |_| true) {
            Some(process) if self.random.percent(80) => self.near_name(process.name),
            _ => {
                let name = self.random.pick(&self.names);
                self.cut(name)
            }
        }
    }

    /// The name, now and then with one byte changed.
    fn near_name(&mut self, mut name: Name) -> Vec<u8> {
        if self.random.percent(10) {
            let at = self.random.pick(&[0, 15, 16, 31, 32, 46, 47]);
            name[at] ^= 1 << self.random.below(8);
        }
        self.cut(name)
    }

    /// The name's slice, now and then of a wrong length.
    fn cut(&mut self, name: Name) -> Vec<u8> {
        let mut name = name.to_vec();
        if self.random.percent(2) {
            name.resize(self.random.pick(&[0, 1, 47, 49, 96]), 0);
        }
        name
    }
}

/// Names that differ in one byte: the last, the first, those around byte 16; and all-zero ones.
fn draw_names(random: &mut Random) -> Vec<Name> {
    let mut base: Name = [0; NAME_LENGTH];
    random.fill(&mut base[16..]);
    let mut names = vec![base, [0; NAME_LENGTH], [0xff; NAME_LENGTH]];
    for at in [0, 15, 16, 31, 32, 47] {
        for like in [base, [0; NAME_LENGTH]] {
            let mut name = like;
            name[at] ^= 1;
            names.push(name);
        }
    }
    for _ in 0..5 {
        let mut name = [0; NAME_LENGTH];
        random.fill(&mut name);
        names.push(name);
    }
    for at in (1..names.len()).rev() {
        names.swap(at, random.below(at + 1));
    }
    names
}

/// A grant word, and a second word with bits that agree with its bits and bits that don't.
fn draw_words(random: &mut Random) -> (u32, u32) {
    let word = draw_word(random);
    let drawn = random.word();
    let second = match random.below(8) {
        0..=2 => 0,
        3 => word,
        4 => !word,
        5 => 1 << random.below(6),
        6 => word & drawn,
        _ => drawn,
    };
    (word, second)
}

fn draw_word(random: &mut Random) -> u32 {
    match random.below(8) {
        0..=2 => u32::MAX,
        3 => 15,
        4 => 16,
        5 => !(1 << random.below(32)),
        6 => random.pick(&[0, 1, 2, 4, 8, 0x8000_0000]),
        _ => random.word(),
    }
}

/// Whether a session of either port is in that phase.
fn has_session(module: &Module, phase: Phase) -> bool {
    Session::all().any(|session| module.phase(session) == phase)
}

/// The credential a claim speaks for; 0 where it speaks for none.
fn claimant(module: &Module, (port, handle): (u32, u32), claim: RawClaim) -> usize {
    let elevation = module.find_elevation(Session::of(port as usize, handle as usize));
    match elevation {
        Some(place) if claim.kind == 1 => module.processes[place].credential,
        _ if claim.credential < CREDENTIALS as u32 => claim.credential as usize,
        _ => 0,
    }
}
