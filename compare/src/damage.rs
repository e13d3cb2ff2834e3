//! Slices that hold no state, or another one: damaged bytes, wrong lengths, and what a fresh module is made of.

use crate::call::{Answer, Bytes, Call, STATE_ENTRIES};
use crate::depth::Depth;
use crate::generate::Generator;
use crate::random::Random;
use crate::report::{Report, Singles};
use crate::sequence::{run, Plan};
use slavotuk_model::layout::{self, STATE_LENGTH};
use slavotuk_model::module::{Credential, Kind, Phase, Process, Session};
use slavotuk_model::module::{CREDENTIALS, NAME_LENGTH, PLACES, PORTS, SESSIONS};
use slavotuk_model::Module;

/// How many states of twelve processes are damaged, beside the plain ones.
const DEEP_STATES: usize = 4;
const PLAIN_STATES: usize = 4;

/// Sequences that are drawn to reach them.
const DRAWN: usize = 2_000;

/// Every byte of several states at each of 256 values, every length, pairs of bytes, random bytes.
pub fn test(seed: u64, report: &mut Report) {
    let mut random = Random::new(seed);
    let states = states(&mut random);
    if states.len() < PLAIN_STATES + DEEP_STATES {
        let reached = states.len() - PLAIN_STATES;
        report.judge(Err(format!(
            "{reached} of {DEEP_STATES} states of twelve processes were reached"
        )));
    }
    for (name, state) in &states {
        report.judge(every_byte(name, state, &mut random));
    }
    report.judge(saved_numbers(&states, &mut random));
    report.judge(every_length(&states, &mut random));
    report.judge(pairs_of_bytes(&states, 200_000, &mut random));
    report.judge(random_bytes(&states, &mut random));
}

/// Some random damage to a state.
pub fn soak(state: &[u8], random: &mut Random) -> Result<u64, String> {
    let mut tried = Tried::of(state, random);
    for _ in 0..500 {
        let mut damaged = state.to_vec();
        damage_two(&mut damaged, random);
        tried.slice(&damaged)?;
    }
    Ok(tried.singles.calls)
}

fn states(random: &mut Random) -> Vec<(String, Vec<u8>)> {
    let fresh = Module::fresh([1, 2, 3, 4, 5, 6, 7, 8].map(|c| Credential {
        provisioned: c % 3 != 0,
        word: 0x0102_0304 * c,
        second: 0x0807_0605 * c,
    }));
    let mut states = vec![
        ("all zero".to_string(), vec![0; STATE_LENGTH]),
        ("fresh".to_string(), layout::write(&fresh)),
        ("example of docs/STATE.md".to_string(), layout::example()),
        ("the same on both ports".to_string(), alike_on_both_ports()),
    ];
    let reached = (0..DRAWN).filter_map(|_| deep_state(random.next()));
    for (at, module) in reached.take(DEEP_STATES).enumerate() {
        let name = format!("twelve processes, state {}", at + 1);
        states.push((name, layout::write(&module)));
    }
    states
}

/// Every session has a version and a user process of one credential, and those with handle 0 an elevation: where the slot of one becomes another's, two are rivals.
fn alike_on_both_ports() -> Vec<u8> {
    let mut module = Module::fresh([Credential::with(0x0f0f_0f0f, 0x3333_3333); CREDENTIALS]);
    module.sessions = [[Phase::OpenWithVersion; SESSIONS]; PORTS];
    let mut names = (1..).map(|byte| [byte; NAME_LENGTH]);
    let users = Session::all().zip(names.by_ref());
    module.processes = users
        .map(|(session, name)| Process::user(session, 5, 0x0102, name))
        .collect();
    let elevated = Session::all().filter(|session| session.handle == 0);
    let elevations = elevated.zip(names.by_ref());
    module
        .processes
        .extend(elevations.map(|(session, name)| Process::elevation(session, 6, name)));
    module
        .processes
        .extend(names.take(1).map(|name| Process::saved(5, 0x0304, name)));
    layout::write(&module)
}

/// The state that the seed's sequence ends in, if it has twelve processes of all three types, active ones on both ports, and second words.
fn deep_state(seed: u64) -> Option<Module> {
    let plan = Plan {
        calls: 300,
        replays: false,
    };
    let pair = run(seed, plan, &mut Depth::default()).ok()?;
    pair.module().filter(|module| is_deep(module)).cloned()
}

fn is_deep(module: &Module) -> bool {
    let of_type = |number| {
        module
            .processes
            .iter()
            .any(|process| process.kind.type_number() == number)
    };
    let counted = module.processes.iter().any(|process| match process.kind {
        Kind::ActiveUser { next, .. } | Kind::SavedUser { next } => next > 0,
        Kind::ActiveElevation { .. } => false,
    });
    let marked = module.credentials.iter().any(|held| held.second != 0);
    let on_port = |port| {
        let mut sessions = module
            .processes
            .iter()
            .filter_map(|process| process.kind.session());
        sessions.any(|session| session.port == port)
    };
    module.processes.len() == PLACES
        && (0..3).all(of_type)
        && (0..PORTS).all(on_port)
        && counted
        && marked
}

/// The trial of slices made from one state.
struct Tried {
    singles: Singles,
    generator: Generator,
    module: Option<Module>,
    /// How many of the slices held a state.
    held: u64,
}

impl Tried {
    fn of(state: &[u8], random: &mut Random) -> Tried {
        Tried {
            singles: Singles::default(),
            generator: Generator::new(random.next()),
            module: layout::read(state),
            held: 0,
        }
    }

    /// A slice is asked whether it holds a state, and goes through a call that fits the state it was made from.
    fn slice(&mut self, slice: &[u8]) -> Result<(), String> {
        let told = self.call(slice, &Call::Holds {})?.number == 0;
        let held = layout::read(slice).is_some();
        if told != held {
            return Err(format!("told {told}, held {held}: {}", Bytes(slice)));
        }
        self.held += u64::from(held);
        let fitting = self.fitting_call();
        self.call(slice, &fitting).map(|_| ())
    }

    fn call(&mut self, slice: &[u8], call: &Call) -> Result<Answer, String> {
        let answered = self.singles.on(slice, call);
        answered.map_err(|what| format!("{what}; lent {}", Bytes(slice)))
    }

    fn fitting_call(&mut self) -> Call {
        loop {
            let call = self.generator.next(self.module.as_ref());
            if call.entry() < STATE_ENTRIES {
                return call;
            }
        }
    }
}

fn every_byte(name: &str, state: &[u8], random: &mut Random) -> Result<String, String> {
    let mut tried = Tried::of(state, random);
    for at in 0..state.len() {
        let mut damaged = state.to_vec();
        for value in 0..=255 {
            damaged[at] = value;
            let outcome = tried.slice(&damaged);
            outcome.map_err(|what| format!("byte {at} of '{name}' at {value:#04x}: {what}"))?;
        }
    }
    let (calls, held) = (tried.singles.calls, tried.held);
    Ok(format!(
        "every byte of '{name}' at every value: {held} of {} slices hold a state, {calls} calls",
        256 * state.len()
    ))
}

/// A user process of each place made a saved one, at number 0 and some others, the first at all: at 0 there is no state, since a save has counted one.
fn saved_numbers(states: &[(String, Vec<u8>)], random: &mut Random) -> Result<String, String> {
    let (mut places, mut slices, mut held) = (0, 0, 0);
    for (name, state) in states {
        let mut tried = Tried::of(state, random);
        for begin in user_places(state) {
            let mut saved = state.clone();
            saved[begin + 1..begin + 3].copy_from_slice(&[2, 0]);
            let most = if places == 0 { u16::MAX } else { 256 };
            for number in 0..=most {
                saved[begin + 3..begin + 5].copy_from_slice(&number.to_le_bytes());
                let outcome = tried.slice(&saved);
                outcome.map_err(|what| {
                    format!("a saved process of '{name}' at number {number}: {what}")
                })?;
                slices += 1;
            }
            places += 1;
        }
        held += tried.held;
    }
    let line = format!(
        "saved processes of {places} places at numbers from 0: {held} of {slices} slices hold a state"
    );
    match slices - held == places && places > 0 {
        true => Ok(line),
        false => Err(format!("{line}; each place at 0 holds none")),
    }
}

/// Where the places of user processes begin.
fn user_places(state: &[u8]) -> Vec<usize> {
    (0..usize::from(state[layout::COUNT_AT]))
        .map(|place| layout::PLACES_AT + layout::PLACE_LENGTH * place)
        .filter(|begin| state[begin + 1] != 1)
        .collect()
}

fn every_length(states: &[(String, Vec<u8>)], random: &mut Random) -> Result<String, String> {
    let mut calls = 0;
    for (name, state) in states {
        let mut tried = Tried::of(state, random);
        for length in 0..=2 * STATE_LENGTH {
            let mut zeros = state.clone();
            zeros.resize(length, 0);
            let mut drawn = [state.clone(), random.bytes(STATE_LENGTH)].concat();
            drawn.truncate(length);
            for slice in [zeros, drawn] {
                let fresh = tried.generator.next(None);
                let outcome = tried
                    .slice(&slice)
                    .and_then(|()| tried.call(&slice, &fresh));
                outcome.map_err(|what| format!("'{name}' at length {length}: {what}"))?;
            }
        }
        if tried.held != 2 {
            return Err(format!("'{name}': {} lengths hold a state", tried.held));
        }
        calls += tried.singles.calls;
    }
    let longest = 2 * STATE_LENGTH;
    Ok(format!(
        "every length from 0 to {longest} of {} states, with zeros and random bytes: {calls} calls",
        states.len()
    ))
}

fn pairs_of_bytes(
    states: &[(String, Vec<u8>)],
    times: usize,
    random: &mut Random,
) -> Result<String, String> {
    let (mut calls, mut held) = (0, 0);
    for (name, state) in states {
        let mut tried = Tried::of(state, random);
        for _ in 0..times / states.len() {
            let mut damaged = state.clone();
            damage_two(&mut damaged, random);
            let outcome = tried.slice(&damaged);
            outcome.map_err(|what| format!("two bytes of '{name}': {what}"))?;
        }
        calls += tried.singles.calls;
        held += tried.held;
    }
    Ok(format!(
        "{times} times two bytes of a state changed: {held} slices hold a state, {calls} calls"
    ))
}

/// Changes two bytes. Fields are changed more often than names, and mostly to small values, so that the slice may hold a state still.
fn damage_two(state: &mut [u8], random: &mut Random) {
    for _ in 0..2 {
        let field = match random.below(3) {
            0 => random.below(layout::PLACES_AT),
            1 => layout::PLACES_AT + layout::PLACE_LENGTH * random.below(PLACES) + random.below(6),
            _ => random.below(state.len()),
        };
        state[field] = match random.percent(70) {
            true => random.below(13) as u8,
            false => random.word() as u8,
        };
    }
}

fn random_bytes(states: &[(String, Vec<u8>)], random: &mut Random) -> Result<String, String> {
    let mut tried = Tried::of(&states[states.len() - 1].1, random);
    for _ in 0..20_000 {
        let small = random.percent(50);
        let mut slice = random.bytes(STATE_LENGTH);
        if small {
            slice.iter_mut().for_each(|byte| *byte &= 1);
        }
        tried.slice(&slice)?;
        let fresh = tried.generator.next(None);
        tried.call(&slice, &fresh)?;
    }
    let calls = tried.singles.calls;
    Ok(format!("20000 slices of random bytes: {calls} calls"))
}

/// Every flag's value at each place, and every length of the four slices.
pub fn test_fresh(seed: u64, report: &mut Report) {
    let mut random = Random::new(seed);
    report.judge(fresh_flags(&mut random));
    report.judge(fresh_lengths(&mut random));
    report.judge(fresh_state_lengths(&mut random));
}

fn fresh_flags(random: &mut Random) -> Result<String, String> {
    let mut singles = Singles::default();
    let mut accepted = 0;
    for at in 0..CREDENTIALS {
        for value in 0..=255 {
            let mut provisioned: Vec<u8> = random.bytes(CREDENTIALS);
            provisioned.iter_mut().for_each(|flag| *flag &= 1);
            provisioned[at] = value;
            let answer = singles.on(&random.bytes(STATE_LENGTH), &fresh(provisioned, random))?;
            accepted += u64::from(answer.number == 0);
        }
    }
    match accepted {
        16 => Ok(format!(
            "fresh, every flag's value at each of 8 places: {} calls, 16 accepted",
            singles.calls
        )),
        _ => Err(format!("fresh accepted {accepted} flags, 16 are good")),
    }
}

fn fresh_lengths(random: &mut Random) -> Result<String, String> {
    let mut singles = Singles::default();
    let mut accepted = 0;
    for flags in 0..=10 {
        for length in 0..=10 {
            for second_length in 0..=10 {
                let call = Call::Fresh {
                    provisioned: vec![1; flags],
                    words: words(length, random),
                    seconds: words(second_length, random),
                };
                let answer = singles.on(&random.bytes(STATE_LENGTH), &call)?;
                accepted += u64::from(answer.number == 0);
            }
        }
    }
    match accepted {
        1 => Ok(format!(
            "fresh, flags, words and second words of 0 to 10 each: {} calls, 1 accepted",
            singles.calls
        )),
        _ => Err(format!(
            "fresh accepted {accepted} of the lengths, 1 is good"
        )),
    }
}

fn fresh_state_lengths(random: &mut Random) -> Result<String, String> {
    let mut singles = Singles::default();
    let mut accepted = 0;
    for length in 0..=2 * STATE_LENGTH {
        let call = fresh(vec![1; CREDENTIALS], random);
        let answer = singles.on(&random.bytes(length), &call)?;
        accepted += u64::from(answer.number == 0);
    }
    match accepted {
        1 => Ok(format!(
            "fresh, a state's slice of 0 to {}: {} calls, 1 accepted",
            2 * STATE_LENGTH,
            singles.calls
        )),
        _ => Err(format!("fresh accepted {accepted} lengths, 1 is good")),
    }
}

fn fresh(provisioned: Vec<u8>, random: &mut Random) -> Call {
    Call::Fresh {
        provisioned,
        words: words(CREDENTIALS, random),
        seconds: words(CREDENTIALS, random),
    }
}

fn words(count: usize, random: &mut Random) -> Vec<u32> {
    (0..count).map(|_| random.word()).collect()
}
