//! The steps of order 10, document 01's steps on one port beside the other, and power cycles between two sessions: calls whose numbers are known, and bytes.

use crate::call::{moved, numbers_of, Call};
use crate::protected::{end, list, name_of, record};
use crate::sides::Pair;
use crate::unprotected::{close, continue_saved, drop_elevation, elevate, open, select, start};
use slavotuk::entries::RawClaim;
use slavotuk_model::entries::RawClaim as ModelsClaim;
use slavotuk_model::image::LONGEST;
use slavotuk_model::layout::{self, COUNT_AT, PLACES_AT, PLACE_LENGTH};
use slavotuk_model::module::{Credential, Module, Phase, Process, Session, NAME_LENGTH};
use slavotuk_model::port_steps::{self, Asked, Row};

/// The call of a row.
fn call_of(row: &Row) -> Call {
    let call = match row.asked {
        Asked::Open => open(),
        Asked::Close => close(),
        Asked::Drop => drop_elevation(),
        Asked::Select(version) => select(version),
        Asked::Start(credential, name) => start(credential, name.to_vec()),
        Asked::Continue(credential, name) => continue_saved(credential, name.to_vec()),
        Asked::Elevate(credential, name) => elevate(credential, name.to_vec()),
        Asked::Keep(claim) => end(claim_of(claim), 1),
        Asked::Record(claim, class) => record(claim_of(claim), class),
        Asked::List(claim, wanted, room, _) => list(claim_of(claim), wanted, room),
        Asked::Kill(claim, name) => Call::Kill {
            port: 0,
            session: 0,
            claim: claim_of(claim),
            name: name.to_vec(),
        },
    };
    let [port, session] = row.session;
    moved(call, (port, session))
}

fn claim_of(claim: ModelsClaim) -> RawClaim {
    RawClaim {
        kind: claim.kind,
        credential: claim.credential,
        number: claim.number,
        verdict: claim.verdict,
    }
}

/// Makes the calls of the rows; each is answered as the row says, with the listing that it says.
fn make(pair: &mut Pair, rows: &[Row]) -> Result<(), String> {
    for row in rows {
        let outcome = pair.expect(&call_of(row), row.number);
        let answer = outcome.map_err(|what| format!("step {}: {what}", row.step))?;
        if let Call::List {
            response, length, ..
        } = &answer.made
        {
            if !row.is_listing(&response.as_ref()[..*length]) {
                return Err(format!("step {}: the listing is {answer}", row.step));
            }
        }
    }
    Ok(())
}

/// Order 10's steps, and the states that are written down.
pub fn order_10() -> Result<String, String> {
    let mut pair = Pair::of(&layout::write(&port_steps::two_ports()));
    let steps = port_steps::ON_TWO_PORTS;
    let mut states = 0;
    for rows in (1..=12).map(|step| rows_of(steps, step)) {
        make(&mut pair, &rows)?;
        let step = rows.last().map_or(0, |row| row.step);
        if let Some(module) = port_steps::after_step(step) {
            states += 1;
            if pair.archive.state() != layout::write(&module) {
                return Err(format!("step {step}: another state is right"));
            }
        }
    }
    Ok(format!(
        "order 10's 12 steps: {} calls, {states} states",
        steps.len()
    ))
}

fn rows_of(steps: &[Row], step: u32) -> Vec<Row> {
    let rows = steps.iter().filter(|row| row.step == step);
    rows.copied().collect()
}

/// Document 01's thirteen steps on each port, while processes stand on the other, which has to stay as it was.
pub fn document_01_on_either_port() -> Result<String, String> {
    let mut calls = 0;
    for port in [0, 1] {
        let on_the_port = |rows: &[Row]| -> Vec<Row> {
            let rows = rows.iter();
            rows.map(|row| row.on(port as u32)).collect()
        };
        let begun = port_steps::beside_others(port);
        let mut pair = Pair::of(&layout::write(&begun));
        let worked = on_the_port(port_steps::WORKED);
        make(&mut pair, &worked).map_err(|what| format!("on port {port}: {what}"))?;
        let state = port_steps::before_the_last(pair.archive.state());
        pair = Pair::of(&state.ok_or("the process of step 13 is not there")?);
        let spent = on_the_port(port_steps::SPENT_THERE);
        make(&mut pair, &spent).map_err(|what| format!("on port {port}: {what}"))?;
        let held = pair
            .module()
            .map(|module| port_steps::held_by(module, 1 - port));
        if held != Some(port_steps::held_by(&begun, 1 - port)) {
            return Err(format!("steps on port {port} changed the other port"));
        }
        calls += worked.len() + spent.len();
    }
    Ok(format!(
        "document 01's 13 steps on each port, processes of the same credentials and handles standing on the other: {calls} calls"
    ))
}

/// The process that comes through the power cycle, and the numbers before and after its save.
const NAME: u8 = 41;
const NEXT: u16 = 5;
const SAVED_AT: u16 = 6;

/// A process saved in each session, and taken up in each after a power cycle: the image does not tell where it was saved, all sessions are closed, and the bytes are
/// known.
pub fn power_cycles() -> Result<String, String> {
    let mut cycled = Cycled { calls: 0 };
    for from in Session::all() {
        for (slot, to) in Session::all().enumerate() {
            let outcome = cycled.through(from, to, slot as u8);
            outcome.map_err(|what| format!("saved in {from}, taken up in {to}: {what}"))?;
        }
    }
    Ok(format!(
        "power cycles from each session to each of both ports, with the bytes: {} calls",
        cycled.calls
    ))
}

struct Cycled {
    calls: u64,
}

impl Cycled {
    fn through(&mut self, from: Session, to: Session, slot: u8) -> Result<(), String> {
        let mut pair = Pair::of(&before(from));
        let by = |number| RawClaim::user(1, number);
        self.expect(&mut pair, end(by(NEXT), 1), from, 0)?;
        let image = self.image(&mut pair)?;
        if image != expected_image() {
            return Err(format!("the image is {image:02x?}"));
        }
        self.expect(&mut pair, Call::Restore { image }, from, 0)?;
        check_bytes(&pair, [0; 8], [1, 2, 0, SAVED_AT as u8, 0])?;
        self.expect(&mut pair, open(), to, 0)?;
        self.expect(&mut pair, select(0x10), to, 0)?;
        self.expect(&mut pair, continue_saved(1, name_of(NAME)), to, 0)?;
        let mut phases = [0; 8];
        phases[usize::from(slot)] = 2;
        check_bytes(&pair, phases, [1, 0, slot, SAVED_AT as u8, 0])?;
        self.expect(&mut pair, record(by(NEXT), 4), to, 9)?;
        if from != to {
            self.expect(&mut pair, record(by(SAVED_AT), 4), from, 2)?;
        }
        self.expect(&mut pair, record(by(SAVED_AT), 4), to, 0)?;
        check_bytes(&pair, phases, [1, 0, slot, SAVED_AT as u8 + 1, 0])
    }

    fn expect(
        &mut self,
        pair: &mut Pair,
        call: Call,
        session: Session,
        right: u32,
    ) -> Result<(), String> {
        self.calls += 1;
        let call = moved(call, numbers_of(session));
        pair.expect(&call, right).map(|_| ())
    }

    fn image(&mut self, pair: &mut Pair) -> Result<Vec<u8>, String> {
        self.calls += 1;
        let call = Call::Image {
            image: vec![0xee; LONGEST].into(),
            length: 0,
        };
        match pair.expect(&call, 0)?.made {
            Call::Image { image, length } => Ok(image.as_ref()[..length].to_vec()),
            _ => Err("another call was answered".to_string()),
        }
    }
}

/// All sessions have a version and a process of credential 0; the one that is to be saved is credential 1's.
fn before(from: Session) -> Vec<u8> {
    let mut module = Module::fresh([Credential::with(u32::MAX, 0); 8]);
    module.sessions = [[Phase::OpenWithVersion; 4]; 2];
    let names = (1..).map(|byte| [byte; NAME_LENGTH]);
    let others = Session::all().zip(names);
    module.processes = others
        .map(|(session, name)| Process::user(session, 0, 0, name))
        .collect();
    module
        .processes
        .push(Process::user(from, 1, NEXT, [NAME; NAME_LENGTH]));
    layout::write(&module)
}

/// Eight credentials with all classes, and one row.
fn expected_image() -> Vec<u8> {
    let mut image = vec![0xff, 0, 8, 0, 10, 0, 1, 0, 74, 0];
    image.extend([0xff; 32]);
    image.extend([0; 32]);
    image.extend([1, 0, SAVED_AT as u8, 0]);
    image.extend([NAME; NAME_LENGTH]);
    image
}

/// Whether the sessions and the one process have these bytes.
fn check_bytes(pair: &Pair, phases: [u8; 8], fields: [u8; 5]) -> Result<(), String> {
    let state = pair.archive.state();
    let place = [&fields[..], &[NAME; NAME_LENGTH]].concat();
    let is_right = state[..8] == phases
        && state[COUNT_AT] == 1
        && state[PLACES_AT..PLACES_AT + PLACE_LENGTH] == place;
    match is_right {
        true => Ok(()),
        false => Err(format!(
            "sessions {phases:?} and a place of {fields:?} are right"
        )),
    }
}
