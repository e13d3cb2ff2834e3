//! What calls on one port met of the other, in random sequences.

use crate::call::{elevated_claim, session_of, user_claim, Call};
use crate::claim::passed;
use slavotuk_model::module::{Phase, Process, Session, PORTS, SESSIONS};
use slavotuk_model::Module;

/// What may be met. A session's twin has its handle, on the other port.
#[derive(Clone, Copy)]
enum Met {
    NameTaken,
    Full,
    StartedBeside,
    ElevatedBeside,
    PassedBeside,
    ClosedBeside,
    ClaimOfTheTwin,
    ElevationOfTheTwin,
    VersionOfTheTwin,
    TwinIsOpen,
    Listed,
    Killed,
    BothClosed,
    HandleOfBothPorts,
    PortOfOneBit,
}

const KINDS: usize = 15;

/// Each in words.
const WORDS: [&str; KINDS] = [
    "a name of the other port is taken",
    "the table is full with processes of both",
    "a start beside the same credential's process in the twin",
    "an elevation beside the twin's",
    "a claim passed beside the same credential's process in the twin, at another number",
    "a close of one of two sessions with processes",
    "6 for a user claim of the twin",
    "6 for an elevated claim of the twin, or a drop",
    "3 beside a twin with a version",
    "2 beside an open twin",
    "a listing of the other port's processes",
    "a kill of the other port's process",
    "a fresh module or a restore closes sessions of both ports",
    "1 for a handle counted over both ports",
    "1 for a port that is right in its lowest bit",
];

/// How often it was.
#[derive(Clone, Debug, Default)]
pub struct Across {
    met: [u64; KINDS],
}

impl Across {
    /// Takes note of a call that was answered with this number.
    pub fn note(&mut self, call: &Call, number: u32, before: &Module) {
        match session_of(call) {
            Some(session) if session.port < PORTS && session.handle < SESSIONS => {
                self.note_session(call, number, before, session)
            }
            Some(session) => {
                let counted_over = session.port == 0 && session.handle < PORTS * SESSIONS;
                let one_bit = session.port < 2 * PORTS && session.handle < SESSIONS;
                self.count(Met::HandleOfBothPorts, number == 1 && counted_over);
                self.count(Met::PortOfOneBit, number == 1 && one_bit);
            }
            None => {
                let made_anew = matches!(call, Call::Fresh { .. } | Call::Restore { .. });
                let is_open = |phase: &Phase| *phase != Phase::Closed;
                let both = before.sessions.iter().all(|port| port.iter().any(is_open));
                self.count(Met::BothClosed, made_anew && number == 0 && both);
            }
        }
    }

    fn note_session(&mut self, call: &Call, number: u32, before: &Module, session: Session) {
        let twin = Session::of(1 - session.port, session.handle);
        let of_port = |port| {
            let is_there = move |process: &&Process| {
                let its = process.kind.session();
                its.is_some_and(|its| its.port == port)
            };
            before.processes.iter().filter(is_there)
        };
        let others: Vec<&Process> = of_port(twin.port).collect();
        let is_named = |name: &[u8]| others.iter().any(|process| process.name == name);
        let is_used = |session| {
            let mut processes = before.processes.iter();
            processes.any(|process| process.kind.session() == Some(session))
        };
        let twins = before.find_elevation(twin).is_some();
        match (call, number) {
            (Call::Start { name, .. } | Call::Elevate { name, .. }, 12) => {
                self.count(Met::NameTaken, is_named(name))
            }
            (Call::Start { .. } | Call::Elevate { .. }, 11) => {
                let own = of_port(session.port).next();
                self.count(Met::Full, own.is_some() && !others.is_empty())
            }
            (Call::Start { credential, .. }, 0) => {
                let beside = before.find_active_user(twin, *credential as usize);
                self.count(Met::StartedBeside, beside.is_some())
            }
            (Call::Elevate { .. }, 0) => self.count(Met::ElevatedBeside, twins),
            (Call::Close { .. }, 0) => {
                self.count(Met::ClosedBeside, is_used(session) && is_used(twin))
            }
            (Call::Drop { .. }, 6) => self.count(Met::ElevationOfTheTwin, twins),
            (Call::List { wanted, .. }, 0) => {
                let is_wanted =
                    |process: &&Process| *wanted == 65_535 || process.credential as u32 == *wanted;
                self.count(Met::Listed, others.iter().any(is_wanted))
            }
            (Call::Kill { name, .. }, 0) => self.count(Met::Killed, is_named(name)),
            (_, 2) => self.count(Met::TwinIsOpen, before.phase(twin) != Phase::Closed),
            (_, 3) => {
                let version = before.phase(twin) == Phase::OpenWithVersion;
                self.count(Met::VersionOfTheTwin, version)
            }
            _ => {}
        }
        self.note_claim(call, number, before, twin);
    }

    fn note_claim(&mut self, call: &Call, number: u32, before: &Module, twin: Session) {
        if elevated_claim(call).is_some() && number == 6 {
            self.count(
                Met::ElevationOfTheTwin,
                before.find_elevation(twin).is_some(),
            );
        }
        let Some((_, credential, claimed)) = user_claim(call) else {
            return;
        };
        let Some((_, next)) = before.find_active_user(twin, credential as usize) else {
            return;
        };
        match passed(call, number, before) {
            Some(_) => self.count(Met::PassedBeside, next != claimed),
            None => self.count(Met::ClaimOfTheTwin, number == 6),
        }
    }

    fn count(&mut self, met: Met, is_met: bool) {
        self.met[met as usize] += u64::from(is_met);
    }

    /// Adds what another run counted.
    pub fn add(&mut self, other: &Across) {
        for (own, others) in self.met.iter_mut().zip(other.met) {
            *own += others;
        }
    }

    /// Whether each came up at least so many times.
    pub fn judge(&self, least: u64) -> Result<String, String> {
        let each: Vec<String> = (WORDS.iter().zip(self.met))
            .map(|(words, times)| format!("{words} {times} times"))
            .collect();
        let line = format!("between the ports: {}", each.join(", "));
        match self.met.iter().all(|times| *times >= least) {
            true => Ok(line),
            false => Err(format!("{line}; at least {least} of each are wanted")),
        }
    }
}

#[cfg(test)]
mod tests {
    use super::*;
    use slavotuk_model::module::Credential;

    #[test]
    fn the_other_ports_name_is_noted_and_the_own_is_not() {
        let mut module = Module::fresh([Credential::with(0, 0); 8]);
        module.sessions = [[Phase::OpenWithVersion; SESSIONS]; PORTS];
        module
            .processes
            .push(Process::user(Session::of(1, 2), 0, 0, [1; 48]));
        let mut across = Across::default();
        for port in [0, 1] {
            let call = Call::Start {
                port,
                session: 0,
                credential: 0,
                name: vec![1; 48],
            };
            across.note(&call, 12, &module);
        }
        let mut expected = [0; KINDS];
        expected[Met::NameTaken as usize] = 1;
        assert_eq!(across.met, expected);
        assert!(across.judge(1).is_err());
    }

    #[test]
    fn wrong_numbers_are_told_apart() {
        let module = Module::fresh([Credential::UNPROVISIONED; 8]);
        let mut across = Across::default();
        for (port, session) in [(0, 4), (0, 8), (1, 4), (2, 3), (3, 4), (4, 0)] {
            across.note(&Call::Open { port, session }, 1, &module);
        }
        let counts =
            [Met::HandleOfBothPorts, Met::PortOfOneBit].map(|met| across.met[met as usize]);
        assert_eq!(counts, [1, 1]);
        assert_eq!(across.met.iter().sum::<u64>(), 2);
    }
}
