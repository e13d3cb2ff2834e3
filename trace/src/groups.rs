//! The cases of a trace, each compared with the first case of its group while it is read. Of the others nothing is kept but where they differ.

use crate::lines::{Access, Line};
use crate::said::{place_of, Buffer, Case};

/// What the first case of a group did: its loads, and all else in a sequence of its own.
#[derive(Default)]
struct Trace {
    loads: Vec<Access>,
    rest: Vec<Line>,
}

/// The first load in which a case differs from the first of its group; `None` on the side that has no load more.
#[derive(Clone, Debug, PartialEq, Eq)]
struct Difference {
    what: String,
    at: usize,
    here: Option<Access>,
    first: Option<Access>,
}

/// The cases of one name.
pub struct Group {
    name: String,
    first: String,
    trace: Trace,
    cases: usize,
    /// How many cases have other loads than the first.
    differing: usize,
    difference: Option<Difference>,
    /// How many cases differ from the first in instructions or stores.
    rest_differing: usize,
}

/// A case that has begun and not ended: how much of it was read, and where it first differs.
struct Running {
    group: usize,
    is_first: bool,
    what: String,
    loads: usize,
    rest: usize,
    difference: Option<Difference>,
    rest_differs: bool,
}

/// All groups, in the order in which their first cases came.
#[derive(Default)]
pub struct Groups {
    groups: Vec<Group>,
    running: Option<Running>,
}

impl Groups {
    /// Whether a case has begun and not ended.
    pub fn is_running(&self) -> bool {
        self.running.is_some()
    }

    /// A case begins.
    pub fn begin(&mut self, case: Case) {
        let known = self
            .groups
            .iter()
            .position(|group| group.name == case.group);
        let group = known.unwrap_or(self.groups.len());
        if known.is_none() {
            self.groups.push(Group::new(&case));
        }
        self.running = Some(Running {
            group,
            is_first: known.is_none(),
            what: case.what,
            loads: 0,
            rest: 0,
            difference: None,
            rest_differs: false,
        });
    }

    /// A line of the trace; one outside every case is passed over.
    pub fn take(&mut self, line: Line) {
        let Some(running) = &mut self.running else {
            return;
        };
        let first = &mut self.groups[running.group].trace;
        match line {
            Line::Load(load) if running.is_first => first.loads.push(load),
            Line::Load(load) => running.compare_load(load, first),
            rest if running.is_first => first.rest.push(rest),
            rest => running.compare_rest(rest, first),
        }
    }

    /// The case ends.
    pub fn end(&mut self) {
        if let Some(running) = self.running.take() {
            self.groups[running.group].count(running);
        }
    }

    /// The groups.
    pub fn groups(&self) -> &[Group] {
        &self.groups
    }
}

impl Running {
    fn compare_load(&mut self, load: Access, first: &Trace) {
        self.compare(Some(load), first.loads.get(self.loads).copied());
        self.loads += 1;
    }

    fn compare(&mut self, here: Option<Access>, first: Option<Access>) {
        if self.difference.is_none() && here != first {
            self.difference = Some(Difference {
                what: self.what.clone(),
                at: self.loads,
                here,
                first,
            });
        }
    }

    fn compare_rest(&mut self, line: Line, first: &Trace) {
        self.rest_differs |= first.rest.get(self.rest) != Some(&line);
        self.rest += 1;
    }

    /// Where the first case goes on, this one differs too.
    fn compare_ends(&mut self, first: &Trace) {
        self.compare(None, first.loads.get(self.loads).copied());
        self.rest_differs |= self.rest < first.rest.len();
    }
}

impl Group {
    fn new(case: &Case) -> Group {
        Group {
            name: case.group.clone(),
            first: case.what.clone(),
            trace: Trace::default(),
            cases: 0,
            differing: 0,
            difference: None,
            rest_differing: 0,
        }
    }

    fn count(&mut self, mut case: Running) {
        self.cases += 1;
        if case.is_first {
            return;
        }
        case.compare_ends(&self.trace);
        self.differing += usize::from(case.difference.is_some());
        self.rest_differing += usize::from(case.rest_differs);
        self.difference = self.difference.take().or(case.difference);
    }

    /// Whether there was something to compare, and all cases had the same loads.
    pub fn is_even(&self) -> bool {
        self.cases > 1 && self.differing == 0
    }

    /// What was compared and what came of it, in a line.
    pub fn told(&self, buffers: &[Buffer]) -> String {
        let Group { name, cases, .. } = self;
        match &self.difference {
            None if *cases < 2 => {
                format!("FAILED: {name}: one case alone, and nothing to compare it with")
            }
            None => format!(
                "ok: {name}: {cases} cases, {} loads each the same ({} instructions){}",
                self.trace.loads.len(),
                self.instructions(),
                self.told_rest()
            ),
            Some(difference) => format!(
                "FAILED: {name}: {} of {cases} cases have other loads than the first ({}); {}",
                self.differing,
                self.first,
                difference.told(buffers)
            ),
        }
    }

    fn instructions(&self) -> usize {
        let is_instruction = |line: &&Line| matches!(line, Line::Instruction(_));
        self.trace.rest.iter().filter(is_instruction).count()
    }

    fn told_rest(&self) -> String {
        match self.rest_differing {
            0 => "; instructions and stores the same too".to_string(),
            count => format!("; instructions or stores differ in {count}"),
        }
    }
}

impl Difference {
    fn told(&self, buffers: &[Buffer]) -> String {
        let told = |load: Option<Access>| match load {
            Some(load) => format!("{load}, {}", place_of(load, buffers)),
            None => "none".to_string(),
        };
        format!(
            "load {} is the first that differs: of {} it is {}; of the first case {}",
            self.at,
            self.what,
            told(self.here),
            told(self.first)
        )
    }
}
