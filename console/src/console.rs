//! Carries commands out on the module that the console holds.

use crate::line::{quoted, visible, AllGrants, Command, Records, DOCUMENT_01};
use crate::replace::Failure;
use crate::write::Written;
use crate::{draw, files, formats, help, read, rescue};
use slavotuk::entries::{self, RawClaim};
use slavotuk::{
    Call, Listing, Module, Refusal, WireCredential, FULL_IMAGE_LENGTH, REQUEST_LENGTH, STATE_LENGTH,
};
use std::io::{self, Write};
use std::path::Path;

/// Why a command was not carried out.
pub enum Trouble {
    /// The line asks for what can't be done. The state is as it was.
    Line(String),
    /// The answer could not be written.
    Output(io::Error),
}

impl From<io::Error> for Trouble {
    fn from(error: io::Error) -> Trouble {
        Trouble::Output(error)
    }
}

impl From<String> for Trouble {
    fn from(wrong: String) -> Trouble {
        Trouble::Line(wrong)
    }
}

impl From<Failure> for Trouble {
    fn from(failure: Failure) -> Trouble {
        Trouble::Line(failure.why)
    }
}

/// What follows a command that was carried out.
pub enum Next {
    Line,
    End,
}

/// The module and the calls that it has answered.
pub struct Console {
    state: [u8; STATE_LENGTH],
    history: History,
}

/// Where the state came from, and each call since then with its answer.
struct History {
    origin: String,
    calls: Vec<(String, String)>,
}

impl History {
    fn since(origin: &str) -> History {
        History {
            origin: visible(origin),
            calls: Vec::new(),
        }
    }

    fn add(&mut self, line: &str, answer: String) {
        self.calls.push((visible(line), answer));
    }

    fn draw(&self, out: &mut impl Write) -> io::Result<()> {
        writeln!(out, "since {}", self.origin)?;
        for (at, (line, answer)) in self.calls.iter().enumerate() {
            writeln!(out, "  {:4}  {line}: {answer}", at + 1)?;
        }
        Ok(())
    }
}

impl Console {
    /// A console with document 01's module.
    pub fn new() -> Console {
        let mut state = [0; STATE_LENGTH];
        make_fresh(&mut state, &DOCUMENT_01);
        Console {
            state,
            history: History::since("the start, with fresh 0=15 1=16"),
        }
    }

    /// Carries out a command and writes its answer. The line is what it was read from.
    pub fn run(
        &mut self,
        command: Command,
        line: &str,
        out: &mut impl Write,
    ) -> Result<Next, Trouble> {
        match command {
            Command::Fresh(grants) => self.fresh(&grants, line, out)?,
            Command::Call(call) => self.call(call, line, out)?,
            Command::Records(records) => self.records(records, line, out)?,
            Command::Show { whole } => draw::module(&self.module()?, whole, out)?,
            Command::Request(wanted) => request(wanted, out)?,
            Command::Read(message) => read::message(&message, out)?,
            Command::Write(written) => write(&written, out)?,
            Command::Save(file) => {
                files::save(&file, &self.state)?;
                writeln!(out, "saved {STATE_LENGTH} bytes")?;
            }
            Command::Load(file) => {
                self.state = files::load(&file)?;
                writeln!(out, "loaded {STATE_LENGTH} bytes")?;
                self.begin_history(line, out)?;
            }
            Command::Image(file) => self.image(&file, line, out)?,
            Command::Restore(file) => self.restore(&file, line, out)?,
            Command::Rescue { from, to } => rescue::rescue(&from, &to, out)?,
            Command::History => self.history.draw(out)?,
            Command::Help(None) => help::overview(out)?,
            Command::Help(Some(name)) => match (help::topic(&name), formats::named(&name)) {
                (Some(topic), _) => help::details(topic, out)?,
                (None, Some(format)) => help::message(format, out)?,
                (None, None) => {
                    return Err(Trouble::Line(format!("help: no command {}", quoted(&name))))
                }
            },
            Command::Quit => return Ok(Next::End),
        }
        Ok(Next::Line)
    }

    /// The module as it can be looked at. Only its calls have written the state, so there is one.
    fn module(&self) -> Result<Module, String> {
        Module::from_bytes(self.state)
            .map_err(|refusal| format!("the state is none: {}", draw::answer(refusal.number())))
    }

    fn begin_history(&mut self, line: &str, out: &mut impl Write) -> io::Result<()> {
        self.history = History::since(line);
        writeln!(out, "a new history begins")
    }

    fn fresh(&mut self, grants: &AllGrants, line: &str, out: &mut impl Write) -> io::Result<()> {
        writeln!(out, "{}", draw::answer(make_fresh(&mut self.state, grants)))?;
        self.begin_history(line, out)
    }

    /// Writes the image to a file, and answers when the disk has it.
    fn image(&mut self, file: &Path, line: &str, out: &mut impl Write) -> Result<(), Trouble> {
        let mut image = [0; FULL_IMAGE_LENGTH];
        let mut length = 0;
        let number = entries::image(&self.state, &mut image, &mut length);
        let answer = draw::answer(number);
        if number != 0 {
            writeln!(out, "{answer}")?;
        } else {
            files::write_image(file, image.get(..length).unwrap_or_default())?;
            writeln!(out, "{answer}\nwritten {length} bytes")?;
        }
        self.history.add(line, answer);
        Ok(())
    }

    /// Makes the module from the image in a file.
    fn restore(&mut self, file: &Path, line: &str, out: &mut impl Write) -> Result<(), Trouble> {
        let image = files::read_image(file)?;
        let number = entries::restore(&mut self.state, &image);
        let answer = draw::answer(number);
        writeln!(out, "{answer}")?;
        if number != 0 {
            writeln!(out, "{}", files::no_image(image.len()))?;
            self.history.add(line, answer);
            return Ok(());
        }
        writeln!(out, "restored from {} bytes", image.len())?;
        self.begin_history(line, out)?;
        Ok(())
    }

    /// Makes a call; a listing is drawn.
    fn call(&mut self, mut call: Call, line: &str, out: &mut impl Write) -> io::Result<()> {
        let number = call.make(&mut self.state);
        let answer = draw::answer(number);
        writeln!(out, "{answer}")?;
        self.history.add(line, answer);
        match call {
            Call::List {
                response, length, ..
            } if number == 0 => {
                let message = response.get(..length).unwrap_or_default();
                draw::dump(message, out)?;
                listed(message, out)
            }
            _ => Ok(()),
        }
    }

    /// Sends the records until one is refused; the answer is the last one's.
    fn records(&mut self, records: Records, line: &str, out: &mut impl Write) -> io::Result<()> {
        let state = &mut self.state;
        let refused = (records.from..=records.to)
            .map(|number| (number, sent(state, &records, number)))
            .find(|(_, answer)| *answer != 0);
        let (last, number) = refused.unwrap_or((records.to, 0));
        let before = u32::from(last - records.from);
        let how_far = match refused {
            Some(_) => format!("number {last} after {before} accepted records"),
            None => format!("numbers {} to {last}, {} records", records.from, before + 1),
        };
        let answer = draw::answer(number);
        writeln!(out, "{answer}\n{how_far}")?;
        self.history.add(line, format!("{answer}, {how_far}"));
        Ok(())
    }
}

fn make_fresh(state: &mut [u8], grants: &AllGrants) -> u32 {
    let made = Module::fresh_in(state, grants);
    made.map_or_else(Refusal::number, |_| 0)
}

fn sent(state: &mut [u8], records: &Records, number: u16) -> u32 {
    let claim = RawClaim::user(records.credential, number);
    entries::record(state, records.port, records.session, claim, records.class)
}

fn request(wanted: u16, out: &mut impl Write) -> io::Result<()> {
    let mut message = [0; REQUEST_LENGTH];
    let number = entries::write_request(&mut message, wanted);
    writeln!(out, "{}", draw::answer(number))?;
    draw::dump(&message, out)?;
    draw::request(WireCredential(wanted), out)
}

fn write(written: &Written, out: &mut impl Write) -> io::Result<()> {
    match written.message() {
        Ok(message) => {
            writeln!(out, "{}", draw::answer(0))?;
            draw::dump(&message, out)
        }
        Err(number) => writeln!(out, "{}\n{}", draw::answer(number), written.asked()),
    }
}

/// Draws what the module has listed.
fn listed(message: &[u8], out: &mut impl Write) -> io::Result<()> {
    match Listing::read(message) {
        Ok(listing) => draw::listing(&listing, out),
        Err(_) => writeln!(out, "code 0e, but no AUTH_PROCESSES"),
    }
}
