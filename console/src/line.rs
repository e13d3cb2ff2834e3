//! Reads a line into a command.

use crate::write::{Given, Written};
use crate::{bytes, formats, help};
use slavotuk::entries::RawClaim;
use slavotuk::{Call, Credential, Grants, FULL_LISTING_LENGTH, NAME_LENGTH};
use std::path::PathBuf;

/// The longest buffer that a listing is lent here.
pub const LONGEST_ROOM: u32 = 65536;

/// What the credentials of a fresh module are granted.
pub type AllGrants = [Grants; Credential::COUNT];

const NOBODY: AllGrants = [Grants::UNPROVISIONED; Credential::COUNT];

/// Document 01's module: credentials 0 (word 15) and 1 (word 16).
pub const DOCUMENT_01: AllGrants = {
    let mut grants = NOBODY;
    grants[0] = Grants::of_word(15);
    grants[1] = Grants::of_word(16);
    grants
};

/// What a line asks for.
#[derive(Debug, PartialEq)]
pub enum Command {
    /// A fresh module.
    Fresh(AllGrants),
    /// A call of the module.
    Call(Call),
    /// A series of records.
    Records(Records),
    /// What the module holds, with whole names or shortened ones.
    Show { whole: bool },
    /// GET_AUTH_PROCESSES with this credential.
    Request(u16),
    /// A message to be decoded.
    Read(Vec<u8>),
    /// A message to be written.
    Write(Written),
    /// The state into a file.
    Save(PathBuf),
    /// The state from a file.
    Load(PathBuf),
    /// The image into a file.
    Image(PathBuf),
    /// The module from the image in a file.
    Restore(PathBuf),
    /// What can be rescued of the image in a file into a file.
    Rescue { from: PathBuf, to: PathBuf },
    /// The calls so far.
    History,
    /// Everything in short, or one topic.
    Help(Option<String>),
    /// The end.
    Quit,
}

/// A series of records under a user claim with the verdict yes.
#[derive(Debug, PartialEq)]
pub struct Records {
    pub port: u32,
    pub session: u32,
    pub credential: u32,
    pub from: u16,
    pub to: u16,
    pub class: u32,
}

/// Text for a message: control characters can't reach the terminal, and it is cut where it is long.
pub fn quoted(text: &str) -> String {
    const LONGEST: usize = 40;
    let start: String = text.chars().take(LONGEST).collect();
    let cut = if start.len() < text.len() { ".." } else { "" };
    format!("'{}{cut}'", visible(&start))
}

/// The text with its control characters, and others that can't be seen, escaped.
pub fn visible(text: &str) -> String {
    let escape = |c: char| match c {
        '"' | '\'' | '\\' => c.to_string(),
        c => c.escape_debug().to_string(),
    };
    text.chars().map(escape).collect()
}

/// A line's command: `None` where it is blank or a comment, and what is wrong where it is bad.
pub fn read(line: &str) -> Result<Option<Command>, String> {
    let text = line.trim();
    if text.is_empty() || text.starts_with('#') {
        return Ok(None);
    }
    let (name, rest) = match text.split_once(char::is_whitespace) {
        Some((name, rest)) => (name, rest),
        None => (text, ""),
    };
    let Some(topic) = help::command(name) else {
        return Err(format!("no command {}; 'help' has them all", quoted(name)));
    };
    let with_form = |wrong| format!("{name}: {wrong}; the form is: {}", topic.form);
    let mut words = Reader { rest };
    let command = command(name, &mut words).map_err(with_form)?;
    words.end().map_err(with_form)?;
    Ok(Some(command))
}

/// The command of this name, which is one of those that have a help topic.
fn command(name: &str, words: &mut Reader) -> Result<Command, String> {
    Ok(match name {
        "fresh" => Command::Fresh(words.grants()?),
        "records" => Command::Records(words.records()?),
        "show" => Command::Show {
            whole: words.whole()?,
        },
        "request" => Command::Request(words.wanted16()?),
        "read" => Command::Read(words.message()?),
        "write" => Command::Write(words.written()?),
        "save" => Command::Save(words.file("file")?),
        "load" => Command::Load(words.file("file")?),
        "image" => Command::Image(words.file("file")?),
        "restore" => Command::Restore(words.file("file")?),
        "rescue" => Command::Rescue {
            from: words.file("from")?,
            to: words.file("to")?,
        },
        "history" => Command::History,
        "help" => Command::Help(words.topic()?),
        "quit" => Command::Quit,
        _ => Command::Call(call(name, words)?),
    })
}

/// Reads a parameter of a call, by its name: a number of that name where nothing else is said.
macro_rules! parameter {
    ($words:ident name) => {
        $words.name()?
    };
    ($words:ident claim) => {
        $words.claim()?
    };
    ($words:ident number) => {
        $words.number16("number")?
    };
    ($words:ident verdict) => {
        $words.verdict()?
    };
    ($words:ident keep) => {
        $words.flag("keep", "remove")?
    };
    ($words:ident wanted) => {
        $words.wanted()?
    };
    ($words:ident response) => {
        vec![0; $words.room()?]
    };
    ($words:ident length) => {
        0
    };
    ($words:ident target) => {
        $words.number("credential")?
    };
    ($words:ident $number:ident) => {
        $words.number(stringify!($number))?
    };
}

macro_rules! call {
    (
        module $module:tt
        sessions { $($(#[$doc:meta])* $symbol:ident $function:ident $case:ident [$($state:tt)+] (port: u32) (session: u32) $(($name:ident: $($type:tt)+))*;)* }
        power $power:tt
        listing $listing:tt
    ) => {
        /// The call of this name, its parameters read in their order. Each begins with its session, which is a port too.
        fn call(name: &str, words: &mut Reader) -> Result<Call, String> {
            match format!("slavotuk_{}", name.replace('-', "_")).as_str() {
                $(stringify!($symbol) => {
                    let (port, session) = words.session()?;
                    Ok(Call::$case { port, session, $($name: parameter!(words $name)),* })
                })*
                _ => Err(format!("{} is no call", quoted(name))),
            }
        }
    };
}

slavotuk::calls!(call);

/// A word of a line; one between quotation marks may have blanks in it.
#[derive(Clone, Copy)]
struct Word<'a> {
    text: &'a str,
    is_quoted: bool,
}

/// The words of a line, taken one after another from what is left of it.
struct Reader<'a> {
    rest: &'a str,
}

/// The first word of a text that begins with one, and what follows it.
fn first_word(text: &str) -> Result<(Word<'_>, &str), String> {
    let Some(inside) = text.strip_prefix('"') else {
        let end = text.find(char::is_whitespace).unwrap_or(text.len());
        let (text, after) = text.split_at(end);
        let is_quoted = false;
        return Ok((Word { text, is_quoted }, after));
    };
    let closed = inside.split_once('"');
    let (text, after) = closed.ok_or("a quotation mark is not closed")?;
    if after.starts_with(|c: char| !c.is_whitespace()) {
        return Err("a blank has to follow a closing quotation mark".into());
    }
    let is_quoted = true;
    Ok((Word { text, is_quoted }, after))
}

/// A number of 32 bits.
fn number_of(text: &str) -> Result<u32, String> {
    number_of_bits(text, 32).map(|number| number as u32)
}

/// A number of so many bits, at most 64, decimal or hexadecimal after 0x.
pub fn number_of_bits(text: &str, bits: u32) -> Result<u64, String> {
    let (digits, radix) = match text.strip_prefix("0x") {
        Some(digits) => (digits, 16),
        None => (text, 10),
    };
    if digits.is_empty() || !digits.chars().all(|c| c.is_digit(radix)) {
        return Err(format!("{} is no number", quoted(text)));
    }
    u64::from_str_radix(digits, radix)
        .ok()
        .filter(|number| number.leading_zeros() >= 64 - bits)
        .ok_or_else(|| format!("{} is over {bits} bits", quoted(text)))
}

fn narrow(number: u32) -> Result<u16, String> {
    u16::try_from(number).map_err(|_| format!("{number} is over 16 bits"))
}

/// Says of which part of the line something is wrong.
fn about(part: &str) -> impl Fn(String) -> String + '_ {
    move |wrong| format!("{part}: {wrong}")
}

impl<'a> Reader<'a> {
    /// Whether no word is left.
    fn is_done(&self) -> bool {
        self.rest.trim_start().is_empty()
    }

    fn next(&mut self, part: &str) -> Result<Word<'a>, String> {
        if self.is_done() {
            return Err(format!("{part} is missing"));
        }
        let (word, rest) = first_word(self.rest.trim_start())?;
        self.rest = rest;
        Ok(word)
    }

    /// The next word, which stands without quotation marks.
    fn plain(&mut self, part: &str) -> Result<&'a str, String> {
        let word = self.next(part)?;
        if word.is_quoted {
            return Err(format!("{part} stands without quotation marks"));
        }
        Ok(word.text)
    }

    fn end(&mut self) -> Result<(), String> {
        if self.is_done() {
            return Ok(());
        }
        let word = self.next("the end")?;
        Err(format!("{} is too much", quoted(word.text)))
    }

    fn number(&mut self, part: &str) -> Result<u32, String> {
        number_of(self.plain(part)?).map_err(about(part))
    }

    /// A port and a session of it, as PORT.SESSION or as SESSION, which is port 0's: document 01 knows no other port.
    fn session(&mut self) -> Result<(u32, u32), String> {
        let text = self.plain("session")?;
        let (port, session) = text.split_once('.').unwrap_or(("0", text));
        let port = number_of(port).map_err(about("port"))?;
        let session = number_of(session).map_err(about("session"))?;
        Ok((port, session))
    }

    fn number16(&mut self, part: &str) -> Result<u16, String> {
        narrow(self.number(part)?).map_err(about(part))
    }

    /// One of two words, or a number as it is: the module answers flags that are neither 0 nor 1.
    fn flag(&mut self, one: &str, zero: &str) -> Result<u32, String> {
        let part = format!("{one} or {zero}");
        let text = self.plain(&part)?;
        if text == one {
            return Ok(1);
        }
        if text == zero {
            return Ok(0);
        }
        number_of(text).map_err(|_| format!("{} is neither {one} nor {zero}", quoted(text)))
    }

    fn verdict(&mut self) -> Result<u32, String> {
        self.flag("yes", "no")
    }

    fn claim(&mut self) -> Result<RawClaim, String> {
        let kind = match self.plain("claim")? {
            "elevated" => return Ok(RawClaim::ELEVATED),
            "user" => 0,
            "kind" => self.number("kind")?,
            other => {
                return Err(format!(
                    "claim: {} is neither user nor elevated",
                    quoted(other)
                ))
            }
        };
        Ok(RawClaim {
            kind,
            credential: self.number("credential")?,
            number: self.number16("number")?,
            verdict: self.verdict()?,
        })
    }

    fn wanted(&mut self) -> Result<u32, String> {
        match self.plain("wanted")? {
            "all" => Ok(65535),
            text => number_of(text).map_err(about("wanted")),
        }
    }

    fn wanted16(&mut self) -> Result<u16, String> {
        narrow(self.wanted()?).map_err(about("wanted"))
    }

    fn room(&mut self) -> Result<usize, String> {
        if self.is_done() {
            return Ok(FULL_LISTING_LENGTH);
        }
        let room = self.number("room")?;
        if room > LONGEST_ROOM {
            return Err(format!(
                "room: at most {LONGEST_ROOM} bytes can be lent here"
            ));
        }
        Ok(room as usize)
    }

    /// A name in one of its forms. Its length is for the module to judge, but for text, which is padded to a name's.
    fn name(&mut self) -> Result<Vec<u8>, String> {
        let word = self.next("name")?;
        if word.is_quoted {
            let mut name = word.text.as_bytes().to_vec();
            name.resize(name.len().max(NAME_LENGTH), 0);
            return Ok(name);
        }
        if let Some(name) = bytes::of_letter(word.text) {
            return Ok(name.to_vec());
        }
        let mut name = Vec::new();
        bytes::read(word.text, &mut name)
            .map_err(|wrong| format!("name: {}: {wrong}", quoted(word.text)))?;
        Ok(name)
    }

    fn message(&mut self) -> Result<Vec<u8>, String> {
        let mut message = Vec::new();
        loop {
            let text = self.plain("message")?;
            bytes::read(text, &mut message)
                .map_err(|wrong| format!("{}: {wrong}", quoted(text)))?;
            if self.is_done() {
                return Ok(message);
            }
        }
    }

    /// A message's name, its fields, and those of each part behind the word part.
    fn written(&mut self) -> Result<Written, String> {
        let name = self.plain("message")?;
        let format = formats::named(name)
            .ok_or_else(|| format!("no message {}; 'help message' has them", quoted(name)))?;
        let mut head = Given::default();
        let mut parts: Vec<Given> = Vec::new();
        while !self.is_done() {
            match self.plain("field")? {
                "part" => parts.push(Given::default()),
                field => parts.last_mut().unwrap_or(&mut head).add(field)?,
            }
        }
        Written::of(format, &head, &parts)
    }

    fn topic(&mut self) -> Result<Option<String>, String> {
        if self.is_done() {
            return Ok(None);
        }
        Ok(Some(self.plain("command")?.into()))
    }

    fn file(&mut self, part: &str) -> Result<PathBuf, String> {
        Ok(self.next(part)?.text.into())
    }

    fn whole(&mut self) -> Result<bool, String> {
        if self.is_done() {
            return Ok(false);
        }
        match self.plain("names")? {
            "names" => Ok(true),
            other => Err(format!("{} is not names", quoted(other))),
        }
    }

    fn records(&mut self) -> Result<Records, String> {
        let (port, session) = self.session()?;
        let records = Records {
            port,
            session,
            credential: self.number("credential")?,
            from: self.number16("from")?,
            to: self.number16("to")?,
            class: self.number("class")?,
        };
        if records.from > records.to {
            return Err(format!("{} comes after {}", records.from, records.to));
        }
        Ok(records)
    }

    /// The grants of a fresh module.
    fn grants(&mut self) -> Result<AllGrants, String> {
        let mut grants = NOBODY;
        match self.rest.trim() {
            "" => return Ok(DOCUMENT_01),
            "none" => self.rest = "",
            _ => {}
        }
        while !self.is_done() {
            let (credential, given) = pair(self.plain("pair")?)?;
            if grants[credential].is_provisioned() {
                return Err(format!("credential {credential} is given twice"));
            }
            grants[credential] = given;
        }
        Ok(grants)
    }
}

/// The grants of a provisioned credential, as WORD or WORD/SECOND: in a fresh module there is no mark that a second word left out could clear.
fn words(text: &str) -> Result<Grants, String> {
    let (word, second) = text.split_once('/').unwrap_or((text, "0"));
    let word = number_of(word).map_err(about("word"))?;
    let second = number_of(second).map_err(about("second"))?;
    Ok(Grants::of_words(word, second))
}

/// A credential and its words. A fresh module is made of eight pairs, so there is no way to hand in a ninth.
fn pair(text: &str) -> Result<(usize, Grants), String> {
    let (credential, given) = text.split_once('=').ok_or_else(|| {
        format!(
            "{} is no CREDENTIAL=WORD or CREDENTIAL=WORD/SECOND",
            quoted(text)
        )
    })?;
    let credential = number_of(credential).map_err(about("credential"))?;
    let given = words(given)?;
    match Credential::try_from(credential) {
        Ok(credential) => Ok((credential.number().into(), given)),
        Err(_) => Err(format!(
            "credential {credential}: a module has credentials 0 to 7"
        )),
    }
}
