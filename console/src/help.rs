//! What `help` says.

use crate::formats::{Format, Rest, FORMATS};
use crate::tables::{self, Row};
use std::io::{self, Write};

/// A command, or a part of one that has an entry of its own.
pub struct Topic {
    /// The word that asks for it.
    pub name: &'static str,
    /// How a line is written.
    pub form: &'static str,
    /// What it does, in a few words.
    pub short: &'static str,
    /// What else there is to know of it, in lines.
    pub more: &'static [&'static str],
}

/// The commands, in the order of their listing.
pub const COMMANDS: [Topic; 26] = [
    Topic {
        name: "fresh",
        form: "fresh [C=WORD[/SECOND] ..]",
        short: "make a fresh module",
        more: &[
            "The named credentials are provisioned and have these grant words and second",
            "words; a second word that is left out is zero. For instance: fresh 0=15/4 1=16",
            "Without any it is document 01's module, 0=15 1=16; 'fresh none' provisions",
            "none. A new history begins.",
        ],
    },
    Topic {
        name: "open",
        form: "open S",
        short: "open a session",
        more: &["Refused with, in this order: 1, 2."],
    },
    Topic {
        name: "close",
        form: "close S",
        short: "close a session, and its active processes",
        more: &["Refused with, in this order: 1, 2."],
    },
    Topic {
        name: "select",
        form: "select S VERSION",
        short: "choose a session's version",
        more: &[
            "Version 1.0 is 0x10.",
            "Refused with, in this order: 1, 2, 4.",
        ],
    },
    Topic {
        name: "start",
        form: "start S C NAME",
        short: "start a user process",
        more: &["Refused with, in this order: 1, 2, 3, 5, 7, 12, 11."],
    },
    Topic {
        name: "continue",
        form: "continue S C NAME",
        short: "take a saved process up again",
        more: &[
            "On either port, whichever it was saved on.",
            "Refused with, in this order: 1, 2, 3, 5, 6, 7.",
        ],
    },
    Topic {
        name: "elevate",
        form: "elevate S C NAME yes|no",
        short: "start a session's elevation",
        more: &[
            "The last word is the key unit's verdict.",
            "Refused with, in this order: 1, 2, 3, 5, 8, 7, 12, 11.",
        ],
    },
    Topic {
        name: "drop",
        form: "drop S",
        short: "remove a session's elevation",
        more: &["Refused with, in this order: 1, 2, 3, 6."],
    },
    Topic {
        name: "end",
        form: "end S C NUMBER yes|no keep|remove",
        short: "end a user process",
        more: &[
            "C, NUMBER and the verdict are its claim. With keep it is saved.",
            "Refused with, in this order: 1, 2, 3, the claim's, 10, 18.",
        ],
    },
    Topic {
        name: "record",
        form: "record S CLAIM.. CLASS",
        short: "one record of a device operation",
        more: &[
            "For instance: record 0 user 1 0 yes 4",
            "or:           record 0 elevated 4",
            "Refused with, in this order: 1, 2, 3, the claim's, 10, 18.",
        ],
    },
    Topic {
        name: "records",
        form: "records S C FROM TO CLASS",
        short: "records with the numbers FROM to TO in turn",
        more: &[
            "Each carries a user claim with the verdict yes. It ends at the first refusal;",
            "a 10 or an 18 has spent its number.",
        ],
    },
    Topic {
        name: "list",
        form: "list S CLAIM.. WANTED [ROOM]",
        short: "list processes",
        more: &[
            "The processes of both ports are listed.",
            "WANTED is a credential or 'all', which is 65535. ROOM is the lent buffer's",
            "length: a full listing's where it isn't given, and at most 65536.",
            "For instance: list 0 user 0 1 yes all 54",
            "Refused with, in this order: 1, 2, 3, the claim's, 10, 18, 15.",
        ],
    },
    Topic {
        name: "kill",
        form: "kill S CLAIM.. NAME",
        short: "remove the process of that name",
        more: &[
            "On whichever port it is.",
            "Refused with, in this order: 1, 2, 3, the claim's, 6.",
        ],
    },
    Topic {
        name: "set-word",
        form: "set-word S CLAIM.. C WORD SECOND",
        short: "set both words of a credential",
        more: &[
            "Bit k of WORD grants class k; where bit k of SECOND is set too, only under an",
            "elevated claim. Both are set always: with SECOND 0 no class is marked.",
            "Refused with, in this order: 1, 2, 3, the claim's, 10, 18, 5.",
        ],
    },
    Topic {
        name: "show",
        form: "show [names]",
        short: "draw sessions, credentials and processes",
        more: &[
            "Names are shortened to the bytes that tell them apart; '..' stands for those",
            "left out, the same ones in each name. 'show names' has all 48 bytes of each.",
            "A credential's second word stands behind its grant word where it is not zero,",
            "and the classes that are granted only under elevation behind the others.",
        ],
    },
    Topic {
        name: "request",
        form: "request WANTED",
        short: "GET_AUTH_PROCESSES as bytes and decoded",
        more: &["WANTED is a number of 16 bits or 'all'."],
    },
    Topic {
        name: "read",
        form: "read HEX..",
        short: "decode the bytes of a message",
        more: &[
            "The 31 messages of 004 clause 9.2 are told apart by their codes. Fields are",
            "drawn with 004's names in the form in which 'write' takes them, and what a",
            "value means behind two blanks; each part of a list has a line. HEX is bytes in",
            "a name's forms, with blanks between them or not. Refused with 14.",
        ],
    },
    Topic {
        name: "write",
        form: "write MESSAGE FIELD=VALUE ..",
        short: "the bytes of a message",
        more: &[
            "The fields stand in any order, a value being a number or bytes in a name's",
            "forms; VendorID= has none. A count or length may be left out: it is that of",
            "what follows. The word 'part' comes before the fields of each part of a list.",
            "For instance: write END_AUTH CredentialID=3 PersistMethod=1",
            "or:           write AUTH_POLICY PolicyAttributes=1 CredentialID=3 part ID=0xb",
            "              VendorID=2101 PolicyVersion=0x1000 Policy=01001500+00*21 part ..",
            "all in one line. Reserved bytes are written zero. Refused with 14.",
            "'help END_AUTH' has the fields of END_AUTH, and 'help message' all messages.",
        ],
    },
    Topic {
        name: "save",
        form: "save FILE",
        short: "write the bytes of the state to a file",
        more: &[
            "A file name with blanks stands between quotation marks. A file is replaced",
            "whole or not at all, and is on the disk before it is called saved: a new one",
            "is written beside it and synced, gets its name, and the folder is synced.",
            "A symbolic link stays, and the file that it leads to is replaced.",
        ],
    },
    Topic {
        name: "load",
        form: "load FILE",
        short: "take the state from a file",
        more: &["A file that holds no state changes nothing. Else a new history begins."],
    },
    Topic {
        name: "image",
        form: "image FILE",
        short: "write what outlasts a power cycle to a file",
        more: &[
            "The credentials, their words and the saved processes with their next numbers,",
            "as docs/IMAGE.md draws them, in the new layout. The file is replaced whole or",
            "not at all, and is on the disk before it is called written, as with 'save'.",
            "Refused with, in this order: 1, 15; the console gives it neither reason.",
        ],
    },
    Topic {
        name: "restore",
        form: "restore FILE",
        short: "make the module from such a file",
        more: &[
            "Its sessions are closed, and its processes saved ones, in the file's order and",
            "with its numbers. Active processes are lost. It has to be the newest image:",
            "after an older one, numbers that were spent since are good again.",
            "An image in the old layout has no second words, and they are then zero: write",
            "the image again at once.",
            "Refused with 14 where the file is no image; the module stays as it was.",
            "Else a new history begins.",
        ],
    },
    Topic {
        name: "rescue",
        form: "rescue FROM TO",
        short: "make a good image of a damaged one",
        more: &[
            "FROM is a file that 'restore' refuses. TO gets an image in the same layout,",
            "and may be FROM itself. At most 698 bytes of FROM are read. TO is replaced",
            "whole or not at all, as with 'image', and a refusal leaves it as it was.",
            "Words of unprovisioned credentials are cleared. A row is kept where all of it",
            "is there, its credential is provisioned, its next number is at least 1, and no",
            "row kept before it has its name. Places are those in FROM, from 0 on.",
            "What was kept may be damaged too: docs/IMAGE.md says what to do then.",
            "The module stays as it is, and the history has no line of it.",
            "Refused with, in this order: 14, 15; the console gives no reason for 15.",
        ],
    },
    Topic {
        name: "history",
        form: "history",
        short: "every call so far with its answer",
        more: &["It begins anew with fresh, load and restore. Bad lines are not in it."],
    },
    Topic {
        name: "help",
        form: "help [COMMAND]",
        short: "this, or more of a command",
        more: &[],
    },
    Topic {
        name: "quit",
        form: "quit",
        short: "end; so does the end of the input",
        more: &[],
    },
];

/// The parts of commands.
const PARTS: [Topic; 5] = [
    Topic {
        name: "session",
        form: "0 to 3 on port 0, or PORT.SESSION as 1.0",
        short: "two ports, 0 and 1, have four sessions each; 1.0 is session 0 of port 1",
        more: &[
            "Credentials, words, the table and its names are shared by both ports.",
            "A wrong port or session (open 2.0, open 0.4) is the module's to answer.",
        ],
    },
    Topic {
        name: "number",
        form: "decimal, or hexadecimal after 0x",
        short: "of 32 bits; a claim's NUMBER has 16, a message's field those that 004 gives it",
        more: &[
            "A wrong value (open 4) is the module's to answer. A flag (yes, no, keep,",
            "remove) can be given as a number too.",
        ],
    },
    Topic {
        name: "claim",
        form: "user C NUMBER yes|no, or elevated",
        short: "what a protected call carries; yes|no is the key unit's verdict",
        more: &[
            "'kind K C NUMBER yes|no' hands in any kind: 0 is a user's, 1 elevated.",
            "Refused with, in this order: an elevated one, 6; a user's, 5, 6, 13, 9, 8.",
            "A user's that is not has spent its NUMBER, even where the call is refused with",
            "what follows the claim's in its order: a second try takes the next number.",
        ],
    },
    Topic {
        name: "name",
        form: "P, Q or R, or HEX, or \"TEXT\"",
        short: "48 bytes",
        more: &[
            "P, Q and R are document 01's. HEX is 96 digits, or parts joined by +, each of",
            "them repeated where * and a count follow: 00*16+11*32 is P. TEXT is padded",
            "with zero bytes. A name of another length is the module's to answer.",
        ],
    },
    Topic {
        name: "message",
        form: "END_AUTH, or another one of 004 clause 9.2",
        short: "by its name; 'help END_AUTH' has its fields",
        more: &[],
    },
];

/// The command of this name.
pub fn command(name: &str) -> Option<&'static Topic> {
    COMMANDS.iter().find(|topic| topic.name == name)
}

/// The command or the part of a command with this name.
pub fn topic(name: &str) -> Option<&'static Topic> {
    COMMANDS
        .iter()
        .chain(&PARTS)
        .find(|topic| topic.name == name)
}

/// Everything in short.
pub fn overview(out: &mut impl Write) -> io::Result<()> {
    writeln!(
        out,
        "A line is a call; the answer is its number in documents 01 and 02 and its name."
    )?;
    for topic in &COMMANDS {
        writeln!(out, "  {:<35}{}", topic.form, topic.short)?;
    }
    writeln!(out, "where S is a SESSION, C a credential, and")?;
    for topic in &PARTS {
        writeln!(out, "  {:<35}{}", topic.name.to_uppercase(), topic.form)?;
    }
    writeln!(
        out,
        "'help COMMAND' says more, and so do 'help session', 'help number', 'help claim',\n\
         'help name' and 'help message'.\n\
         Blank lines and lines that begin with # are skipped. For line editing at a\n\
         terminal install rlwrap; 'make run' uses it where it is there."
    )
}

/// All of one topic.
pub fn details(topic: &Topic, out: &mut impl Write) -> io::Result<()> {
    writeln!(out, "{}", topic.form)?;
    writeln!(out, "  {}", topic.short)?;
    topic
        .more
        .iter()
        .try_for_each(|line| writeln!(out, "  {line}"))?;
    if topic.name == "message" {
        FORMATS
            .iter()
            .try_for_each(|format| writeln!(out, "  {:02x}  {}", format.code, format.name))?;
    }
    Ok(())
}

/// The fields of a message, and those of its parts.
pub fn message(format: &'static Format, out: &mut impl Write) -> io::Result<()> {
    writeln!(out, "{}", format.name)?;
    for (first, layout) in format.layouts() {
        if let Some(with) = tables::with_first(first, layout) {
            writeln!(out, "with {with}")?;
        }
        table(tables::of_message(format, layout), out)?;
        if let Rest::Parts(list, part) = &layout.rest {
            writeln!(out, "each part of {list}, a {}", part.name)?;
            table(tables::of_part(part), out)?;
        }
    }
    Ok(())
}

/// The rows below the names of their columns, each column as wide as it has to be.
fn table(rows: Vec<Row>, out: &mut impl Write) -> io::Result<()> {
    let mut lines = vec![tables::COLUMNS.map(str::to_lowercase)];
    lines.extend(rows);
    let width = |at: usize| lines.iter().map(|line| line[at].len()).max().unwrap_or(0);
    let widths = [0, 1, 2, 3, 4].map(width);
    for line in &lines {
        let cells = line.iter().zip(widths);
        let cells: Vec<String> = cells
            .map(|(cell, width)| format!("{cell:width$}"))
            .collect();
        writeln!(out, "  {}", cells.join("  ").trim_end())?;
    }
    Ok(())
}
