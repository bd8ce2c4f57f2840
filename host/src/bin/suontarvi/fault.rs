//! What went wrong, as a sentence: the file, the place in it, the refusal's number and name; and the status.

use std::ffi::OsStr;
use std::fmt;
use std::process::ExitCode;

use suontarvi::Refusal;

use crate::json::Json;
use crate::{help, shown, streams};

pub type Done = Result<(), Fault>;

/// A refusal of the library, or one of the four that the text programs share.
#[derive(Debug, Clone, Copy, PartialEq, Eq)]
pub struct Named {
    pub number: u32,
    pub name: &'static str,
}

pub const BANNER: Named = Named { number: 20, name: "BANNER" };
pub const SIZE_LINE: Named = Named { number: 21, name: "SIZE_LINE" };
pub const ENTRY_LINE: Named = Named { number: 23, name: "ENTRY_LINE" };
pub const ENTRY_COUNT: Named = Named { number: 24, name: "ENTRY_COUNT" };

impl From<Refusal> for Named {
    fn from(refusal: Refusal) -> Named {
        Named { number: refusal.number(), name: refusal.name() }
    }
}

/// How a fault ends the program.
#[derive(Debug, Clone, Copy, PartialEq, Eq, Default)]
enum Kind {
    /// A sentence and status 1.
    #[default]
    Refused,
    /// A sentence with the usage and status 2.
    Misuse,
    /// Nobody reads on: status 1 without a word.
    Quiet,
}

/// One sentence, with what is known of where it holds.
#[derive(Debug, Clone, Default)]
pub struct Fault {
    pub file: Option<String>,
    pub place: Option<String>,
    pub sentence: String,
    pub refusal: Option<Named>,
    kind: Kind,
}

impl Fault {
    pub fn new(sentence: impl Into<String>) -> Fault {
        Fault { sentence: sentence.into(), ..Fault::default() }
    }

    /// The tool was called wrongly.
    pub fn misuse(sentence: impl Into<String>) -> Fault {
        Fault { kind: Kind::Misuse, ..Fault::new(sentence) }
    }

    /// The reader of a pipe is gone.
    pub fn quiet() -> Fault {
        Fault { kind: Kind::Quiet, ..Fault::default() }
    }

    /// A refusal of the library in its own words.
    pub fn refused(refusal: Refusal) -> Fault {
        Fault::new(refusal.reason()).by(refusal)
    }

    pub fn by(self, refusal: impl Into<Named>) -> Fault {
        Fault { refusal: Some(refusal.into()), ..self }
    }

    pub fn at(self, place: impl Into<String>) -> Fault {
        Fault { place: Some(place.into()), ..self }
    }

    pub fn at_line(self, line: usize) -> Fault {
        self.at(format!("line {line}"))
    }

    pub fn of(self, file: &OsStr) -> Fault {
        Fault { file: Some(shown::name(file)), ..self }
    }

    fn status(&self) -> u8 {
        match self.kind {
            Kind::Refused | Kind::Quiet => 1,
            Kind::Misuse => 2,
        }
    }

    /// Says it on standard error, as one JSON object or as a sentence, and gives the status.
    pub fn tell(&self, json: bool) -> ExitCode {
        match self.kind {
            Kind::Quiet => {}
            _ if json => streams::complain(&format!("{}\n", self.to_json())),
            Kind::Refused => streams::complain(&format!("suontarvi: {self}\n")),
            Kind::Misuse => {
                streams::complain(&format!("suontarvi: {self}\n{}       suontarvi --help\n", help::usage()));
            }
        }
        ExitCode::from(self.status())
    }

    pub fn to_json(&self) -> String {
        Json::object([("error", self.error())]).to_string()
    }

    /// What it is, of one of many files.
    pub fn to_json_line(&self, file: &str) -> String {
        Json::object([("file", Json::text(file)), ("error", self.error())]).to_string()
    }

    fn error(&self) -> Json {
        let word = |word: &Option<String>| word.as_deref().map_or(Json::Null, Json::text);
        Json::object([
            ("status", u32::from(self.status()).into()),
            ("file", word(&self.file)),
            ("place", word(&self.place)),
            ("sentence", Json::text(&self.sentence)),
            ("refusal", self.refusal.map_or(Json::Null, |refusal| Json::from(refusal.number))),
            ("name", self.refusal.map_or(Json::Null, |refusal| Json::text(refusal.name))),
        ])
    }
}

impl fmt::Display for Fault {
    fn fmt(&self, to: &mut fmt::Formatter) -> fmt::Result {
        match (self.file.as_deref().map(shown::escaped), &self.place) {
            (Some(file), Some(place)) => write!(to, "{file}, {place}: ")?,
            (Some(file), None) => write!(to, "{file}: ")?,
            (None, Some(place)) => write!(to, "{place}: ")?,
            (None, None) => {}
        }
        write!(to, "{}", self.sentence)?;
        match self.refusal {
            Some(Named { number, name }) => write!(to, " (refused with {number}, {name})"),
            None => Ok(()),
        }
    }
}
