//! The command line: words and options, in any order, whatever bytes they have.

use std::ffi::{OsStr, OsString};
use std::os::unix::ffi::OsStrExt;

use crate::fault::Fault;
use crate::rule::Rule;
use crate::shown;

/// An option with a value, which not every command takes.
#[derive(Debug, Clone, Copy, PartialEq, Eq)]
pub enum Valued {
    Rule,
    Out,
    /// A right-hand side.
    Rhs,
    /// A solution of the matrix that `apply` made.
    Solution,
    /// Of many files: the folder of their answers, how many at once, the folder of their sheets.
    OutDir,
    Jobs,
    Sheets,
}

impl Valued {
    pub const ALL: [Valued; 7] =
        [Valued::Rule, Valued::Out, Valued::Rhs, Valued::Solution, Valued::OutDir, Valued::Jobs, Valued::Sheets];

    /// How it is written out.
    pub fn long(self) -> &'static str {
        match self {
            Valued::Rule => "--rule",
            Valued::Out => "--out",
            Valued::Rhs => "--rhs",
            Valued::Solution => "--solution",
            Valued::OutDir => "--out-dir",
            Valued::Jobs => "--jobs",
            Valued::Sheets => "--sheets",
        }
    }

    /// The option of a word.
    fn read(word: &str) -> Option<Valued> {
        match word {
            "-o" => Some(Valued::Out),
            _ => Valued::ALL.into_iter().find(|option| option.long() == word),
        }
    }
}

/// Flags, which not every command takes: of `apply`, and of `match`.
pub const NO_PERMUTE: &str = "--no-permute";
pub const CERTIFICATE: &str = "--certificate";

/// What stands on the command line behind the program's name.
#[derive(Debug, Default)]
pub struct Arguments {
    pub words: Vec<OsString>,
    /// The options with values, each at most once, and their values.
    pub valued: Vec<(Valued, OsString)>,
    pub json: bool,
    /// The flags that only some commands take.
    pub flags: Vec<&'static str>,
    pub help: bool,
    pub version: bool,
}

/// Whether an error is to be JSON; this is known before the rest is read.
pub fn json_is_asked(given: &[OsString]) -> bool {
    given.iter().take_while(|word| *word != "--").any(|word| word == "--json")
}

impl Arguments {
    pub fn read(given: Vec<OsString>) -> Result<Arguments, Fault> {
        let mut read = Arguments::default();
        let mut given = given.into_iter();
        while let Some(word) = given.next() {
            let bytes = word.as_bytes();
            if bytes == b"--" {
                read.words.extend(given.by_ref());
            } else if bytes == b"-" || !bytes.starts_with(b"-") {
                read.words.push(word);
            } else {
                read.option(&word, &mut given)?;
            }
        }
        Ok(read)
    }

    fn option(&mut self, word: &OsStr, rest: &mut impl Iterator<Item = OsString>) -> Result<(), Fault> {
        let mut parts = word.as_bytes().splitn(2, |&byte| byte == b'=').map(OsStr::from_bytes);
        let name = shown::word(&shown::name(parts.next().unwrap_or(word)));
        let value = parts.next();
        if let Some(option) = Valued::read(&name) {
            let Some(value) = value.map(OsStr::to_os_string).or_else(|| rest.next()) else {
                return Err(Fault::misuse(format!("{name} has no value")));
            };
            if self.value(option).is_some() {
                return Err(Fault::misuse(format!("{} is given twice", option.long())));
            }
            self.valued.push((option, value));
            return Ok(());
        }
        let of_some = [NO_PERMUTE, CERTIFICATE].into_iter().find(|flag| *flag == name);
        if of_some.is_none() && !["--json", "-h", "--help", "--version"].contains(&name.as_str()) {
            return Err(Fault::misuse(format!("there is no option {name}")));
        }
        if value.is_some() {
            return Err(Fault::misuse(format!("{name} takes no value")));
        }
        self.flags.extend(of_some);
        self.json |= name == "--json";
        self.help |= ["-h", "--help"].contains(&name.as_str());
        self.version |= name == "--version";
        Ok(())
    }

    pub fn value(&self, option: Valued) -> Option<&OsStr> {
        self.valued.iter().find(|(given, _)| *given == option).map(|(_, value)| value.as_os_str())
    }

    pub fn rule(&self) -> Result<Option<Rule>, Fault> {
        self.value(Valued::Rule).map(Rule::read).transpose()
    }
}
