//! The commands: each reads its files, has the library answer, and writes. One file has one command, or those of one
//! first word.

mod apply;
mod check;
mod match_file;
mod picture;
mod restore;
mod row;
mod scale;
mod sheet;
mod view;

use std::cell::RefCell;
use std::ffi::{OsStr, OsString};

use suontarvi::{Matching, NONE};

use crate::arguments::{Arguments, CERTIFICATE, NO_PERMUTE, Valued};
use crate::fault::{Done, Fault};
use crate::json::Json;
use crate::many::{self, Many};
use crate::rule::Rule;
use crate::{files, shown};

/// A command as the usage shows it, and what it does.
pub struct Command {
    /// One word or two.
    pub name: &'static str,
    /// The arguments after it; one in brackets is optional.
    pub words: &'static [&'static str],
    pub options: &'static [Valued],
    /// The flags that not every command takes.
    pub flags: &'static [&'static str],
    /// What it does with many files.
    pub many: Many,
    /// Its part of the help.
    pub says: &'static str,
    pub run: fn(&Call) -> Done,
}

/// Every command, in the order of the help.
pub const ALL: &[&Command] = &[
    &match_file::MATCH,
    &scale::SCALE,
    &apply::APPLY,
    &restore::RESTORE,
    &sheet::WRITE,
    &sheet::READ,
    &sheet::CANONICAL,
    &check::CHECK,
    &row::ROW,
    &picture::PICTURE,
    &view::VIEW,
];

/// The arguments of a call after the command's name, and its options.
pub struct Call<'a> {
    words: &'a [OsString],
    many: Many,
    pub rule: Option<Rule>,
    pub out: Option<&'a OsStr>,
    pub rhs: Option<&'a OsStr>,
    pub solution: Option<&'a OsStr>,
    pub permute: bool,
    pub certificate: bool,
    json: bool,
    /// For one of many files: what there is to print about it.
    one_of_many: Option<&'a Told>,
}

/// What to print about one of many files once it is done, and whether each file is synced to disk by itself.
pub struct Told {
    pub telling: RefCell<Option<Telling>>,
    pub settles: bool,
}

pub enum Telling {
    Text(String),
    Object(Json),
}

impl<'a> Call<'a> {
    fn new(
        command: &Command,
        words: &'a [OsString],
        rule: Option<Rule>,
        arguments: &'a Arguments,
        one_of_many: Option<&'a Told>,
    ) -> Call<'a> {
        Call {
            words,
            many: command.many,
            rule,
            out: arguments.value(Valued::Out),
            rhs: arguments.value(Valued::Rhs),
            solution: arguments.value(Valued::Solution),
            permute: !arguments.flags.contains(&NO_PERMUTE),
            certificate: arguments.flags.contains(&CERTIFICATE),
            json: arguments.json,
            one_of_many,
        }
    }

    /// An argument that the command takes; their number was tested.
    pub fn word(&self, at: usize) -> &'a OsStr {
        self.words.get(at).map_or(OsStr::new(""), OsString::as_os_str)
    }

    /// An optional argument.
    pub fn optional(&self, at: usize) -> Option<&'a OsStr> {
        self.words.get(at).map(OsString::as_os_str)
    }

    /// Writes the answer in the requested form to the requested place. For one of many files the text goes to its file,
    /// if it has one, and the object is printed.
    pub fn answer(&self, text: impl FnOnce() -> String, json: impl FnOnce() -> Json) -> Done {
        match (self.one_of_many, self.out) {
            (None, out) => {
                let text = if self.json { format!("{}\n", json()) } else { text() };
                match out.filter(|out| !files::is_standard(out)) {
                    Some(out) => self.put(&[(out, text.as_bytes())]),
                    None => files::write(None, text.as_bytes()),
                }
            }
            (Some(_), Some(out)) => {
                self.put(&[(out, text().as_bytes())])?;
                self.tell(String::new, json)
            }
            (Some(_), None) => self.tell(text, json),
        }
    }

    /// Prints what there is to say beside files that were written.
    pub fn tell(&self, text: impl FnOnce() -> String, json: impl FnOnce() -> Json) -> Done {
        let Some(told) = self.one_of_many else {
            let text = if self.json { format!("{}\n", json()) } else { text() };
            return files::write(None, text.as_bytes());
        };
        let telling = if self.json { Telling::Object(json()) } else { Telling::Text(text()) };
        told.telling.replace(Some(telling));
        Ok(())
    }

    /// Writes files, after a test that none of them is one that is read.
    pub fn put(&self, made: &[(&OsStr, &[u8])]) -> Done {
        let read = self.many.reads(self.words);
        let read: Vec<&OsStr> = read.iter().map(OsString::as_os_str).chain(self.rhs).chain(self.solution).collect();
        if let Some((file, _)) = made.iter().find(|(file, _)| read.iter().any(|read| files::are_the_same(read, file))) {
            return Err(Fault::new("the output would overwrite an input file").of(file));
        }
        made.iter().try_for_each(|(file, bytes)| match self.one_of_many {
            Some(told) if !told.settles => files::write_one_of_many(file, bytes),
            _ => files::write(Some(file), bytes),
        })
    }

    /// Writes the output to a file, which the answer then describes, or to standard output, where it is the answer.
    pub fn made(&self, file: &OsStr, bytes: &[u8], text: impl FnOnce() -> String, json: impl FnOnce() -> Json) -> Done {
        if !files::is_standard(file) {
            self.put(&[(file, bytes)])?;
            return match self.one_of_many {
                Some(_) => self.tell(String::new, json),
                None => self.answer(text, json),
            };
        }
        if self.json {
            return Err(Fault::misuse("standard output cannot have both a file and the object of --json"));
        }
        files::write(None, bytes)
    }
}

/// Runs the command that the arguments name, on one file or on many.
pub fn run(arguments: &Arguments) -> Done {
    let (command, words) = find(arguments)?;
    let rule = arguments.rule()?;
    if let Some(batch) = many::asked(command, words, arguments)? {
        return batch.run(&|task, told| {
            let call = Call::new(command, &task.words, rule, arguments, Some(told));
            let call = Call { out: task.out.as_deref(), ..call };
            (command.run)(&call)
        });
    }
    counted(command, words)?;
    (command.run)(&Call::new(command, words, rule, arguments, None))
}

/// The command that the arguments name, and the arguments after its name.
fn find(arguments: &Arguments) -> Result<(&'static Command, &[OsString]), Fault> {
    let Some((first, _)) = arguments.words.split_first() else {
        return Err(Fault::misuse("no command is given"));
    };
    let named = |command: &&&Command| command.name.split(' ').zip(&arguments.words).all(|(name, word)| name == word);
    let with_words = |command: &&&Command| command.name.split(' ').count() <= arguments.words.len();
    let Some(command) = ALL.iter().filter(with_words).find(named) else {
        return Err(no_command(first, arguments.words.get(1)));
    };
    let words = arguments.words.get(command.name.split(' ').count()..).unwrap_or_default();
    let taken = |option| command.options.contains(option) || command.many.takes(*option);
    if let Some((option, _)) = arguments.valued.iter().find(|(option, _)| !taken(option)) {
        return Err(Fault::misuse(format!("{} takes no {}", command.name, option.long())));
    }
    if let Some(flag) = arguments.flags.iter().find(|flag| !command.flags.contains(flag)) {
        return Err(Fault::misuse(format!("{} takes no {flag}", command.name)));
    }
    let files = arguments.valued.iter().map(|(_, value)| value);
    if words.iter().chain(files).any(|word| word.is_empty()) {
        return Err(Fault::misuse(format!("an argument of {} is empty", command.name)));
    }
    Ok((command, words))
}

fn no_command(first: &OsStr, second: Option<&OsString>) -> Fault {
    let first = shown::word(&shown::name(first));
    let seconds: Vec<&str> = ALL
        .iter()
        .filter_map(|command| command.name.split_once(' '))
        .filter(|(name, _)| *name == first)
        .map(|(_, second)| second)
        .collect();
    Fault::misuse(match (seconds.is_empty(), second) {
        (true, _) => format!("there is no command {first}"),
        (false, None) => format!("{first} needs one of {}", seconds.join(", ")),
        (false, Some(second)) => {
            let second = shown::word(&shown::name(second));
            format!("{first} needs one of {}, not {second}", seconds.join(", "))
        }
    })
}

/// Tests for too few arguments, or too many.
fn counted(command: &Command, words: &[OsString]) -> Done {
    let mut needed = command.words.iter().filter(|word| !word.starts_with('['));
    if let Some(missing) = needed.nth(words.len()) {
        return Err(Fault::misuse(format!("{} needs {missing}", command.name)));
    }
    match words.get(command.words.len()) {
        None => Ok(()),
        Some(word) => {
            let word = shown::word(&shown::name(word));
            Err(Fault::misuse(format!("{} has one argument too many: {word}", command.name)))
        }
    }
}

/// The row of each column, from 1.
fn rows_from_1(found: &Matching) -> impl Iterator<Item = Option<u32>> {
    found.perm.iter().map(|&row| (row != NONE).then(|| row + 1))
}

/// Where each row goes: to its column; free rows go to the free columns in order.
fn positions(found: &Matching) -> Vec<usize> {
    let mut position = vec![None; found.n()];
    for (row, column) in found.pairs() {
        if let Some(place) = position.get_mut(row) {
            *place = Some(column);
        }
    }
    let mut free = (0..).zip(&found.perm).filter(|(_, row)| **row == NONE).map(|(column, _)| column);
    position.into_iter().map(|place| place.or_else(|| free.next()).unwrap_or(0)).collect()
}

fn said(found: &Matching) -> String {
    format!("matched {} of {}", found.matched, found.n())
}

/// All that is known of a match.
fn match_json(found: &Matching, rule: Option<Rule>) -> Json {
    let counts = found.counts.map_or(Json::Null, |counts| {
        Json::object([
            ("heap_slots", counts.heap_slots.into()),
            ("searches", counts.searches.into()),
            ("rows_touched", counts.rows_touched.into()),
            ("inner_steps", counts.inner_steps.into()),
            ("entries_scanned", counts.entries_scanned.into()),
            ("rows_popped", counts.rows_popped.into()),
            ("largest_heap", counts.largest_heap.into()),
        ])
    });
    Json::object([
        ("n", found.n().into()),
        ("matched", found.matched.into()),
        ("complete", found.is_complete().into()),
        ("rule", rule.map_or(Json::Null, |rule| Json::text(rule.name()))),
        ("rows", Json::list(rows_from_1(found))),
        ("u", Json::list(found.u.iter().copied())),
        ("v", Json::list(found.v.iter().copied())),
        ("cmax", Json::list(found.cmax.iter().copied())),
        ("counts", counts),
    ])
}
