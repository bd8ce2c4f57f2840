//! Many files: a command on each of several files, or on those of a folder, on all processors. Files are independent:
//! a refused one gets a line, and the others continue.

use std::cell::RefCell;
use std::collections::{BTreeMap, HashMap, HashSet};
use std::ffi::{OsStr, OsString};
use std::fs;
use std::path::Path;
use std::sync::atomic::{AtomicBool, AtomicUsize, Ordering};
use std::sync::mpsc::{self, RecvTimeoutError};
use std::thread;
use std::time::Duration;

use crate::arguments::{Arguments, Valued};
use crate::commands::{Command, Telling, Told};
use crate::fault::{Done, Fault};
use crate::json::Json;
use crate::progress::Progress;
use crate::vectors::beside;
use crate::{files, shown, streams};

/// What a command does with many files.
#[derive(Debug, Clone, Copy)]
pub struct Many {
    /// The ending of the file that it writes for each.
    ending: &'static str,
    /// Whether that file is the argument after the input, not the place of the answer.
    by_word: bool,
    /// Whether it has something to print about a file without writing one.
    tells: bool,
    sheets: bool,
    beside_sheets: bool,
    /// What it reads beside its input, and what it writes beside its answer.
    reads_beside: &'static [&'static str],
    writes_beside: &'static [&'static str],
}

impl Many {
    const PLAIN: Many = Many {
        ending: "",
        by_word: false,
        tells: false,
        sheets: false,
        beside_sheets: false,
        reads_beside: &[],
        writes_beside: &[],
    };

    /// The check of each matrix beside its sheet.
    pub const WITH_SHEETS: Many = Many { ending: ".check.txt", tells: true, beside_sheets: true, ..Many::PLAIN };

    /// The answer goes to a file with this ending.
    pub const fn answers(ending: &'static str) -> Many {
        Many { ending, ..Many::PLAIN }
    }

    /// What is made goes to a file with this ending.
    pub const fn makes(ending: &'static str) -> Many {
        Many { ending, by_word: true, ..Many::PLAIN }
    }

    /// Reads sheets, not matrices.
    pub const fn of_sheets(self) -> Many {
        Many { sheets: true, ..self }
    }

    /// Without a folder for the output there is something to print.
    pub const fn or_tells(self) -> Many {
        Many { tells: true, ..self }
    }

    /// Reads these files beside its input.
    pub const fn reads_beside(self, reads_beside: &'static [&'static str]) -> Many {
        Many { reads_beside, ..self }
    }

    /// Writes these files beside its answer.
    pub const fn writes_beside(self, writes_beside: &'static [&'static str]) -> Many {
        Many { writes_beside, ..self }
    }

    /// The files that a call with these arguments reads.
    pub fn reads(&self, words: &[OsString]) -> Vec<OsString> {
        let given = words.iter().take(if self.beside_sheets { 2 } else { 1 });
        let input = words.first().into_iter();
        let more = input.flat_map(|input| self.reads_beside.iter().map(|what| beside(input, what)));
        given.cloned().chain(more).collect()
    }

    /// The files that it writes if its answer goes to this one.
    fn writes(&self, answer: &OsStr) -> Vec<OsString> {
        let more = self.writes_beside.iter().map(|what| beside(answer, what));
        [answer.to_os_string()].into_iter().chain(more).collect()
    }

    /// Options of many files.
    pub fn takes(&self, option: Valued) -> bool {
        matches!(option, Valued::OutDir | Valued::Jobs) || option == Valued::Sheets && self.beside_sheets
    }
}

/// One file, with the arguments of its call and the place of its answer.
pub struct Task {
    file: OsString,
    pub words: Vec<OsString>,
    pub out: Option<OsString>,
    /// What is written of it.
    made: Option<OsString>,
}

/// The tasks, or why one cannot be tried.
pub struct Batch {
    tasks: Vec<Result<Task, Fault>>,
    jobs: usize,
    json: bool,
    folder: Option<OsString>,
}

/// The endings of the files that a folder means, and those of our own answers, which it does not.
const MATRICES: [&str; 10] = [".mtx", ".mtx.gz", ".rb", ".rb.gz", ".rua", ".rsa", ".pua", ".psa", ".iua", ".isa"];
const SHEETS: [&str; 1] = [".sheet"];
const ANSWERS: [&str; 5] = [".perm.mtx", ".factors.mtx", ".rhs.mtx", ".row.mtx", ".sheet.mtx"];

/// The batch, if the arguments name one.
pub fn asked(command: &Command, words: &[OsString], arguments: &Arguments) -> Result<Option<Batch>, Fault> {
    let many = command.many;
    // what follows the files is an argument of all of them, unless it is written or is a sheet
    let common = command.words.iter().skip(1).filter(|_| !many.by_word && !many.beside_sheets).count();
    let (given, common) = words.split_at(words.len().saturating_sub(common));
    let folders = given.iter().any(|word| Path::new(word).is_dir());
    let by_option =
        [Valued::OutDir, Valued::Jobs, Valued::Sheets].iter().any(|&option| arguments.value(option).is_some());
    let several = !many.by_word && !many.beside_sheets && given.len() > 1;
    // a word that is to be written and is called as a matrix is more likely to be one of several
    let like_several = many.by_word && !many.sheets && given.iter().skip(1).any(|word| ends(word, &MATRICES));
    if !(folders || by_option || several || like_several) {
        return Ok(None);
    }
    if given.is_empty() {
        return Err(Fault::misuse(format!("{} needs {}", command.name, command.words.first().unwrap_or(&"a file"))));
    }
    let folder = arguments.value(Valued::OutDir);
    suits(command, given, folder, arguments)?;
    let files = listed(given, if many.sheets { &SHEETS } else { &MATRICES })?;
    if let Some(folder) = folder {
        files::make_folder(folder)?;
    }
    let jobs = jobs(arguments.value(Valued::Jobs))?;
    let tasks = planned(many, files, common, folder, arguments.value(Valued::Sheets));
    Ok(Some(Batch { tasks, jobs, json: arguments.json, folder: folder.map(OsStr::to_os_string) }))
}

/// Whether the options make sense for many files.
fn suits(command: &Command, given: &[OsString], folder: Option<&OsStr>, arguments: &Arguments) -> Done {
    let many = command.many;
    let misuse = |sentence: &str| Err(Fault::misuse(format!("{} of several files {sentence}", command.name)));
    for option in [Valued::Out, Valued::Rhs, Valued::Solution] {
        if arguments.value(option).is_some() {
            return misuse(&format!("takes no {}; answers go to --out-dir", option.long()));
        }
    }
    if given.iter().any(|word| files::is_standard(word)) {
        return misuse("cannot read standard input");
    }
    if many.beside_sheets && arguments.value(Valued::Sheets).is_none() {
        return misuse("needs --sheets, the folder of their sheets");
    }
    match folder {
        None if many.by_word && !many.tells || !many.writes_beside.is_empty() => {
            misuse("needs --out-dir, the folder of what is made")
        }
        None if !many.tells && !arguments.json => misuse("needs --out-dir, or --json for lines on standard output"),
        _ => Ok(()),
    }
}

/// How many at once: by default the number of processors.
fn jobs(word: Option<&OsStr>) -> Result<usize, Fault> {
    let Some(word) = word else {
        return Ok(thread::available_parallelism().map_or(1, usize::from));
    };
    match word.to_str().map(str::parse) {
        Some(Ok(jobs @ 1..=1024)) => Ok(jobs),
        _ => Err(Fault::misuse(format!(
            "--jobs is a number from 1 to 1024, and not {}",
            shown::word(&shown::name(word))
        ))),
    }
}

fn ends(name: &OsStr, endings: &[&str]) -> bool {
    let name = name.as_encoded_bytes().to_ascii_lowercase();
    endings.iter().any(|ending| name.ends_with(ending.as_bytes()))
}

/// The files, and for a folder the files in it, by name. Its subfolders are not searched.
fn listed(given: &[OsString], endings: &[&str]) -> Result<Vec<OsString>, Fault> {
    let mut files = Vec::new();
    for word in given {
        if !Path::new(word).is_dir() {
            files.push(word.clone());
            continue;
        }
        let unread = |error| Fault::new(format!("the folder could not be read: {}", files::reason(&error))).of(word);
        let mut names = Vec::new();
        for entry in fs::read_dir(word).map_err(unread)? {
            let name = entry.map_err(unread)?.file_name();
            if ends(&name, endings) && !ends(&name, &ANSWERS) {
                names.push(name);
            }
        }
        if names.is_empty() {
            return Err(Fault::new(format!("the folder has no file that ends in {}", endings.join(", "))).of(word));
        }
        names.sort_unstable();
        files.extend(names.into_iter().map(|name| Path::new(word).join(name).into_os_string()));
    }
    Ok(files)
}

/// The name of a file without the ending that says what it is.
fn stem(file: &OsStr) -> OsString {
    let name = Path::new(file).file_name().unwrap_or(file);
    let plain = if ends(name, &[".gz"]) { Path::new(name).file_stem().unwrap_or(name) } else { name };
    match ends(plain, &MATRICES) || ends(plain, &SHEETS) {
        true => Path::new(plain).file_stem().unwrap_or(plain).to_os_string(),
        false => plain.to_os_string(),
    }
}

/// The tasks. One that would write what is read, or what another writes, is refused before anything is written.
fn planned(
    many: Many,
    files: Vec<OsString>,
    common: &[OsString],
    folder: Option<&OsStr>,
    sheets: Option<&OsStr>,
) -> Vec<Result<Task, Fault>> {
    let tasks: Vec<Task> = files.into_iter().map(|file| Task::new(many, file, common, folder, sheets)).collect();
    let read = tasks.iter().filter(|task| task.made.is_some()).flat_map(|task| many.reads(&task.words));
    let read: HashSet<_> = read.filter_map(|file| files::identity(&file)).collect();
    let mut written: HashMap<files::Identity, OsString> = HashMap::new();
    let tested = |task: Task| {
        let made = task.made.as_deref().map_or(Vec::new(), |made| many.writes(made));
        let made: Vec<_> = made.iter().filter_map(|made| files::identity(made)).collect();
        if made.iter().any(|made| read.contains(made)) {
            return Err(Fault::new("its output would overwrite an input file").of(&task.file));
        }
        if let Some(other) = made.iter().find_map(|made| written.get(made)) {
            let other = shown::escaped(&shown::name(other));
            return Err(Fault::new(format!("its output would overwrite that of {other}")).of(&task.file));
        }
        written.extend(made.into_iter().map(|made| (made, task.file.clone())));
        Ok(task)
    };
    tasks.into_iter().map(tested).collect()
}

/// The command on one file.
type Work<'a> = dyn Fn(&Task, &Told) -> Done + Sync + 'a;

/// The result of one task: a line for standard output, or what is wrong with the file.
type Outcome = Result<Option<String>, Box<Refused>>;

struct Refused {
    file: String,
    fault: Fault,
}

impl Batch {
    /// Runs all tasks; lines and faults are printed in the order of the files. Status 1 if one was refused.
    pub fn run(&self, work: &Work) -> Done {
        let (next, stop) = (AtomicUsize::new(0), AtomicBool::new(false));
        let (send, receive) = mpsc::sync_channel::<(usize, Outcome)>(1024);
        let mut report = Report::new(self.tasks.len(), self.json);
        thread::scope(|scope| {
            for started in 0..self.jobs.min(self.tasks.len()) {
                let (send, next, stop) = (send.clone(), &next, &stop);
                let worker = move || self.work(next, stop, &send, work);
                match thread::Builder::new().spawn_scoped(scope, worker) {
                    Ok(_) => {}
                    Err(error) if started == 0 => return Err(files::no_thread(&error)),
                    // those that started do all of it
                    Err(_) => break,
                }
            }
            drop(send);
            let told = report.follow(&receive);
            // nobody reads further: the workers stop after their current file
            stop.store(true, Ordering::Relaxed);
            drop(receive);
            told
        })?;
        if let Some(folder) = self.folder.as_ref().filter(|_| !self.settles_each()) {
            files::settle_folder(folder)?;
        }
        report.end()
    }

    /// A few files are synced one by one; many are synced together.
    fn settles_each(&self) -> bool {
        self.tasks.len() <= 64
    }

    /// One worker: the next task until there is none, or nobody reads its outcome.
    fn work(&self, next: &AtomicUsize, stop: &AtomicBool, send: &mpsc::SyncSender<(usize, Outcome)>, work: &Work) {
        while !stop.load(Ordering::Relaxed) {
            let at = next.fetch_add(1, Ordering::Relaxed);
            let Some(task) = self.tasks.get(at) else { break };
            if send.send((at, self.outcome(task, work))).is_err() {
                break;
            }
        }
    }

    fn outcome(&self, task: &Result<Task, Fault>, work: &Work) -> Outcome {
        let task = match task {
            Ok(task) => task,
            Err(fault) => {
                let file = fault.file.clone().unwrap_or_default();
                return Err(Box::new(Refused { file, fault: fault.clone() }));
            }
        };
        let told = Told { telling: RefCell::new(None), settles: self.settles_each() };
        work(task, &told).map_err(|fault| Box::new(Refused { file: shown::name(&task.file), fault }))?;
        Ok(match told.telling.into_inner() {
            Some(Telling::Object(answer)) => Some(format!("{}\n", task.line(answer))),
            Some(Telling::Text(text)) if !text.is_empty() => {
                let file = shown::escaped(&shown::name(&task.file));
                Some(text.lines().map(|line| format!("{file}: {line}\n")).collect())
            }
            _ => None,
        })
    }
}

impl Task {
    fn new(many: Many, file: OsString, common: &[OsString], folder: Option<&OsStr>, sheets: Option<&OsStr>) -> Task {
        let inside = |folder: &OsStr, ending: &str| {
            let mut name = stem(&file);
            name.push(ending);
            Path::new(folder).join(name).into_os_string()
        };
        let made = folder.map(|folder| inside(folder, many.ending));
        let (by_word, out) = if many.by_word { (made.clone(), None) } else { (None, made.clone()) };
        let mut words = vec![file.clone()];
        words.extend(common.iter().cloned().chain(sheets.map(|sheets| inside(sheets, ".sheet"))).chain(by_word));
        Task { file, words, out, made }
    }

    /// The object of a line: the file, then its answer; if that was written, without its lists.
    fn line(&self, answer: Json) -> Json {
        let mut fields = vec![("file", Json::text(&shown::name(&self.file)))];
        if let Some(made) = &self.made {
            fields.push(("out", Json::text(&shown::name(made))));
        }
        if let Json::Object(of_answer) = answer {
            let short = |value: &Json| !matches!(value, Json::List(_) | Json::Object(_));
            fields.extend(of_answer.into_iter().filter(|(_, value)| self.made.is_none() || short(value)));
        }
        Json::Object(fields)
    }
}

/// The lines, in order, and the counts.
struct Report {
    json: bool,
    refused: usize,
    waiting: BTreeMap<usize, Outcome>,
    next: usize,
    lines: String,
    progress: Progress,
}

/// How many bytes are written at once.
const LINES: usize = 1 << 16;

impl Report {
    fn new(files: usize, json: bool) -> Report {
        Report {
            json,
            refused: 0,
            waiting: BTreeMap::new(),
            next: 0,
            lines: String::new(),
            progress: Progress::new(files),
        }
    }

    fn follow(&mut self, receive: &mpsc::Receiver<(usize, Outcome)>) -> Done {
        loop {
            match receive.recv_timeout(Duration::from_millis(100)) {
                Ok((at, outcome)) => {
                    self.waiting.insert(at, outcome);
                    while let Some(outcome) = self.waiting.remove(&self.next) {
                        self.next += 1;
                        self.tell(outcome)?;
                    }
                }
                Err(RecvTimeoutError::Timeout) => {}
                Err(RecvTimeoutError::Disconnected) => return self.flush(),
            }
            self.progress.show(self.next, self.refused);
        }
    }

    fn tell(&mut self, outcome: Outcome) -> Done {
        match outcome {
            Ok(line) => self.lines.extend(line),
            Err(refused) => {
                let Refused { file, fault } = *refused;
                self.refused += 1;
                match self.json {
                    true => self.lines += &format!("{}\n", fault.to_json_line(&file)),
                    false => self.progress.above(&format!("suontarvi: {fault}\n")),
                }
            }
        }
        if self.lines.len() >= LINES { self.flush() } else { Ok(()) }
    }

    fn flush(&mut self) -> Done {
        match self.lines.is_empty() {
            true => Ok(()),
            false => files::write(None, std::mem::take(&mut self.lines).as_bytes()),
        }
    }

    /// The summary, and the status.
    fn end(mut self) -> Done {
        streams::complain(&self.progress.summary(self.next, self.refused, self.json));
        match self.refused {
            0 => Ok(()),
            _ => Err(Fault::quiet()),
        }
    }
}
