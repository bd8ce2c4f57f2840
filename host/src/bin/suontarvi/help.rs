//! The help, made of the commands' own texts.

use crate::arguments::Valued;
use crate::commands::{self, Command};
use crate::rule;

pub const VERSION: &str = concat!("suontarvi ", env!("CARGO_PKG_VERSION"), "\n");

const INTRODUCTION: &str = "\
Matching and scaling of a square sparse matrix, by the proved library. FILE.mtx is Matrix Market coordinate text: real,
integer or pattern, general or symmetric, at most 4,096 columns and 262,144 entries (131,072 if symmetric); or a
Rutherford-Boeing file of such a matrix. Either may be compressed by gzip: the program gzip then unpacks it. Entries at
the same place are summed. Rows and columns count from 1. The name - means standard input for a file that is read and
standard output for one that is written.
";

const OPTIONS: &str = "\
Every command takes several files: suontarvi match A.mtx B.mtx --out-dir D. A folder means the files in it that end in
.mtx, .rb, .rua, .rsa, .pua, .psa, .iua, .isa, .mtx.gz or .rb.gz, or, for sheets, in .sheet. The files are shared among
all processors. A refused file gets a line on standard error, and the others continue. The last line on standard error
has the number of files, the number refused and the seconds; the status is 1 if any was refused. --json prints one line
for each file on standard output, in order, with its answer or its error; with --out-dir, without its lists.

--out-dir D     the answer of A.mtx to D/A.perm.mtx (match), D/A.factors.mtx (scale), D/A.mtx (apply, restore),
                D/A.sheet (sheet write), D/A.svg, D/A.html, D/A.row.mtx, D/A.sheet.mtx (sheet read), D/A.check.txt
--jobs N        work on N files at once; the default is the number of processors
--sheets S      for check: the sheet of A.mtx is S/A.sheet
--rule RULE     which logarithms to use, and what unmatched rows get; see match and scale
-o, --out OUT   write to OUT instead of standard output
--json          print one JSON object on standard output; for an error, on standard error
--help          this text
--version       the version

Status: 0, or 1 with a sentence that names the file, the place in it and the refusal, or 2 for wrong usage. If standard
output is a closed pipe, the status is 1 without a sentence.
";

/// One line of the usage.
fn line(command: &Command) -> String {
    let mut line = format!("suontarvi {}", command.name);
    for word in command.words {
        line += &format!(" {word}");
    }
    for option in command.options {
        line += &match option {
            Valued::Rule => format!(" [--rule {}]", rule::WORDS),
            Valued::Out => " [-o OUT]".into(),
            Valued::Rhs => " [--rhs B.mtx]".into(),
            Valued::Solution => " [--solution Y.mtx]".into(),
            Valued::OutDir | Valued::Jobs | Valued::Sheets => String::new(),
        };
    }
    for flag in command.flags {
        line += &format!(" [{flag}]");
    }
    line
}

/// How the tool is called.
pub fn usage() -> String {
    let mut text = String::new();
    for (at, command) in commands::ALL.iter().enumerate() {
        let head = if at == 0 { "usage: " } else { "       " };
        text += &format!("{head}{}\n", line(command));
    }
    text
}

pub fn help() -> String {
    let says: String = commands::ALL.iter().map(|command| command.says).collect();
    format!("{}\n{INTRODUCTION}\n{says}\n{OPTIONS}", usage())
}
