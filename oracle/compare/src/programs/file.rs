//! A tie file as lines of words; its blanks are chosen when it is written out.

use super::reader::Kind;
use oracle::random::Random;

#[derive(Clone)]
pub struct File {
    pub kind: Kind,
    pub n: u64,
    pub lines: Vec<Line>,
}

/// What a line was made as; damage does not change it.
#[derive(Clone, Copy, PartialEq)]
pub enum Role {
    Banner,
    Comment,
    Blank,
    Size,
    Entry,
}

/// A comment is one word, a blank line none.
#[derive(Clone)]
pub struct Line {
    pub role: Role,
    pub words: Vec<Vec<u8>>,
    /// The line is filled up to this length.
    pub least: usize,
}

/// Which blanks a file has.
#[derive(Clone, Copy, PartialEq)]
enum Style {
    Spaces,
    /// A carriage return ends each line.
    Returns,
    Any,
}

const BLANKS: [u8; 3] = [b' ', b'\t', b'\r'];

pub fn pick<T: Copy>(random: &mut Random, choices: &[T]) -> T {
    choices[random.below(choices.len())]
}

impl File {
    /// The bytes; the last line feed may lack.
    pub fn bytes(&self, random: &mut Random) -> Vec<u8> {
        let style = pick(random, &[Style::Spaces, Style::Returns, Style::Any]);
        let mut bytes = Vec::new();
        for line in &self.lines {
            bytes.extend(line.text(style, random));
            bytes.push(b'\n');
        }
        if random.chance(300) {
            bytes.pop();
        }
        bytes
    }

    /// The places of the lines of one role.
    pub fn places(&self, role: Role) -> Vec<usize> {
        let of_role = |at: &usize| self.lines[*at].role == role;
        (0..self.lines.len()).filter(of_role).collect()
    }

    /// The first or only line of its role.
    pub fn line(&mut self, role: Role) -> Option<&mut Line> {
        self.lines.iter_mut().find(|line| line.role == role)
    }
}

impl Line {
    pub fn new(role: Role, words: Vec<Vec<u8>>) -> Line {
        Line {
            role,
            words,
            least: 0,
        }
    }

    /// A comment of any bytes but a line feed.
    pub fn comment(random: &mut Random) -> Line {
        let mut text = vec![b'%'];
        match random.below(4) {
            0 => {}
            1 => text.extend(b"%MatrixMarket matrix coordinate integer general"),
            2 => text.extend(b" 3 3 1"),
            _ => text.extend((0..random.below(20)).map(|_| random.bits() as u8)),
        }
        text.retain(|&byte| byte != b'\n');
        Line::new(Role::Comment, vec![text])
    }

    pub fn blank() -> Line {
        Line::new(Role::Blank, Vec::new())
    }

    fn text(&self, style: Style, random: &mut Random) -> Vec<u8> {
        let some = |random: &mut Random, least: usize| match style {
            Style::Any => {
                let count = least + pick(random, &[0, 0, 0, 1, 3]);
                blanks(random, count)
            }
            _ => vec![b' '; least],
        };
        // the banner and a comment begin at the first byte
        let leads = !matches!(self.role, Role::Banner | Role::Comment);
        let mut text = match leads {
            true => some(random, 0),
            false => Vec::new(),
        };
        for (at, word) in self.words.iter().enumerate() {
            if at > 0 {
                text.extend(some(random, 1));
            }
            text.extend(word);
        }
        text.extend(some(random, 0));
        if style == Style::Returns {
            text.push(b'\r');
        }
        let missing = self.least.saturating_sub(text.len());
        let filler = blanks(random, missing);
        match leads && random.chance(500) {
            true => [filler, text].concat(),
            false => [text, filler].concat(),
        }
    }
}

fn blanks(random: &mut Random, count: usize) -> Vec<u8> {
    (0..count).map(|_| pick(random, &BLANKS)).collect()
}
