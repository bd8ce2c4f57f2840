//! Foreign words as sentences show them: cut if long, without control characters.

use std::ffi::OsStr;

/// The most letters of a word that are shown.
const MOST: usize = 40;

/// A name as text; bytes that are not UTF-8 become `\xNN`.
pub fn name(name: &OsStr) -> String {
    let mut text = String::new();
    for chunk in name.as_encoded_bytes().utf8_chunks() {
        text += chunk.valid();
        for byte in chunk.invalid() {
            text += &format!("\\x{byte:02x}");
        }
    }
    text
}

/// Letters that a terminal shows as themselves.
fn plain(letter: char) -> bool {
    let invisible = ['\u{ad}', '\u{61c}', '\u{feff}', '\u{fffe}', '\u{ffff}'].contains(&letter);
    let direction = ('\u{200b}'..='\u{200f}').contains(&letter)
        || ('\u{2028}'..='\u{202e}').contains(&letter)
        || ('\u{2060}'..='\u{206f}').contains(&letter);
    !(letter.is_control() || invisible || direction)
}

/// The text without control characters: these are escaped.
pub fn escaped(text: &str) -> String {
    let mut shown = String::with_capacity(text.len());
    for letter in text.chars() {
        match plain(letter) {
            true => shown.push(letter),
            false => shown.extend(letter.escape_default()),
        }
    }
    shown
}

/// A word of a file or of the command line: escaped, and cut behind its first letters.
pub fn word(word: &str) -> String {
    let mut letters = word.chars();
    let head: String = letters.by_ref().take(MOST).collect();
    let rest = letters.count();
    match rest {
        0 => escaped(&head),
        _ => format!("{}... ({} characters)", escaped(&head), MOST + rest),
    }
}

#[cfg(test)]
mod tests {
    use super::*;
    use std::os::unix::ffi::OsStrExt;

    #[test]
    fn words_are_cut_and_escaped() {
        assert_eq!(word("1.5"), "1.5");
        assert_eq!(word("\u{1b}[2J\u{7}"), "\\u{1b}[2J\\u{7}");
        assert_eq!(word("\u{202e}x"), "\\u{202e}x");
        assert_eq!(word(&"9".repeat(41)), format!("{}... (41 characters)", "9".repeat(40)));
        assert_eq!(word("größe"), "größe");
        assert_eq!(name(OsStr::from_bytes(b"a\xffb")), "a\\xffb");
    }
}
