//! Names and words of others, as they may stand in a message, in a picture or on a terminal.

use std::path::Path;

/// Characters that would steer a terminal, turn the writing around, or be no text of XML are written as escapes.
pub fn text(words: &str) -> String {
    let mut told = String::with_capacity(words.len());
    for c in words.chars() {
        if c.is_control() || steers(c) {
            told.extend(c.escape_unicode());
        } else {
            told.push(c);
        }
    }
    told
}

/// Marks of direction and of lines, and what Unicode calls no character.
fn steers(c: char) -> bool {
    let turns = ['\u{61C}', '\u{FEFF}'];
    let ranges = [
        '\u{200B}'..='\u{200F}',
        '\u{2028}'..='\u{202E}',
        '\u{2060}'..='\u{206F}',
        '\u{FFF0}'..='\u{FFFB}',
    ];
    turns.contains(&c) || ranges.iter().any(|r| r.contains(&c)) || c as u32 & 0xFFFE == 0xFFFE
}

/// A file's name; `-` is what it stands for.
pub fn name(path: &Path, dash: &str) -> String {
    match path.to_str() {
        Some("-") => dash.to_owned(),
        _ => text(&path.to_string_lossy()),
    }
}

/// The first characters of a word of a file, which may be of any length.
pub fn word(word: &str) -> String {
    match word.char_indices().nth(80) {
        None => text(word),
        Some((end, _)) => text(&word[..end]) + "..",
    }
}

#[cfg(test)]
mod tests {
    use super::*;

    #[test]
    fn nothing_steers() {
        assert_eq!(text("night 7.264"), "night 7.264");
        assert_eq!(text("Übung_é.264"), "Übung_é.264");
        assert_eq!(text("a\x1b[2Jb\n"), "a\\u{1b}[2Jb\\u{a}");
        assert_eq!(text("a\u{202E}462.b"), "a\\u{202e}462.b");
        assert_eq!(text("\u{FFFF}\u{9b}"), "\\u{ffff}\\u{9b}");
        assert_eq!(word(&"x".repeat(80)), "x".repeat(80));
        assert_eq!(word(&"é".repeat(81)), "é".repeat(80) + "..");
    }
}
