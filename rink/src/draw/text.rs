//! Text in a drawing: how wide it may get, where it may be broken, how it is escaped.

/// A line of text.
#[derive(Clone, PartialEq, Eq, Debug)]
pub struct Words {
    pub text: String,
    /// Height of the letters in pixels.
    pub size: i32,
    pub bold: bool,
}

impl Words {
    pub fn plain(text: impl Into<String>, size: i32) -> Words {
        Words {
            text: text.into(),
            size,
            bold: false,
        }
    }

    pub fn bold(text: impl Into<String>, size: i32) -> Words {
        Words {
            bold: true,
            ..Words::plain(text, size)
        }
    }

    /// Its width at most: no common font of the stack is wider.
    pub fn width(&self) -> i32 {
        let thousandths: i32 = self.text.chars().map(letter_width).sum();
        let heavy = if self.bold { 114 } else { 100 };
        thousandths * heavy / 100 * self.size / 1000 + 1
    }

    /// The height of its line.
    pub fn height(&self) -> i32 {
        self.size * 5 / 4 + 1
    }
}

/// The width of a letter in thousandths of its size, after DejaVu Sans, which is wider than Helvetica and Arial.
fn letter_width(letter: char) -> i32 {
    match letter {
        'i' | 'j' | 'l' | 'I' | '.' | ',' | '\'' | ' ' | '/' | '|' | '·' => 340,
        '-' | 'f' | 't' | 'r' | ':' | ';' | '(' | ')' | '[' | ']' | '!' => 440,
        'm' => 980,
        'w' => 820,
        'M' | 'W' => 1000,
        'a'..='z' | '0'..='9' | '_' | '"' | '$' | '*' | '?' => 640,
        'A'..='Z' => 790,
        ' '..='~' => 1020,
        'à'..='å' | 'ç'..='ö' | 'ø'..='ÿ' | 'ß' => 660,
        'À'..='Å' | 'Ç'..='Ö' | 'Ø'..='Ý' | '−' | '×' => 840,
        'Œ' | 'œ' | 'Ĳ' | 'ĳ' | 'ŉ' | 'Ħ' | 'Ŵ' => 1100,
        'Ā'..='ſ' => 860,
        'Ǆ'..='ǆ' | 'Ǳ'..='ǳ' => 1450,
        // Further Latin letters, Greek and Cyrillic ones.
        'ƀ'..='\u{52F}' if letter.is_lowercase() => 1070,
        'ƀ'..='\u{52F}' => 1250,
        _ => 1100,
    }
}

/// The widest of these lines.
pub fn widest(words: &[Words]) -> i32 {
    words.iter().map(Words::width).max().unwrap_or(0)
}

/// The height of these lines together.
pub fn height(words: &[Words]) -> i32 {
    words.iter().map(Words::height).sum()
}

/// A name in one line, or in two, broken at the hyphen that leaves them shortest, where one would be wider than `room`.
pub fn name_lines(name: &str, model: &Words, room: i32) -> Vec<Words> {
    let line = |text: &str| Words {
        text: text.to_string(),
        ..model.clone()
    };
    let whole = vec![line(name)];
    if widest(&whole) <= room {
        return whole;
    }
    let hyphens = name.match_indices('-').map(|(at, _)| at + 1);
    let inside = hyphens.filter(|at| *at > 1 && *at < name.len());
    let broken = inside.map(|at| vec![line(&name[..at]), line(&name[at..])]);
    broken.min_by_key(|lines| widest(lines)).unwrap_or(whole)
}

/// A sentence in lines that keep to `room`, as far as its spaces and hyphens let them.
pub fn wrapped(sentence: &str, model: &Words, room: i32) -> Vec<Words> {
    let mut lines: Vec<Words> = Vec::new();
    for piece in sentence.split_inclusive([' ', '-']) {
        let longer = lines.last().map(|line| Words {
            text: format!("{}{piece}", line.text),
            ..line.clone()
        });
        match longer {
            Some(longer) if longer.width() <= room => {
                lines.pop();
                lines.push(longer);
            }
            _ => lines.push(Words {
                text: piece.to_string(),
                ..model.clone()
            }),
        }
    }
    lines
}

/// The text as XML has it. What XML cannot have at all becomes the sign for an unknown letter.
pub fn escaped(text: &str) -> String {
    let mut escaped = String::with_capacity(text.len());
    for letter in text.chars() {
        match letter {
            '&' => escaped.push_str("&amp;"),
            '<' => escaped.push_str("&lt;"),
            '>' => escaped.push_str("&gt;"),
            '"' => escaped.push_str("&quot;"),
            '\u{FFFE}' | '\u{FFFF}' => escaped.push('\u{FFFD}'),
            control if control.is_control() && control != '\n' => escaped.push('\u{FFFD}'),
            plain => escaped.push(plain),
        }
    }
    escaped
}
