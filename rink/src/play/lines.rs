//! Lines of plain text: tables, shortened and wrapped.

/// Characters of a line, at most: 100 with the prompt that may stand before it.
pub const COLUMNS: usize = 98;

/// A line of one end: a number, a name and what is said of it.
pub struct Entry {
    pub number: String,
    pub name: String,
    pub words: String,
}

/// Lines of number, name and words in columns.
pub fn table(entries: Vec<Entry>, width: usize) -> Vec<String> {
    let widest = |texts: &mut dyn Iterator<Item = &String>| {
        let lengths = texts.map(|text| text.chars().count());
        lengths.max().unwrap_or(0)
    };
    let words_width = widest(&mut entries.iter().map(|entry| &entry.words));
    let names_width = widest(&mut entries.iter().map(|entry| &entry.name));
    // A name keeps a part of its line, however long the words are.
    let room = (width - 7).saturating_sub(words_width).max(width / 4);
    let names_width = names_width.min(room);
    let lines = entries.iter().map(|entry| {
        // Beside few words a long name stands whole, out of the columns.
        let own_room = (width - 7).saturating_sub(entry.words.chars().count());
        let name = shortened(&entry.name, names_width.max(own_room));
        let line = format!("{:>4} {name:<names_width$}  {}", entry.number, entry.words);
        shortened(line.trim_end(), width)
    });
    lines.collect()
}

/// A text of so many characters at most, without control characters.
pub fn shortened(text: &str, width: usize) -> String {
    let text = plain(text);
    if text.chars().count() <= width {
        return text;
    }
    let kept = text.chars().take(width.saturating_sub(1));
    kept.chain(['…']).collect()
}

/// A text without control characters: a name or a typed line might have some.
fn plain(text: &str) -> String {
    let shown = |character: char| match character {
        '\t' => ' ',
        other if other.is_control() => '?',
        other => other,
    };
    text.chars().map(shown).collect()
}

/// A text in lines of [`COLUMNS`] characters at most, broken between words, the later ones indented.
pub fn wrapped(text: &str) -> Vec<String> {
    let text = plain(text);
    let mut lines: Vec<String> = Vec::new();
    let mut line = String::new();
    let mut begun = false;
    for word in whole_words(&text) {
        if begun && line.chars().count() + 1 + word.chars().count() > COLUMNS {
            lines.push(std::mem::replace(&mut line, "    ".to_string()));
            begun = false;
        }
        if begun {
            line.push(' ');
        }
        line.push_str(&word);
        begun = true;
    }
    lines.push(line);
    lines.iter().map(|line| shortened(line, COLUMNS)).collect()
}

/// The words of a text; `(row 4)`, `(refusal 33)` and `transition 3` stay together.
fn whole_words(text: &str) -> Vec<String> {
    let mut words: Vec<String> = Vec::new();
    for word in text.split(' ') {
        match words.last_mut() {
            Some(last) if matches!(last.as_str(), "(row" | "(refusal" | "transition") => {
                last.push(' ');
                last.push_str(word);
            }
            _ => words.push(word.to_string()),
        }
    }
    words
}

/// A text that begins with a capital.
pub fn capitalised(text: &str) -> String {
    let mut characters = text.chars();
    let first = characters.next().into_iter().flat_map(char::to_uppercase);
    first.chain(characters).collect()
}
