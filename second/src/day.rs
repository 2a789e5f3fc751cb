//! What comes and what is said, and the text format of days: printing and reading.

/// One thing that comes.
#[derive(Clone, PartialEq, Eq, Debug)]
pub enum Thing {
    Look { columns: usize, rows: usize },
    Key(u8),
    From { pane: u64, bytes: Vec<u8> },
    Gone { pane: u64 },
}

/// What the machine says, beside writing and waiting.
#[derive(Clone, PartialEq, Eq, Debug)]
pub enum Said {
    Send { pane: u64, bytes: Vec<u8> },
    Start { pane: u64, columns: usize, rows: usize },
    Size { pane: u64, columns: usize, rows: usize },
    Stop { pane: u64 },
    Leave,
    Over,
}

/// A line of a day that isn't passed over; `keys` is one for each key.
#[derive(Clone, PartialEq, Eq, Debug)]
pub enum Line {
    Comes(Thing),
    Show,
}

pub const MOST_BYTES: usize = 4_096;
pub const MOST_COLUMNS: usize = 200;
pub const MOST_ROWS: usize = 60;

/// Bytes in quotes, in canonical form.
pub fn print_text(bytes: &[u8]) -> String {
    let mut text = String::from("\"");
    for &byte in bytes {
        match byte {
            b'"' | b'\\' => text.extend(['\\', char::from(byte)]),
            32..=126 => text.push(char::from(byte)),
            _ => text += &format!("\\x{byte:02x}"),
        }
    }
    text + "\""
}

pub fn print_said(said: &Said) -> String {
    match said {
        Said::Send { pane, bytes } => format!("send {pane} {}", print_text(bytes)),
        Said::Start { pane, columns, rows } => format!("start {pane} {columns} {rows}"),
        Said::Size { pane, columns, rows } => format!("size {pane} {columns} {rows}"),
        Said::Stop { pane } => format!("stop {pane}"),
        Said::Leave => "leave".to_string(),
        Said::Over => "over".to_string(),
    }
}

/// A day with one line a thing; keys that follow each other share a line.
pub fn print_day(day: &[Thing]) -> String {
    let mut text = String::new();
    let mut keys = Vec::new();
    for (at, thing) in day.iter().enumerate() {
        match thing {
            Thing::Look { columns, rows } => text += &format!("look {columns} {rows}\n"),
            Thing::From { pane, bytes } => text += &format!("from {pane} {}\n", print_text(bytes)),
            Thing::Gone { pane } => text += &format!("gone {pane}\n"),
            Thing::Key(key) => keys.push(*key),
        }
        if !keys.is_empty() && !matches!(day.get(at + 1), Some(Thing::Key(_))) {
            text += &format!("keys {}\n", print_text(&keys));
            keys.clear();
        }
    }
    text
}

/// A whole day, or the number of the first bad line and what is wrong with it.
pub fn read_day(text: &[u8]) -> Result<Vec<Line>, String> {
    let mut day = Vec::new();
    for (at, line) in text.split(|&byte| byte == b'\n').enumerate() {
        day.extend(read_line(line).map_err(|wrong| format!("line {}: {wrong}", at + 1))?);
    }
    Ok(day)
}

fn read_line(line: &[u8]) -> Result<Vec<Line>, String> {
    if line.starts_with(b"#") || line.iter().all(|&byte| byte == b' ') {
        return Ok(Vec::new());
    }
    let words: Vec<&[u8]> = line.splitn(3, |&byte| byte == b' ').collect();
    Ok(match words[..] {
        [b"show"] => vec![Line::Show],
        [b"look", columns, rows] => vec![Line::Comes(read_look(columns, rows)?)],
        [b"gone", pane] => vec![Line::Comes(Thing::Gone { pane: read_number(pane)? })],
        [b"from", pane, text] => vec![Line::Comes(read_from(pane, text)?)],
        [b"keys", ..] => read_text(&line[5.min(line.len())..])?.into_iter().map(|key| Line::Comes(Thing::Key(key))).collect(),
        _ => return Err("unknown word, or too few or too many words".to_string()),
    })
}

fn read_look(columns: &[u8], rows: &[u8]) -> Result<Thing, String> {
    let (columns, rows) = (read_number(columns)? as usize, read_number(rows)? as usize);
    if !(1..=MOST_COLUMNS).contains(&columns) || !(2..=MOST_ROWS).contains(&rows) {
        return Err("size out of range".to_string());
    }
    Ok(Thing::Look { columns, rows })
}

fn read_from(pane: &[u8], text: &[u8]) -> Result<Thing, String> {
    let (pane, bytes) = (read_number(pane)?, read_text(text)?);
    if bytes.len() > MOST_BYTES {
        return Err("too many bytes".to_string());
    }
    Ok(Thing::From { pane, bytes })
}

fn read_number(word: &[u8]) -> Result<u64, String> {
    let wrong = || "not a number of 1 to 10 digits".to_string();
    if !(1..=10).contains(&word.len()) || !word.iter().all(u8::is_ascii_digit) {
        return Err(wrong());
    }
    String::from_utf8_lossy(word).parse().map_err(|_| wrong())
}

fn read_text(word: &[u8]) -> Result<Vec<u8>, String> {
    let inside = word.strip_prefix(b"\"").and_then(|rest| rest.strip_suffix(b"\"")).ok_or("text is not in quotes")?;
    let mut rest = inside.iter();
    let mut bytes = Vec::new();
    while let Some(&byte) = rest.next() {
        bytes.push(match byte {
            b'\\' => read_escape(&mut rest).ok_or("unknown escape in text")?,
            b'"' => return Err("quote inside text".to_string()),
            32..=126 => byte,
            _ => return Err("raw byte in text".to_string()),
        });
    }
    Ok(bytes)
}

fn read_escape<'a>(rest: &mut impl Iterator<Item = &'a u8>) -> Option<u8> {
    Some(match rest.next()? {
        b'"' => b'"',
        b'\\' => b'\\',
        b'e' => 27,
        b'r' => 13,
        b'n' => 10,
        b't' => 9,
        b'x' => {
            let high = char::from(*rest.next()?).to_digit(16)?;
            let low = char::from(*rest.next()?).to_digit(16)?;
            (16 * high + low) as u8
        }
        _ => return None,
    })
}
