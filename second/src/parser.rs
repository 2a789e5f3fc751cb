//! The parser of the second terminal: bytes in, one event a byte out. Between bytes it keeps all that a cut sequence needs.

const MOST_PARAMETERS: usize = 16;
const LARGEST_PARAMETER: usize = 9_999;

/// What a byte brought about.
#[derive(Clone, PartialEq, Eq, Debug)]
pub enum Event {
    Nothing,
    Print(u8),
    Control(u8),
    Escape(u8),
    Sequence(Sequence, u8),
}

/// A CSI sequence, whole or as far as it has come.
#[derive(Clone, PartialEq, Eq, Debug, Default)]
pub struct Sequence {
    pub private: bool,
    pub parameters: Vec<usize>,
    begun: Option<usize>,
}

#[derive(Clone, PartialEq, Eq, Debug, Default)]
pub enum Parser {
    #[default]
    Ground,
    Escape,
    Csi(Sequence),
    Ignore,
    Text,
    TextEscape,
}

impl Sequence {
    fn digit(&mut self, digit: u8) {
        let before = self.begun.unwrap_or(0);
        self.begun = Some((10 * before + usize::from(digit - b'0')).min(LARGEST_PARAMETER));
    }

    fn end_parameter(&mut self) {
        let value = self.begun.take().unwrap_or(0);
        if self.parameters.len() < MOST_PARAMETERS {
            self.parameters.push(value);
        }
    }

    fn is_fresh(&self) -> bool {
        *self == Sequence::default()
    }

    fn finish(&mut self) {
        if self.begun.is_some() || !self.parameters.is_empty() {
            self.end_parameter();
        }
    }

    /// The parameter at this index as it stands, 0 if it isn't there.
    pub fn at(&self, index: usize) -> usize {
        self.parameters.get(index).copied().unwrap_or(0)
    }
}

impl Parser {
    pub fn take(&mut self, byte: u8) -> Event {
        match byte {
            27 => *self = if self.in_text() { Parser::TextEscape } else { Parser::Escape },
            7 if self.in_text() => *self = Parser::Ground,
            0..=31 if self.in_text() => *self = Parser::Text,
            24 | 26 => *self = Parser::Ground,
            0..=31 => return Event::Control(byte),
            127 => {}
            _ => return self.take_graphic(byte),
        }
        Event::Nothing
    }

    fn in_text(&self) -> bool {
        matches!(self, Parser::Text | Parser::TextEscape)
    }

    fn take_graphic(&mut self, byte: u8) -> Event {
        match self {
            Parser::Ground => return Event::Print(if byte < 128 { byte } else { b'?' }),
            Parser::Escape => return self.after_escape(byte),
            Parser::Csi(_) => return self.in_sequence(byte),
            Parser::Ignore if is_final(byte) => *self = Parser::Ground,
            Parser::TextEscape => *self = if byte == b'\\' { Parser::Ground } else { Parser::Text },
            Parser::Ignore | Parser::Text => {}
        }
        Event::Nothing
    }

    fn after_escape(&mut self, byte: u8) -> Event {
        *self = match byte {
            b'[' => Parser::Csi(Sequence::default()),
            b']' => Parser::Text,
            32..=47 => Parser::Ignore,
            _ => Parser::Ground,
        };
        if *self == Parser::Ground {
            Event::Escape(byte)
        } else {
            Event::Nothing
        }
    }

    fn in_sequence(&mut self, byte: u8) -> Event {
        let Parser::Csi(sequence) = self else { return Event::Nothing };
        match byte {
            b'0'..=b'9' => sequence.digit(byte),
            b';' => sequence.end_parameter(),
            b'?' if sequence.is_fresh() => sequence.private = true,
            _ if is_final(byte) => {
                sequence.finish();
                let whole = std::mem::take(sequence);
                *self = Parser::Ground;
                return Event::Sequence(whole, byte);
            }
            _ => *self = Parser::Ignore,
        }
        Event::Nothing
    }
}

fn is_final(byte: u8) -> bool {
    (64..=126).contains(&byte)
}
