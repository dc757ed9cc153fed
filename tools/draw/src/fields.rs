//! The lines of a text, the fields of a line, and where each stands, so that a fault can say where it is.
//! Lines end as on any system; fields stand between blanks, or between commas.

use std::fmt;

/// What is wrong with a text, and where: line and column count from 1.
#[derive(Debug, PartialEq)]
pub struct Fault {
    pub line: usize,
    pub column: usize,
    pub what: String,
}

impl fmt::Display for Fault {
    fn fmt(&self, f: &mut fmt::Formatter) -> fmt::Result {
        let Fault { line, column, what } = self;
        write!(f, "line {line}, column {column}: {what}")
    }
}

/// A line of a text with its number, of which the fields from a byte on are still to be read.
#[derive(Clone, Copy)]
pub struct Line<'a> {
    pub text: &'a str,
    pub number: usize,
    from: usize,
}

/// The lines of a text, which end by a line feed, a carriage return, or both. There is one at least.
pub fn lines(text: &str) -> impl Iterator<Item = Line<'_>> {
    let fed = text.split('\n');
    let broken = fed.flat_map(|line| line.strip_suffix('\r').unwrap_or(line).split('\r'));
    let numbered = (1..).zip(broken);
    numbered.map(|(number, text)| Line::new(text, number))
}

impl<'a> Line<'a> {
    /// The line of a number that has this text.
    pub fn new(text: &'a str, number: usize) -> Self {
        Line {
            text,
            number,
            from: 0,
        }
    }

    /// The line up to a comment, which runs from a # to its end.
    pub fn before_comment(self) -> Self {
        let text = self.text.split('#').next().unwrap_or("");
        Line { text, ..self }
    }

    /// The line with this field of it as the next to be read.
    pub fn from(self, field: &Field) -> Self {
        Line {
            from: field.at,
            ..self
        }
    }

    /// Its words, separated by blanks alone.
    pub fn words(self) -> Fields<'a> {
        self.fields_by(&[])
    }

    /// Its fields, separated by blanks, or by a comma with or without blanks about it.
    pub fn fields(self) -> Fields<'a> {
        self.fields_by(&[','])
    }

    fn fields_by(self, commas: &'static [char]) -> Fields<'a> {
        Fields {
            line: self,
            at: self.from,
            commas,
            separator: None,
            mixed: false,
        }
    }

    /// A fault at a byte of the line.
    fn fault(self, at: usize, what: String) -> Fault {
        Fault {
            line: self.number,
            column: self.text[..at].chars().count() + 1,
            what,
        }
    }

    /// A fault behind the last field.
    pub fn fault_at_end(self, what: String) -> Fault {
        self.fault(self.text.trim_end().len(), what)
    }
}

/// A field of a line: its text, which is empty where a comma has nothing before or behind it, and its place.
#[derive(Clone, Copy)]
pub struct Field<'a> {
    pub text: &'a str,
    line: Line<'a>,
    at: usize,
    /// Ahead of it, one field follows another behind a comma, and one behind a blank alone.
    mixed: bool,
}

impl Field<'_> {
    /// A fault where the field begins.
    pub fn fault(&self, what: String) -> Fault {
        self.line.fault(self.at, what)
    }

    /// The number that it holds.
    pub fn number(&self) -> Result<f64, Fault> {
        if self.mixed {
            let what = "commas and blanks both separate the numbers of this row";
            return Err(self.fault(format!("{what}; a decimal point is written as a point")));
        }
        self.text.parse().map_err(|_| match self.text {
            "" => self.fault("a number is missing".to_owned()),
            _ => self.fault(format!("{} is not a number", self.shown())),
        })
    }

    /// The text in quotes, shortened, without what a terminal would act on.
    pub fn shown(&self) -> String {
        const LONGEST: usize = 40;
        let start: String = self.text.chars().take(LONGEST).collect();
        let dots = if start.len() < self.text.len() {
            "..."
        } else {
            ""
        };
        format!("'{}{dots}'", start.replace(char::is_control, "?"))
    }
}

/// The fields of a line that are still to be read.
pub struct Fields<'a> {
    line: Line<'a>,
    at: usize,
    commas: &'static [char],
    /// What stands before the next field, if there is one and it is not the first: a comma, or a blank alone.
    separator: Option<char>,
    /// Both kinds have been met.
    mixed: bool,
}

impl Fields<'_> {
    fn skip_blanks(&mut self) {
        let rest = &self.line.text[self.at..];
        self.at += rest.len() - rest.trim_start().len();
    }

    /// Goes behind what separates the field before from the next one, and notes which kind it is.
    fn skip_separator(&mut self) {
        self.skip_blanks();
        let rest = &self.line.text[self.at..];
        let separator = match rest.chars().next() {
            Some(c) if self.commas.contains(&c) => Some(','),
            Some(_) => Some(' '),
            None => None,
        };
        self.at += usize::from(separator == Some(','));
        self.mixed |=
            separator.is_some() && self.separator.is_some() && separator != self.separator;
        self.separator = separator;
    }
}

impl<'a> Iterator for Fields<'a> {
    type Item = Field<'a>;

    fn next(&mut self) -> Option<Field<'a>> {
        self.skip_blanks();
        let (at, line, mixed) = (self.at, self.line, self.mixed);
        let rest = &line.text[at..];
        // Behind a comma there is a field, if only an empty one.
        if rest.is_empty() && self.separator != Some(',') {
            return None;
        }
        let commas = self.commas;
        let end = rest.find(|c: char| commas.contains(&c) || c.is_whitespace());
        let text = &rest[..end.unwrap_or(rest.len())];
        self.at += text.len();
        self.skip_separator();
        Some(Field {
            text,
            line,
            at,
            mixed,
        })
    }
}
