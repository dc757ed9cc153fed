//! The words of a command line, sorted into options, their values, and the rest.

use std::ffi::{OsStr, OsString};

/// The options without a value, or whose value may be left out.
const FLAGS: [&str; 15] = [
    "--above",
    "--bands",
    "--counts",
    "--grid",
    "--help",
    "--isobands",
    "--levels",
    "--lines",
    "--png",
    "--smooth",
    "--stream",
    "--svg",
    "--version",
    "--why",
    "-h",
];

/// The options with a value, and what it is called.
const VALUED: [(&str, &str); 7] = [
    ("--height", "PIXELS"),
    ("--interval", "N"),
    ("--origin", "X,Y"),
    ("--step", "X,Y"),
    ("--title", "TEXT"),
    ("--why", "N"),
    ("--width", "PIXELS"),
];

/// A command line's words.
#[derive(Default)]
pub struct Words {
    /// The file and the thresholds, in their order.
    pub plain: Vec<OsString>,
    flags: Vec<&'static str>,
    values: Vec<(&'static str, String)>,
}

impl Words {
    /// Sorts the words of a command line. An option's value stands behind '=', or is the next word; one that may be
    /// left out is the next word only where that is a whole number.
    pub fn sort(words: impl IntoIterator<Item = OsString>) -> Result<Self, String> {
        let mut sorted = Words::default();
        let mut words = words.into_iter().peekable();
        while let Some(word) = words.next() {
            let text = text_of(&word);
            let (name, value) = match text.split_once('=') {
                Some((name, value)) if name.starts_with("--") => (name, Some(value.to_owned())),
                _ => (text.as_str(), None),
            };
            let flag = FLAGS.into_iter().find(|flag| *flag == name);
            let valued = VALUED.into_iter().find(|(valued, _)| *valued == name);
            match (flag, valued, value) {
                (Some("-h"), _, None) => sorted.flags.push("--help"),
                (Some(flag), None, None) => sorted.flags.push(flag),
                (Some(flag), None, Some(_)) => return Err(format!("{flag} takes no value")),
                (Some(flag), Some(_), None) => {
                    match words.next_if(|word| is_whole(&text_of(word))) {
                        Some(word) => sorted.values.push((flag, text_of(&word))),
                        None => sorted.flags.push(flag),
                    }
                }
                (_, Some((name, what)), value) => {
                    let next = || words.next().map(|word| text_of(&word));
                    let value = value.or_else(next).ok_or(format!("{name} wants {what}"))?;
                    sorted.values.push((name, value));
                }
                (None, None, None) if name == "--" => sorted.plain.extend(words.by_ref()),
                _ if is_option(&text) => return Err(format!("there is no option {text}")),
                _ => sorted.plain.push(word),
            }
        }
        Ok(sorted)
    }

    /// Whether an option is given.
    pub fn has(&self, name: &str) -> bool {
        self.flags.contains(&name) || self.value(name).is_some()
    }

    /// The value of an option; where it is given twice, the last one.
    pub fn value(&self, name: &str) -> Option<&str> {
        let mut given = self.values.iter().rev();
        given
            .find(|(given, _)| *given == name)
            .map(|(_, value)| value.as_str())
    }

    /// Two options of which only one may be given.
    pub fn exclude(&self, one: &str, other: &str) -> Result<(), String> {
        match self.has(one) && self.has(other) {
            true => Err(format!("{one} and {other} exclude each other")),
            false => Ok(()),
        }
    }

    /// An option's value as a finite number.
    pub fn number(&self, name: &str) -> Result<Option<f64>, String> {
        let value = self.value(name).map(|text| {
            let number = text
                .trim()
                .parse::<f64>()
                .ok()
                .filter(|number| number.is_finite());
            number.ok_or(format!("{name} wants a number, not '{text}'"))
        });
        value.transpose()
    }

    /// An option's value as a whole number; one that no word can hold is as good as the largest.
    pub fn whole(&self, name: &str) -> Result<Option<u64>, String> {
        let value = self.value(name).map(|text| match is_whole(text) {
            true => Ok(text.parse().unwrap_or(u64::MAX)),
            false => Err(format!("{name} wants a whole number, not '{text}'")),
        });
        value.transpose()
    }

    /// An option's value as two finite numbers.
    pub fn pair(&self, name: &str) -> Result<Option<(f64, f64)>, String> {
        let value = self.value(name).map(|text| {
            let numbers = text.split_once(',').and_then(|(x, y)| {
                let [x, y] = [x.trim().parse::<f64>(), y.trim().parse::<f64>()];
                Some((x.ok()?, y.ok()?))
            });
            match numbers {
                Some((x, y)) if x.is_finite() && y.is_finite() => Ok((x, y)),
                Some(_) => Err(format!("{name} wants finite numbers, not '{text}'")),
                None => Err(format!("{name} wants two numbers X,Y, not '{text}'")),
            }
        });
        value.transpose()
    }
}

fn text_of(word: &OsStr) -> String {
    word.to_string_lossy().into_owned()
}

fn is_whole(text: &str) -> bool {
    !text.is_empty() && text.bytes().all(|byte| byte.is_ascii_digit())
}

/// Whether a word that is none of ours is meant as an option. Numbers below 0 are not, nor is '-'.
fn is_option(text: &str) -> bool {
    text.starts_with('-') && text != "-" && text.parse::<f64>().is_err()
}
