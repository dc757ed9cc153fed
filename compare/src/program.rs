//! The program contour_geojson: what it prints of inputs of every kind. The crate draws what is expected of a good
//! input; a faulty one is refused. Whatever it is fed, the program has to end, with exit status 0.

use crate::asked::Asked;
use crate::drawing::Drawing;
use crate::kinds::Kind;
use crate::program_inputs::{
    self as inputs, ENDLESS, EXAMPLE, EXAMPLE_TEXT, FAULTY_INPUTS, GOOD_INPUTS,
};
use crate::random::Random;
use crate::ring_sets::drawn_text;
use crate::tally::Tally;
use std::io::{Read, Write};
use std::process::{Child, ChildStdin, Command, Stdio};
use std::sync::mpsc;
use std::thread;
use std::time::Duration;

const REFUSED: &[u8] = b"refused 12\n";
/// How long the program may take over an input.
const LONGEST_RUN: Duration = Duration::from_secs(60);
/// How much of an endless input the program is fed, and how much of what it prints is read.
const MOST_FED: usize = 1 << 26;
const MOST_READ: u64 = 1 << 20;
/// How many bytes of an input a description shows.
const BYTES_SHOWN: usize = 200;
/// How many damaged inputs a round has.
const DAMAGED: usize = 800;

pub struct Program<'a> {
    /// The words to call it with.
    pub command: &'a [String],
}

/// How an input is fed.
#[derive(Clone, Copy)]
enum Feed {
    Whole,
    /// In three parts, one some time after the other.
    Parts,
    /// And then its last bytes, so many, over and over until the program closes its input.
    Endless(usize),
}

impl Program<'_> {
    /// Document 01's example, the listed inputs that pass, and terrains of every shape.
    pub fn good_inputs(&self, tally: &mut Tally, random: &mut Random) {
        assert!(expected(EXAMPLE) == EXAMPLE_TEXT, "the documents' example");
        for input in GOOD_INPUTS {
            self.listed(tally, random, input, true);
        }
        inputs::terrains(random, |random, input| {
            self.listed(tally, random, input, true)
        });
    }

    /// The listed faults, and sizes that are not those stated.
    pub fn faulty_inputs(&self, tally: &mut Tally, random: &mut Random) {
        for input in FAULTY_INPUTS {
            self.listed(tally, random, input, false);
        }
        inputs::wrong_sizes(|input| self.listed(tally, random, input, false));
    }

    /// Every change of one byte in two short inputs.
    pub fn changed_inputs(&self, tally: &mut Tally) {
        inputs::changed(|input| self.compare(tally, input, Feed::Whole));
    }

    pub fn damaged_inputs(&self, tally: &mut Tally, random: &mut Random) {
        for _ in 0..DAMAGED {
            let input = inputs::damaged(random);
            self.compare(tally, &input, feed(random));
        }
    }

    pub fn endless_inputs(&self, tally: &mut Tally) {
        for (beginning, repeated) in ENDLESS {
            let input = [*beginning, *repeated].concat();
            self.compare(tally, &input, Feed::Endless(repeated.len()));
        }
    }

    /// An input that is to pass or to be refused.
    fn listed(&self, tally: &mut Tally, random: &mut Random, input: &[u8], passes: bool) {
        let read = inputs::read(input).is_some();
        assert!(read == passes, "an input in two ways: {}", shown(input));
        self.compare(tally, input, feed(random));
    }

    fn compare(&self, tally: &mut Tally, input: &[u8], feed: Feed) {
        let expected = match feed {
            Feed::Endless(_) => REFUSED.to_vec(),
            _ => expected(input),
        };
        let difference = match self.answer(input, feed) {
            Ok(answer) if answer == expected => None,
            Ok(answer) => Some(difference(&expected, &answer)),
            Err(fault) => Some(fault),
        };
        tally.holds(difference, || {
            let how = match feed {
                Feed::Whole => "",
                Feed::Parts => ", fed in parts",
                Feed::Endless(_) => ", without end",
            };
            format!("contour_geojson, input '{}'{how}", shown(input))
        });
    }

    /// What the program prints, or how it fails.
    fn answer(&self, input: &[u8], feed: Feed) -> Result<Vec<u8>, String> {
        let (word, words) = self.command.split_first().expect("a program to call");
        let mut command = Command::new(word);
        let command = command
            .args(words)
            .stdin(Stdio::piped())
            .stdout(Stdio::piped());
        let mut child = command.spawn().expect("the program starts");
        let to = child.stdin.take().expect("a pipe to the program");
        let from = child.stdout.take().expect("a pipe from the program");
        thread::scope(|scope| {
            scope.spawn(move || write_input(to, input, feed));
            let (sender, receiver) = mpsc::channel();
            scope.spawn(move || {
                let mut answer = Vec::new();
                let read = from.take(MOST_READ).read_to_end(&mut answer);
                sender
                    .send(read.map(|_| answer))
                    .expect("somebody waits for it");
            });
            match receiver.recv_timeout(LONGEST_RUN) {
                Ok(answer) => ended(child, answer.expect("a pipe to read")),
                Err(_) => {
                    child.kill().expect("the program can be ended");
                    child.wait().expect("the program has been ended");
                    receiver
                        .recv()
                        .expect("the pipe has ended")
                        .expect("a pipe to read");
                    Err(format!("no end after {LONGEST_RUN:?}"))
                }
            }
        })
    }
}

/// What was printed, if the program ends well.
fn ended(mut child: Child, answer: Vec<u8>) -> Result<Vec<u8>, String> {
    let status = child.wait().expect("the program's exit status");
    match status.success() {
        true => Ok(answer),
        false => Err(format!("{status}, after '{}'", shown(&answer))),
    }
}

/// The program may close its input at any time, which is no fault.
fn write_input(mut to: ChildStdin, input: &[u8], feed: Feed) {
    let parts = match feed {
        Feed::Parts => 3,
        _ => 1,
    };
    for part in input.chunks((input.len() / parts).max(1)) {
        if to.write_all(part).is_err() {
            return;
        }
        if parts > 1 {
            thread::sleep(Duration::from_millis(1));
        }
    }
    if let Feed::Endless(bytes) = feed {
        let repeated = input[input.len() - bytes..].repeat(1 << 12);
        let mut fed = 0;
        while fed < MOST_FED && to.write_all(&repeated).is_ok() {
            fed += repeated.len();
        }
    }
}

/// One of eight in parts.
fn feed(random: &mut Random) -> Feed {
    match random.once_in(8) {
        true => Feed::Parts,
        false => Feed::Whole,
    }
}

/// The text and a newline, or the refusal.
fn expected(input: &[u8]) -> Vec<u8> {
    match inputs::read(input) {
        None => REFUSED.to_vec(),
        Some(grid) => {
            let drawing = Drawing::of(&Asked::new(Kind::Contours, &grid));
            let mut text = drawn_text(&drawing.expect("a question that passes"));
            text.push(b'\n');
            text
        }
    }
}

fn difference(expected: &[u8], got: &[u8]) -> String {
    let same = expected.iter().zip(got).take_while(|(a, b)| a == b).count();
    let [wanted, got] = [expected, got].map(|text| shown(&text[same..]));
    format!("from byte {same} on: expected '{wanted}', got '{got}'")
}

fn shown(text: &[u8]) -> String {
    let part = &text[..text.len().min(BYTES_SHOWN)];
    let more = if part.len() < text.len() {
        " and so on"
    } else {
        ""
    };
    format!("{}{more}", part.escape_ascii())
}
