//! Why nothing, or not all, was written.

use crate::reader::Unread;
use nigrulent::Refusal;
use std::io;

/// A sentence on the terrain, or what the system said of the output.
#[derive(Debug)]
pub enum Failure {
    Said(String),
    Output(io::Error),
}

impl From<String> for Failure {
    fn from(sentence: String) -> Self {
        Failure::Said(sentence)
    }
}

impl From<Refusal> for Failure {
    fn from(refusal: Refusal) -> Self {
        Failure::Said(refusal.to_string())
    }
}

/// What is said where a stream has a fault: GDAL is not asked there.
impl From<Unread> for Failure {
    fn from(unread: Unread) -> Self {
        Failure::Said(match unread {
            Unread::Foreign(fault) => {
                format!(
                    "{fault}; --stream reads text alone, and what GDAL reads is drawn without it"
                )
            }
            unread => unread.to_string(),
        })
    }
}

impl From<io::Error> for Failure {
    fn from(error: io::Error) -> Self {
        Failure::Output(error)
    }
}
