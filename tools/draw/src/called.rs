//! What the program was called by, `draw` in the checkout and `nigrulent` where it is installed, and its version.

use std::env;
use std::path::Path;

/// The help, as it is written for the checkout.
const HELP: &str = include_str!("../help.txt");

/// The last part of the name that the program was called by.
pub fn name() -> String {
    let called = env::args_os().next().unwrap_or_default();
    let last = Path::new(&called).file_name().unwrap_or_default();
    last.to_string_lossy().into_owned()
}

/// The help with that name in the place of the checkout's.
pub fn help() -> String {
    HELP.replace("draw FILE", &format!("{} FILE", name()))
}

/// The name of the product and its version.
pub fn version() -> String {
    format!("nigrulent {}\n", env!("CARGO_PKG_VERSION"))
}
