//! What the programs are told on their command lines: `--NAME VALUE`.

/// The value of an option, if it is given.
pub fn option(name: &str) -> Option<String> {
    std::env::args().skip_while(|argument| argument != name).nth(1)
}

/// The same as a number.
pub fn number(name: &str) -> Option<u64> {
    option(name).map(|value| value.parse().unwrap_or_else(|_| panic!("{name} takes a number")))
}
