//! What a command is given: files, or standard input, in words, as hex text or as bytes, told apart by their content.
use crate::args::{self, Said};
use crate::failure::Failure;
use crate::form::parser::parse;
use crate::form::syntax::Text;
use crate::form::{self, lexer::Wrong};
use crate::hex;
use std::fs::File;
use std::io::Read;

/// No more than this is read, so that an endless input ends; text of more is refused.
pub const MOST: usize = 4 << 20;

/// A byte-order mark, which some editors put before UTF-8.
const MARK: &[u8] = b"\xef\xbb\xbf";

/// What messages call a file.
pub fn name(file: &str) -> &str {
    match file {
        "-" => "standard input",
        _ => file,
    }
}

/// The first `MOST` bytes and one more, of a file or, for `-`, of standard input; without a byte-order mark.
pub fn read(file: &str) -> Result<Vec<u8>, Failure> {
    let unread = |what: &str| Failure::unread(format!("{}: {what}", name(file)));
    let reason = |error: std::io::Error| match error.kind() {
        std::io::ErrorKind::NotFound => unread("no such file"),
        std::io::ErrorKind::IsADirectory => unread("is a folder"),
        _ => unread("can't be read"),
    };
    let mut bytes = Vec::new();
    match file {
        "-" => std::io::stdin().lock().take(MOST as u64 + 1).read_to_end(&mut bytes),
        _ => File::open(file).map_err(reason)?.take(MOST as u64 + 1).read_to_end(&mut bytes),
    }
    .map_err(reason)?;
    if bytes.starts_with(MARK) {
        bytes.drain(..MARK.len());
    }
    Ok(bytes)
}

/// The text of a file: UTF-8, and no more than `MOST` bytes.
pub fn text(file: &str) -> Result<String, Failure> {
    as_text(file, read(file)?)
}

fn as_text(file: &str, bytes: Vec<u8>) -> Result<String, Failure> {
    short(file, &bytes)?;
    String::from_utf8(bytes).map_err(|error| {
        let sound = &error.as_bytes()[..error.utf8_error().valid_up_to()];
        let line = 1 + sound.iter().filter(|&&byte| byte == b'\n').count();
        Failure::unread(format!("{}:{line}: found bytes that are no UTF-8, expected text", name(file)))
    })
}

fn short(file: &str, bytes: &[u8]) -> Result<(), Failure> {
    match bytes.len() <= MOST {
        true => Ok(()),
        false => Err(Failure::unread(format!("{}: over {MOST} bytes of text", name(file)))),
    }
}

/// How a file is to be taken.
#[derive(Clone, Copy, Debug, PartialEq, Eq)]
pub enum Kind {
    AsItLooks,
    Words,
    Hex,
    Bytes,
}

/// What a file has.
#[derive(Clone, Debug, PartialEq, Eq)]
pub enum Content {
    Words(Text, Vec<Wrong>),
    /// Bytes, and the line of each.
    Hex(Vec<u8>, Vec<usize>),
    Bytes(Vec<u8>),
}

/// What a file has, taken in this way.
pub fn content(kind: Kind, file: &str) -> Result<Content, Failure> {
    let bytes = read(file)?;
    if kind != Kind::Bytes && (bytes.starts_with(b"\xff\xfe") || bytes.starts_with(b"\xfe\xff")) {
        return Err(Failure::unread(format!("{}:1: found UTF-16, expected UTF-8: save it as that", name(file))));
    }
    let kind = match kind {
        Kind::AsItLooks if !hex::is_text(&bytes) => Kind::Bytes,
        Kind::AsItLooks if form::is_words(&String::from_utf8_lossy(&bytes)) => Kind::Words,
        Kind::AsItLooks => Kind::Hex,
        other => other,
    };
    match kind {
        Kind::Bytes => Ok(Content::Bytes(bytes)),
        Kind::Words => {
            let (text, wrong) = parse(&as_text(file, bytes)?);
            Ok(Content::Words(text, wrong))
        }
        _ => {
            short(file, &bytes)?;
            let (bytes, lines) = hex::with_lines(&bytes).map_err(|bad| no_hex(file, &bad))?;
            Ok(Content::Hex(bytes, lines))
        }
    }
}

fn no_hex(file: &str, bad: &hex::NoHex) -> Failure {
    let hex::NoHex { line, begins } = bad;
    Failure::unread(format!("{}:{line}: found `{}`, expected pairs of hex digits", name(file), begins.trim()))
}

/// The bytes of a file, or those that it has as hex text.
pub fn bytes(kind: Kind, file: &str) -> Result<Vec<u8>, Failure> {
    match content(kind, file)? {
        Content::Hex(bytes, _) | Content::Bytes(bytes) => Ok(bytes),
        Content::Words(..) => Err(Failure::unread(format!("{}:1: found words, expected bytes or hex text", name(file)))),
    }
}

/// The option by which a file is taken for what it doesn't look like.
pub const AS: args::Known = args::value("--as", "words|hex|bytes");

/// How the option says that files are to be taken.
pub fn kind(said: &Said) -> Result<Kind, Failure> {
    match said.value("--as") {
        None => Ok(Kind::AsItLooks),
        Some("words") => Ok(Kind::Words),
        Some("hex") => Ok(Kind::Hex),
        Some("bytes") => Ok(Kind::Bytes),
        Some(other) => Err(Failure::usage(format!("--as {other}: words, hex or bytes is wanted"))),
    }
}

/// The only file that is named.
pub fn one_file<'a>(said: &Said<'a>) -> Result<&'a str, Failure> {
    match said.files[..] {
        [file] => Ok(file),
        [] => Err(Failure::usage("a file is wanted, or - for standard input")),
        _ => Err(Failure::usage(format!("one file is wanted, and {} are named", said.files.len()))),
    }
}
