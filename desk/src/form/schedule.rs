//! A line of a schedule: a move, how often or until when, and what is expected.
use super::answers::{reasons, Outcome, Why};
use super::cursor::Cursor;
use super::keywords::{self, count, or, MOVES};
use super::lexer::{Token, Wrong};
use super::syntax::{Action, Expected, Fact, Ref, Statement, Wanted};
use kunzeastylus::Move;

/// A whole line.
pub fn statement(cursor: &mut Cursor) -> Result<Statement, Wrong> {
    let Some(word) = cursor.word().filter(|word| MOVES.contains(word)) else {
        return Err(cursor.expected(&format!("{} or a heading", MOVES.join(", "))));
    };
    cursor.skip();
    let statement = match word {
        "settle" => settle(cursor)?,
        "expect" => Statement::Expect(wanted(cursor)?),
        _ => {
            let action = action(word, cursor)?;
            repeated(action, cursor)?
        }
    };
    cursor.end()?;
    Ok(statement)
}

fn settle(cursor: &mut Cursor) -> Result<Statement, Wrong> {
    let within = cursor.accept("within").then(|| cursor.number("how many records at most")).transpose()?;
    if within.is_none() && !cursor.ended() {
        return Err(cursor.expected("`within` or the end of the line"));
    }
    Ok(Statement::Settle { within })
}

fn action(word: &str, cursor: &mut Cursor) -> Result<Action, Wrong> {
    let of_program =
        |kind: Move, cursor: &mut Cursor| cursor.reference("a program").map(|program| Action::OfProgram { kind, program });
    let of_board = |kind: Move, cursor: &mut Cursor| cursor.byte("a board's number").map(|board| Action::OfBoard { kind, board });
    match word {
        "feed" => {
            let channel = cursor.reference("a channel")?;
            let mut words = vec![cursor.number("a word")?];
            words.extend(std::iter::from_fn(|| cursor.maybe_number()));
            Ok(Action::Feed { channel, words })
        }
        "step" => of_program(Move::Step, cursor),
        "sync" => of_program(Move::Sync, cursor),
        "resync" => of_program(Move::Resync, cursor),
        "carry" => of_board(Move::Carry, cursor),
        "crash" => of_board(Move::Crash, cursor),
        "return" => of_board(Move::Return, cursor),
        "back" => Ok(Action::Back),
        _ => Ok(Action::Raw {
            kind: cursor.byte("a move's number")?,
            a: cursor.byte("its a, a number")?,
            word: cursor.number("its word, a number")?,
        }),
    }
}

/// What stands behind an action: how often, until when, what is expected.
fn repeated(action: Action, cursor: &mut Cursor) -> Result<Statement, Wrong> {
    if cursor.accept("until") {
        return Ok(Statement::Until { action, outcome: outcome(cursor)? });
    }
    let times = match cursor.word().and_then(count) {
        Some(0) => return Err(cursor.expected("x1 or more")),
        Some(times) => {
            cursor.skip();
            times
        }
        None => 1,
    };
    let expected = cursor.accept("expect").then(|| expected(cursor)).transpose()?;
    if expected.is_none() && !cursor.ended() {
        return Err(cursor.expected("`expect`, `until`, a count such as x8, or the end of the line"));
    }
    Ok(Statement::Do { action, times, expected })
}

fn outcome(cursor: &mut Cursor) -> Result<Outcome, Wrong> {
    let found = match cursor.peek() {
        Some(Token::Number(number, _)) => Outcome::numbered(*number),
        Some(Token::Word(word)) => Outcome::named(word),
        _ => None,
    };
    let outcome = found.ok_or_else(|| cursor.expected("an answer: done, took, queued, .., refused, or its code"))?;
    cursor.skip();
    Ok(outcome)
}

/// An answer, its word, and why.
fn expected(cursor: &mut Cursor) -> Result<Expected, Wrong> {
    let outcome = outcome(cursor)?;
    let word = cursor.maybe_number();
    let why = cursor.accept("why").then(|| why(outcome, cursor)).transpose()?;
    Ok(Expected { outcome, word, why })
}

fn why(outcome: Outcome, cursor: &mut Cursor) -> Result<Why, Wrong> {
    let found = match cursor.peek() {
        Some(Token::Number(number, _)) => Why::numbered(*number),
        Some(Token::Word(word)) => Why::named(word, outcome),
        _ => None,
    };
    let named = or(&reasons(outcome));
    let why = found.ok_or_else(|| cursor.expected(&format!("why it is that answer: {named}, or the byte of its reason")))?;
    cursor.skip();
    Ok(why)
}

/// What is expected where the line stands.
fn wanted(cursor: &mut Cursor) -> Result<Wanted, Wrong> {
    if cursor.accept("quiet") {
        return Ok(Wanted::Quiet(true));
    }
    if cursor.accept("not") {
        cursor.keyword("quiet")?;
        return Ok(Wanted::Quiet(false));
    }
    if cursor.accept("channel") {
        let channel = cursor.reference("a channel")?;
        return Ok(Wanted::Channel(channel, words(cursor)?));
    }
    if cursor.accept("program") {
        let program = cursor.reference("a program")?;
        return Ok(Wanted::Program(program, facts(cursor)?));
    }
    let Some(name) = cursor.word().filter(|word| keywords::free(word)) else {
        return Err(cursor.expected("`quiet`, `not quiet`, or the name of a channel or a program"));
    };
    cursor.skip();
    let word_is_next = matches!(cursor.peek(), Some(Token::Number(..))) || cursor.word() == Some("nothing");
    let name = Ref::Name(name.to_string());
    Ok(match word_is_next {
        true => Wanted::Channel(name, words(cursor)?),
        false => Wanted::Program(name, facts(cursor)?),
    })
}

/// Words that were on the bus, or `nothing`.
fn words(cursor: &mut Cursor) -> Result<Vec<u32>, Wrong> {
    if cursor.accept("nothing") {
        return Ok(Vec::new());
    }
    let mut words = vec![cursor.number("words, or `nothing`")?];
    words.extend(std::iter::from_fn(|| cursor.maybe_number()));
    Ok(words)
}

fn facts(cursor: &mut Cursor) -> Result<Vec<Fact>, Wrong> {
    let mut facts = vec![fact(cursor)?];
    while !cursor.ended() {
        facts.push(fact(cursor)?);
    }
    Ok(facts)
}

fn fact(cursor: &mut Cursor) -> Result<Fact, Wrong> {
    if cursor.word().and_then(keywords::register).is_some() {
        let register = cursor.register()?;
        return Ok(Fact::Register(register, cursor.number("the register's word")?));
    }
    if cursor.accept("on") {
        return cursor.byte("a board's number").map(Fact::On);
    }
    if cursor.accept("at") {
        return cursor.reference("a label or a place").map(Fact::At);
    }
    if cursor.accept("halted") {
        return Ok(Fact::Halted);
    }
    if cursor.accept("unread") {
        return cursor.number("how many words").map(Fact::Unread);
    }
    if cursor.accept("held-back") {
        return cursor.number("how many words").map(Fact::HoldBack);
    }
    Err(cursor
        .expected("`on` a board, `at` a place, `halted`, `unread`, `held-back`, a register with its word, or words of a channel"))
}
