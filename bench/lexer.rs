// The lexer of `rsml_lexer` in plain Rust, for the reader of parser.rs. Letters outside ASCII are those of std, since the tables of
// `unicode_ident` are no part of it.

#[derive(Clone, Copy, Debug, PartialEq)]
enum Word {
    All, Always, Array, Bus, Constant, Default, Enumeration, Event, Every, Function, In, Input, Macro, Move, Of, On,
    One, Previous, Quiet, Raise, Range, Receive, Send, Any, Specification, State, Stay, This, When, T, F,
}

#[derive(Clone, Copy, Debug, PartialEq)]
enum Mark {
    Semicolon, OpenBrace, CloseBrace, Comma, DotDot, Dot, Equal, NotEqual, Less, LessEqual, Greater, GreaterEqual,
    OpenBracket, CloseBracket, OpenParen, CloseParen, Colon, Arrow, Minus, Plus, Bar,
}

#[derive(Debug)]
#[allow(dead_code)]
enum Token {
    Word(Word),
    Name(Vec<u8>),
    Number(u32),
    Mark(Mark),
}

#[derive(Debug)]
#[allow(dead_code)]
struct Placed {
    token: Token,
    at: u32,
}

#[derive(Debug)]
#[allow(dead_code)]
enum LexError {
    NotUtf8 { at: u32 },
    BadCharacter { at: u32 },
    NumberTooBig { at: u32 },
}

fn spelling(word: Word) -> &'static [u8] {
    match word {
        Word::All => b"all",
        Word::Always => b"always",
        Word::Array => b"array",
        Word::Bus => b"bus",
        Word::Constant => b"constant",
        Word::Default => b"default",
        Word::Enumeration => b"enumeration",
        Word::Event => b"event",
        Word::Every => b"every",
        Word::Function => b"function",
        Word::In => b"in",
        Word::Input => b"input",
        Word::Macro => b"macro",
        Word::Move => b"move",
        Word::Of => b"of",
        Word::On => b"on",
        Word::One => b"one",
        Word::Previous => b"previous",
        Word::Quiet => b"quiet",
        Word::Raise => b"raise",
        Word::Range => b"range",
        Word::Receive => b"receive",
        Word::Send => b"send",
        Word::Any => b"some",
        Word::Specification => b"specification",
        Word::State => b"state",
        Word::Stay => b"stay",
        Word::This => b"this",
        Word::When => b"when",
        Word::T => b"T",
        Word::F => b"F",
    }
}

fn words_from(first: u8) -> &'static [Word] {
    match first {
        b'a' => &[Word::All, Word::Always, Word::Array],
        b'b' => &[Word::Bus],
        b'c' => &[Word::Constant],
        b'd' => &[Word::Default],
        b'e' => &[Word::Enumeration, Word::Event, Word::Every],
        b'f' => &[Word::Function],
        b'i' => &[Word::In, Word::Input],
        b'm' => &[Word::Macro, Word::Move],
        b'o' => &[Word::Of, Word::On, Word::One],
        b'p' => &[Word::Previous],
        b'q' => &[Word::Quiet],
        b'r' => &[Word::Raise, Word::Range, Word::Receive],
        b's' => &[Word::Send, Word::Any, Word::Specification, Word::State, Word::Stay],
        b't' => &[Word::This],
        b'w' => &[Word::When],
        b'T' => &[Word::T],
        b'F' => &[Word::F],
        _ => &[],
    }
}

fn word_of(name: &[u8]) -> Option<Word> {
    let first = name.first()?;
    words_from(*first).iter().copied().find(|word| name == spelling(*word))
}

fn mark_at(bytes: &[u8]) -> Option<(Mark, usize)> {
    let (first, rest) = bytes.split_first()?;
    let begins = |byte: u8| rest.first() == Some(&byte);
    Some(match *first {
        b';' => (Mark::Semicolon, 1),
        b'{' => (Mark::OpenBrace, 1),
        b'}' => (Mark::CloseBrace, 1),
        b',' => (Mark::Comma, 1),
        b'.' if begins(b'.') => (Mark::DotDot, 2),
        b'.' => (Mark::Dot, 1),
        b'=' => (Mark::Equal, 1),
        b'!' if begins(b'=') => (Mark::NotEqual, 2),
        b'<' if begins(b'=') => (Mark::LessEqual, 2),
        b'<' => (Mark::Less, 1),
        b'>' if begins(b'=') => (Mark::GreaterEqual, 2),
        b'>' => (Mark::Greater, 1),
        b'[' => (Mark::OpenBracket, 1),
        b']' => (Mark::CloseBracket, 1),
        b'(' => (Mark::OpenParen, 1),
        b')' => (Mark::CloseParen, 1),
        b':' => (Mark::Colon, 1),
        b'-' if begins(b'>') => (Mark::Arrow, 2),
        b'-' => (Mark::Minus, 1),
        b'+' => (Mark::Plus, 1),
        b'|' => (Mark::Bar, 1),
        _ => return None,
    })
}

fn after_blanks(text: &str) -> &str {
    let bytes = text.as_bytes();
    let mut at = 0;
    while at < bytes.len() {
        match bytes[at] {
            b'#' => {
                while at < bytes.len() && bytes[at] != b'\n' {
                    at += 1;
                }
            }
            b' ' | b'\t' | b'\r' | b'\n' => at += 1,
            _ => break,
        }
    }
    &text[at..]
}

fn begins_name(text: &str) -> bool {
    text.chars().next().is_some_and(|c| c.is_alphabetic() || c == '_')
}

fn name_len(text: &str) -> usize {
    let bytes = text.as_bytes();
    let mut len = 0;
    while len < bytes.len() && (bytes[len].is_ascii_alphanumeric() || bytes[len] == b'_') {
        len += 1;
    }
    if len < bytes.len() && bytes[len] >= 128 {
        for c in text[len..].chars() {
            if !(c.is_alphanumeric() || c == '_') {
                break;
            }
            len += c.len_utf8();
        }
    }
    len
}

fn number_of(digits: &[u8]) -> Option<u32> {
    let mut number = 0;
    for digit in digits {
        number = number * 10 + u64::from(*digit - b'0');
        if number > 1_000_000_000 {
            return None;
        }
    }
    Some(number as u32)
}

fn token_at(text: &str, at: u32) -> Result<(Token, usize), LexError> {
    let bytes = text.as_bytes();
    if begins_name(text) {
        let len = name_len(text);
        let name = &bytes[..len];
        return Ok(match word_of(name) {
            Some(word) => (Token::Word(word), len),
            None => (Token::Name(name.to_vec()), len),
        });
    }
    let len = bytes.iter().take_while(|byte| byte.is_ascii_digit()).count();
    if len > 0 {
        return match number_of(&bytes[..len]) {
            Some(number) => Ok((Token::Number(number), len)),
            None => Err(LexError::NumberTooBig { at }),
        };
    }
    match mark_at(bytes) {
        Some((mark, len)) => Ok((Token::Mark(mark), len)),
        None => Err(LexError::BadCharacter { at }),
    }
}

fn tokens_of(text: &str) -> Result<Vec<Placed>, LexError> {
    let mut found = Vec::new();
    let mut rest = after_blanks(text);
    while !rest.is_empty() {
        let at = (text.len() - rest.len()) as u32;
        let (token, len) = token_at(rest, at)?;
        found.push(Placed { token, at });
        rest = after_blanks(&rest[len..]);
    }
    Ok(found)
}

fn lex(text: &[u8]) -> Result<Vec<Placed>, LexError> {
    match std::str::from_utf8(text) {
        Ok(text) => tokens_of(text),
        Err(error) => Err(LexError::NotUtf8 { at: error.valid_up_to() as u32 }),
    }
}
