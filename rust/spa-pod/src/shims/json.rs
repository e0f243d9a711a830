//! JSON: a text as tokens, and tokens as text.
use super::memory::{AllocError, VecRoom};
use super::numerals::{Buffer, DIGITS, Number};
use alloc::vec::Vec;
use core::{char::decode_utf16, iter::from_fn, mem::take, str::Chars, str::from_utf8};

/// A token of a text. A string is a key where a colon stands behind it; behind what is no token, there is none.
#[derive(Clone, Copy, Debug)]
pub enum Token<'a> {
    BeginObject,
    EndObject,
    BeginArray,
    EndArray,
    Key(&'a str),
    String(&'a str),
    Number(&'a str),
    Bool(bool),
    Null,
    Bad,
}

/// The letters that stand behind a backslash, and those for which they stand there.
const ESCAPES: [(char, char); 8] = [('"', '"'), ('\\', '\\'), ('b', '\u{8}'), ('f', '\u{c}'), ('n', '\n'), ('r', '\r'), ('t', '\t'), ('/', '/')];

/// Whether a byte can't be in a string as it is.
fn is_stop(byte: u8) -> bool {
    matches!(byte, b'"' | b'\\' | 0..0x20)
}

#[inline(always)]
fn is_blank(byte: u8) -> bool {
    byte <= b' ' && matches!(byte, b' ' | b'\t' | b'\n' | b'\r')
}

/// Whether a word goes on with this byte: no blank, comma, colon or bracket.
#[inline(always)]
fn is_inner(byte: u8) -> bool {
    !(is_blank(byte) || matches!(byte, b',' | b':' | b'[' | b']' | b'{' | b'}'))
}

/// The letters from this byte on before that one.
#[inline(always)]
fn part(text: &str, from: usize, end: usize) -> Option<&str> {
    text.split_at_checked(end)?.0.split_at_checked(from).map(|(_, part)| part)
}

/// The lowest bit of each byte of a word.
const ONES: u64 = u64::MAX / 255;

/// The high bits of the bytes at which a string ends, or that can't be in one, of the first one surely.
#[inline(always)]
fn ends(bytes: u64) -> u64 {
    // With its second bit the other way, a quote stands behind the control characters and before the other bytes.
    (bytes ^ (ONES * 2)).wrapping_sub(ONES * 0x21) & !bytes & (ONES * 0x80)
}

/// The same with backslashes.
#[inline(always)]
fn stops(bytes: u64) -> u64 {
    ends(bytes) | ((bytes ^ (ONES * u64::from(b'\\'))).wrapping_sub(ONES) & !bytes & (ONES * 0x80))
}

/// The first byte from this one on that can't be in a string as it is, of eight at once.
#[inline(always)]
fn stop_from(text: &[u8], from: usize) -> Option<usize> {
    let (mut at, mut left) = (from, text.get(from..)?);
    while let Some((eight, behind)) = left.split_first_chunk() {
        let found = stops(u64::from_le_bytes(*eight));
        if found != 0 {
            return Some(at + found.trailing_zeros() as usize / 8);
        }
        (at, left) = (at + 8, behind);
    }
    Some(at + left.iter().position(|byte| is_stop(*byte))?)
}

/// The high bits of the bytes that are no digits.
#[inline(always)]
fn no_digits(bytes: u64) -> u64 {
    // A digit is what its lower half is, with which a number from ten on reaches the highest bit.
    let numbers = bytes ^ (ONES * u64::from(b'0'));
    (((numbers & (ONES * 0x7f)) + ONES * 0x76) | numbers) & (ONES * 0x80)
}

/// How many digits stand in front, of eight bytes looked at at once.
#[inline(always)]
fn digit_count(text: &[u8]) -> usize {
    match text.first_chunk().map(|eight| no_digits(u64::from_le_bytes(*eight))) {
        None | Some(0) => text.iter().take_while(|byte| byte.is_ascii_digit()).count(),
        Some(others) => others.trailing_zeros() as usize / 8,
    }
}

/// Whether each byte can be in a string as it is. The last eight bytes, of short texts the first and last four, are looked at at once.
#[inline]
fn is_plain(text: &[u8]) -> bool {
    if let Some(last) = text.last_chunk() {
        let mut left = text;
        while let Some((eight, behind)) = left.split_first_chunk() {
            if stops(u64::from_le_bytes(*eight)) != 0 {
                return false;
            }
            left = behind;
        }
        return stops(u64::from_le_bytes(*last)) == 0;
    }
    match (text.first_chunk::<4>(), text.last_chunk::<4>()) {
        (Some([a, b, c, d]), Some([e, f, g, h])) => stops(u64::from_le_bytes([*a, *b, *c, *d, *e, *f, *g, *h])) == 0,
        _ => !text.iter().any(|byte| is_stop(*byte)),
    }
}

/// Takes what stands behind a backslash, and gives the letter for which it stands. Four digits are a unit of UTF-16; a letter has one or two.
fn unescaped(letters: &mut Chars<'_>) -> Option<char> {
    let mut before = "u";
    let units = from_fn(|| {
        let (digits, left) = letters.as_str().strip_prefix(before)?.split_at_checked(4)?;
        let unit = u16::from_str_radix(digits, 16).ok().filter(|_| !digits.starts_with('+'))?;
        (before, *letters) = ("\\u", left.chars());
        Some(unit)
    });
    if let Some(letter) = decode_utf16(units).next() {
        return letter.ok();
    }
    letters.next().and_then(|letter| ESCAPES.iter().find(|escape| escape.0 == letter)).map(|escape| escape.1)
}

/// Whether a word is a number of JSON: digits are in front and behind its point, and no zero stands before other digits.
fn is_number(word: &str) -> bool {
    let whole = word.strip_prefix('-').unwrap_or(word).as_bytes();
    let (digits, mut behind) = whole.split_at(digit_count(whole));
    if !matches!(digits, [_] | [b'1'..=b'9', ..]) {
        return false;
    }
    if let [b'.', fraction @ ..] = behind {
        let (digits, others) = fraction.split_at(digit_count(fraction));
        if digits.is_empty() {
            return false;
        }
        behind = others;
    }
    match behind {
        [] => true,
        [b'e' | b'E', b'+' | b'-', exponent @ ..] | [b'e' | b'E', exponent @ ..] => !exponent.is_empty() && digit_count(exponent) == exponent.len(),
        _ => false,
    }
}

/// The memory of a reader: room for strings without their escapes.
pub type Scratch = Vec<u8>;

/// The tokens of a text.
pub struct Reader<'a> {
    text: &'a str,
    /// The byte at which the next token begins.
    at: usize,
    state: u8,
    /// Whether a backslash is in the text.
    has_escapes: bool,
    room: &'a mut [u8],
}

/// A value or a key may begin; what is open may be closed, or the text end. Neither holds behind what is no token.
const BEGINS: u8 = 1;
const CLOSES: u8 = 2;

impl<'a> Reader<'a> {
    pub fn new(text: &'a str, room: &'a mut Scratch) -> Result<Reader<'a>, AllocError> {
        // No string is longer than what is written for it. All bytes are looked at, so that many are at once.
        let has_escapes = text.bytes().fold(false, |found, byte| found | (byte == b'\\'));
        let least = if has_escapes { text.len() } else { 0 };
        room.try_resize(least.max(room.len()), 0)?;
        Ok(Reader { text, at: 0, state: BEGINS | CLOSES, has_escapes, room })
    }

    /// The byte at which the next token begins.
    pub fn offset(&self) -> usize {
        let at = self.behind_blanks(self.at);
        if self.state == CLOSES && self.text.as_bytes().get(at) == Some(&b',') { self.behind_blanks(at + 1) } else { at }
    }

    /// The first byte from this one on that is no blank, of eight spaces at once.
    fn behind_blanks(&self, from: usize) -> usize {
        let text = self.text.as_bytes();
        let mut at = from;
        loop {
            while let Some(eight) = text.get(at..).and_then(|left| left.first_chunk()) {
                let spaces = (u64::from_le_bytes(*eight) ^ (ONES * u64::from(b' '))).trailing_zeros() as usize / 8;
                at += spaces;
                if spaces < 8 {
                    break;
                }
            }
            match text.get(at) {
                Some(byte) if is_blank(*byte) => at += 1,
                _ => return at,
            }
        }
    }

    /// The next token.
    #[allow(clippy::should_implement_trait)]
    #[inline(never)]
    pub fn next(&mut self) -> Option<Token<'a>> {
        let (text, mut at, mut state) = (self.text.as_bytes(), self.at, self.state);
        let Some(mut first) = text.get(at).copied() else { return self.last() };
        if first == b',' {
            if state != CLOSES {
                return self.bad_at(at);
            }
            // What follows may not close anything.
            (at, state) = (at + 1, BEGINS);
            match text.get(at) {
                Some(b'"') => return self.string(at + 1),
                Some(behind) => first = *behind,
                None => return self.bad_at(at),
            }
        }
        if state & BEGINS == 0 {
            return self.next_end(at, first);
        }
        if first == b'"' {
            return self.string(at + 1);
        }
        if first.is_ascii_digit() {
            return self.word(at);
        }
        match first {
            b'{' => self.go_behind(at + 1, BEGINS | CLOSES, Token::BeginObject),
            b'[' => self.go_behind(at + 1, BEGINS | CLOSES, Token::BeginArray),
            b'-' => self.word(at),
            byte if is_blank(byte) => self.next_behind_blanks(at, state),
            b'}' | b']' if state != BEGINS => self.next_end(at, first),
            _ => self.other_word(at),
        }
    }

    /// The token at this byte, where no value may begin.
    #[inline(always)]
    fn next_end(&mut self, at: usize, first: u8) -> Option<Token<'a>> {
        match first {
            b'}' if self.state != 0 => self.go_behind(at + 1, CLOSES, Token::EndObject),
            b']' if self.state != 0 => self.go_behind(at + 1, CLOSES, Token::EndArray),
            byte if is_blank(byte) => self.next_behind_blanks(at, self.state),
            _ => self.bad_at(at),
        }
    }

    #[cold]
    #[inline(never)]
    fn next_behind_blanks(&mut self, at: usize, state: u8) -> Option<Token<'a>> {
        (self.at, self.state) = (self.behind_blanks(at), state);
        self.next()
    }

    /// Goes behind a token, to this byte.
    #[inline(always)]
    fn go_behind(&mut self, to: usize, state: u8, token: Token<'a>) -> Option<Token<'a>> {
        (self.at, self.state) = (to, state);
        Some(token)
    }

    /// What the end of the text is.
    #[cold]
    fn last(&mut self) -> Option<Token<'a>> {
        if self.state & CLOSES == 0 { self.bad_at(self.at) } else { None }
    }

    /// What is no token, at this byte. Behind it there is none.
    #[cold]
    fn bad_at(&mut self, at: usize) -> Option<Token<'a>> {
        if self.state == 0 { None } else { self.go_behind(at, 0, Token::Bad) }
    }

    /// The string in front. Most are of fifteen bytes at most, in texts without a backslash.
    #[inline(never)]
    fn string(&mut self, from: usize) -> Option<Token<'a>> {
        if self.has_escapes {
            return self.long_string(from);
        }
        let Some(left) = self.text.get(from..) else { return self.bad_at(from - 1) };
        let Some(first) = left.as_bytes().first_chunk() else { return self.long_string(from) };
        let found = ends(u64::from_le_bytes(*first));
        if found != 0 {
            return self.string_in(from, left, found.trailing_zeros() as usize / 8);
        }
        self.middle_string(from, left)
    }

    /// The string at the front of what is left, which doesn't end in its first eight bytes.
    #[inline(never)]
    fn middle_string(&mut self, from: usize, left: &'a str) -> Option<Token<'a>> {
        let Some(second) = left.as_bytes().get(8..).and_then(|left| left.first_chunk()) else { return self.long_string(from) };
        let found = ends(u64::from_le_bytes(*second));
        if found != 0 {
            return self.string_in(from, left, 8 + found.trailing_zeros() as usize / 8);
        }
        self.long_string(from)
    }

    /// The string of so many bytes in front of what stands behind its first quote.
    #[inline(always)]
    fn string_in(&mut self, from: usize, left: &'a str, len: usize) -> Option<Token<'a>> {
        // A quote begins a letter.
        match (left.as_bytes().get(len), left.get(..len)) {
            (Some(b'"'), Some(string)) => {
                let end = from + len + 1;
                match left.as_bytes().get(len + 1) {
                    Some(b':') => self.go_behind(end + 1, BEGINS | CLOSES, Token::Key(string)),
                    Some(byte) if *byte <= b' ' => self.string_before_blanks(end, string),
                    _ => self.go_behind(end, CLOSES, Token::String(string)),
                }
            }
            _ => self.bad_at(from - 1),
        }
    }

    /// The string that begins at this byte.
    #[cold]
    #[inline(never)]
    fn long_string(&mut self, from: usize) -> Option<Token<'a>> {
        match stop_from(self.text.as_bytes(), from) {
            Some(end) if self.text.as_bytes()[end] == b'"' => self.string_to(from, end),
            Some(end) => self.escaped(from, end),
            None => self.bad_at(from - 1),
        }
    }

    /// The string between two of these bytes, at the second of which its quote stands.
    #[inline(always)]
    fn string_to(&mut self, from: usize, end: usize) -> Option<Token<'a>> {
        match part(self.text, from, end) {
            Some(string) => self.go_behind_string(end + 1, string),
            None => self.bad_at(from - 1),
        }
    }

    /// Goes behind a string that ends before this byte.
    #[inline(always)]
    fn go_behind_string(&mut self, end: usize, string: &'a str) -> Option<Token<'a>> {
        match self.text.as_bytes().get(end) {
            Some(b':') => self.go_behind(end + 1, BEGINS | CLOSES, Token::Key(string)),
            Some(byte) if *byte <= b' ' => self.string_before_blanks(end, string),
            _ => self.go_behind(end, CLOSES, Token::String(string)),
        }
    }

    #[cold]
    #[inline(never)]
    fn string_before_blanks(&mut self, end: usize, string: &'a str) -> Option<Token<'a>> {
        let to = self.behind_blanks(end);
        if self.text.as_bytes().get(to) == Some(&b':') { self.go_behind_string(to, string) } else { self.go_behind(to, CLOSES, Token::String(string)) }
    }

    /// The string that begins at the first of these bytes, and has its first escape at the second.
    #[cold]
    #[inline(never)]
    fn escaped(&mut self, from: usize, first: usize) -> Option<Token<'a>> {
        match self.escaped_end(from, first) {
            Some((end, string)) => self.go_behind_string(end, string),
            None => self.bad_at(from - 1),
        }
    }

    fn escaped_end(&mut self, from: usize, first: usize) -> Option<(usize, &'a str)> {
        let (text, mut end) = (self.text, first);
        while text.as_bytes()[end] == b'\\' {
            end = stop_from(text.as_bytes(), end + 2)?;
        }
        let raw = text.get(from..end).filter(|_| text.as_bytes()[end] == b'"')?;
        Some((end + 1, self.unescape(raw)?))
    }

    fn unescape(&mut self, raw: &str) -> Option<&'a str> {
        let (mut len, mut letters) = (0, raw.chars());
        while let Some(letter) = letters.next() {
            let letter = if letter == '\\' { unescaped(&mut letters)? } else { letter };
            len += letter.encode_utf8(&mut self.room[len..]).len();
        }
        let (text, room) = take(&mut self.room).split_at_mut(len);
        self.room = room;
        from_utf8(text).ok()
    }

    /// The word in front, up to a blank or a mark: what runs into another token is none. Most are whole numbers of up to seven digits.
    #[inline(never)]
    fn word(&mut self, at: usize) -> Option<Token<'a>> {
        let Some(left) = self.text.get(at..) else { return self.bad_at(at) };
        let Some(eight) = left.as_bytes().first_chunk() else { return self.long_word(at, left) };
        let found = no_digits(u64::from_le_bytes(*eight));
        let count = found.trailing_zeros() as usize / 8;
        if found == 0 || (count != 1 && eight[0] == b'0') || !matches!(eight[count], b',' | b']' | b'}') {
            return if eight.get(count) == Some(&b'.') { self.other_word(at) } else { self.long_word(at, left) };
        }
        match left.get(..count) {
            Some(number) if count != 0 => self.go_behind(at + count, CLOSES, Token::Number(number)),
            _ => self.bad_at(at),
        }
    }

    /// The word at the front of what is left.
    #[inline(never)]
    fn long_word(&mut self, at: usize, left: &'a str) -> Option<Token<'a>> {
        let sign = usize::from(left.as_bytes().first() == Some(&b'-'));
        let digits = left.as_bytes().get(sign..).unwrap_or_default();
        let count = digit_count(digits);
        let is_whole = matches!((count, digits.first()), (1, _) | (2.., Some(b'1'..=b'9'))) && matches!(digits.get(count), None | Some(b',' | b']' | b'}'));
        match left.split_at_checked(sign + count) {
            // Whole numbers need no closer look.
            Some((number, _)) if is_whole => self.go_behind(at + number.len(), CLOSES, Token::Number(number)),
            _ => self.other_word(at),
        }
    }

    #[inline(never)]
    fn other_word(&mut self, at: usize) -> Option<Token<'a>> {
        match self.word_in_front(at) {
            Some((end, token)) => self.go_behind(end, CLOSES, token),
            None => self.bad_at(at),
        }
    }

    fn word_in_front(&self, at: usize) -> Option<(usize, Token<'a>)> {
        let left = self.text.get(at..)?;
        let word = match left.bytes().position(|byte| !is_inner(byte)) {
            Some(len) => left.get(..len)?,
            None => left,
        };
        let token = match word {
            "true" => Token::Bool(true),
            "false" => Token::Bool(false),
            "null" => Token::Null,
            word if is_number(word) => Token::Number(word),
            _ => return None,
        };
        Some((at + word.len(), token))
    }
}

/// Why a text is no value.
#[derive(Clone, Copy, Debug, PartialEq, Eq)]
pub enum Error {
    Invalid,
    OutOfMemory,
}

impl From<AllocError> for Error {
    fn from(_: AllocError) -> Error {
        Error::OutOfMemory
    }
}

/// How deep the arrays and the objects of a value nest at most.
const MAX_DEPTH: usize = 128;

/// The value that a text is. An object has its members in their order, also those under one key.
#[derive(Debug)]
pub enum Value<'a> {
    Null,
    Bool(bool),
    Number(&'a str),
    String(&'a str),
    Array(Vec<Value<'a>>),
    Object(Vec<(&'a str, Value<'a>)>),
}

/// A container of which not all was read: its values so far, and in an object the key that stands before the next.
enum Begun<'a> {
    Array(Vec<Value<'a>>),
    Object(Vec<(&'a str, Value<'a>)>, Option<&'a str>),
}

impl<'a> Value<'a> {
    pub fn parse(text: &'a str, room: &'a mut Scratch) -> Result<Value<'a>, Error> {
        let mut reader = Reader::new(text, room)?;
        let mut around = Vec::new();
        loop {
            let value = match reader.next() {
                Some(Token::Null) => Value::Null,
                Some(Token::Bool(flag)) => Value::Bool(flag),
                Some(Token::Number(text)) => Value::Number(text),
                Some(Token::String(text)) => Value::String(text),
                Some(Token::BeginArray | Token::BeginObject) if around.len() == MAX_DEPTH => return Err(Error::Invalid),
                Some(Token::BeginArray) => {
                    around.try_push(Begun::Array(Vec::new())).map_err(AllocError::from)?;
                    continue;
                }
                Some(Token::BeginObject) => {
                    around.try_push(Begun::Object(Vec::new(), None)).map_err(AllocError::from)?;
                    continue;
                }
                Some(Token::Key(key)) => match around.last_mut() {
                    Some(Begun::Object(_, before @ None)) => {
                        *before = Some(key);
                        continue;
                    }
                    _ => return Err(Error::Invalid),
                },
                Some(Token::EndArray) => match around.pop() {
                    Some(Begun::Array(items)) => Value::Array(items),
                    _ => return Err(Error::Invalid),
                },
                Some(Token::EndObject) => match around.pop() {
                    Some(Begun::Object(members, None)) => Value::Object(members),
                    _ => return Err(Error::Invalid),
                },
                Some(Token::Bad) | None => return Err(Error::Invalid),
            };
            match around.last_mut() {
                Some(Begun::Array(items)) => items.try_push(value).map_err(AllocError::from)?,
                Some(Begun::Object(members, before)) => {
                    let key = before.take().ok_or(Error::Invalid)?;
                    members.try_push((key, value)).map_err(AllocError::from)?;
                }
                None if reader.next().is_some() => return Err(Error::Invalid),
                None => return Ok(value),
            }
        }
    }
}

/// Writes tokens without blanks between them, or as `jq` does: each member and each property on a line of its own.
pub struct Tokens<const ON_LINES: bool> {
    out: Vec<u8>,
    depth: usize,
}
pub type Writer = Tokens<false>;
pub type Pretty = Tokens<true>;

impl Writer {
    /// This room is empty.
    pub fn new(room: Vec<u8>) -> Writer {
        Tokens { out: room, depth: 0 }
    }
}

impl Pretty {
    pub fn new() -> Pretty {
        Tokens { out: Vec::new(), depth: 0 }
    }
}

macro_rules! written {
    ($($name:ident($($arg:ident: $type_:ty)?) $put:ident($($what:expr),*);)*) => {
        $(pub fn $name(&mut self $(, $arg: $type_)?) -> Result<(), AllocError> {
            self.$put($($what),*)
        })*
    };
}

impl<const ON_LINES: bool> Tokens<ON_LINES> {
    pub fn into_inner(self) -> Vec<u8> {
        self.out
    }

    fn put(&mut self, text: &str) -> Result<(), AllocError> {
        self.out.try_extend_from_slice(text.as_bytes())
    }

    /// Puts one byte.
    #[inline(always)]
    fn put_byte(&mut self, byte: u8) -> Result<(), AllocError> {
        self.out.try_push(byte).map_err(AllocError::from)
    }

    /// Puts a string, and behind a key the colon.
    fn put_string(&mut self, text: &str, is_key: bool) -> Result<(), AllocError> {
        self.out.make_room(text.len() + 3)?;
        self.out.push(b'"');
        if is_plain(text.as_bytes()) {
            self.out.extend_from_slice(text.as_bytes());
        } else {
            self.put_escaped(text)?;
        }
        self.put_byte(b'"')?;
        if is_key { self.put_byte(b':') } else { Ok(()) }
    }

    #[inline(never)]
    fn put_escaped(&mut self, text: &str) -> Result<(), AllocError> {
        for byte in text.bytes() {
            match ESCAPES[..7].iter().find(|escape| escape.1 == char::from(byte)) {
                Some((letter, _)) => self.out.try_extend_from_slice(&[b'\\', *letter as u8])?,
                None if is_stop(byte) => self.out.try_extend_from_slice(&[b'\\', b'u', b'0', b'0', b'0' + byte / 16, DIGITS[byte as usize % 16]])?,
                None => self.out.try_push(byte)?,
            }
        }
        Ok(())
    }

    /// Puts what stands between the last token and the next.
    #[inline(always)]
    fn put_between(&mut self, closes: bool) -> Result<(), AllocError> {
        match self.out.last() {
            None => return Ok(()),
            Some(b':') => return if ON_LINES { self.put_byte(b' ') } else { Ok(()) },
            Some(b'{' | b'[') if closes => return Ok(()),
            Some(b'{' | b'[') => {}
            _ if closes => {}
            _ => self.put_byte(b',')?,
        }
        if ON_LINES {
            self.put("\n")?;
            self.out.try_resize(self.out.len() + 2 * self.depth, b' ')?;
        }
        Ok(())
    }

    #[inline(always)]
    pub fn token(&mut self, token: Token<'_>) -> Result<(), AllocError> {
        let closes = matches!(token, Token::EndObject | Token::EndArray);
        self.depth -= usize::from(ON_LINES && closes);
        self.put_between(closes)?;
        self.depth += usize::from(ON_LINES && matches!(token, Token::BeginObject | Token::BeginArray));
        match token {
            Token::BeginObject => self.put_byte(b'{'),
            Token::EndObject => self.put_byte(b'}'),
            Token::BeginArray => self.put_byte(b'['),
            Token::EndArray => self.put_byte(b']'),
            Token::Key(text) => self.put_string(text, true),
            Token::String(text) => self.put_string(text, false),
            Token::Number(text) => self.put(text),
            Token::Bool(flag) => self.put(if flag { "true" } else { "false" }),
            Token::Null => self.put("null"),
            Token::Bad => Ok(()),
        }
    }

    fn integer(&mut self, sign: &str, mut left: u64) -> Result<(), AllocError> {
        let (mut digits, mut begin) = ([0; 20], 20);
        while begin == 20 || left != 0 {
            digits[begin - 1] = b'0' + (left % 10) as u8;
            (begin, left) = (begin - 1, left / 10);
        }
        self.token(Token::Number(sign))?;
        self.out.try_extend_from_slice(&digits[begin..])
    }

    written! {
        begin_object() token(Token::BeginObject);
        end_object() token(Token::EndObject);
        begin_array() token(Token::BeginArray);
        end_array() token(Token::EndArray);
        key(text: &str) token(Token::Key(text));
        string(text: &str) token(Token::String(text));
        number(text: &str) token(Token::Number(text));
        u64(number: u64) integer("", number);
        i64(number: i64) integer(if number < 0 { "-" } else { "" }, number.unsigned_abs());
        float(number: impl Number) token(Token::Number(Buffer::new().format(number)));
        boolean(flag: bool) token(Token::Bool(flag));
        null() token(Token::Null);
    }
}
