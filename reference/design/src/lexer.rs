//! Words of the text form, each with its line.

use std::fmt;

#[derive(Clone, PartialEq, Eq, Debug)]
pub enum Token {
    Name(String),
    Keyword(&'static str),
    Number(u32),
    Symbol(char),
    End,
}

impl fmt::Display for Token {
    fn fmt(&self, out: &mut fmt::Formatter) -> fmt::Result {
        match self {
            Token::Name(name) => write!(out, "`{name}`"),
            Token::Keyword(word) => write!(out, "`{word}`"),
            Token::Number(number) => write!(out, "`{number}`"),
            Token::Symbol(symbol) => write!(out, "`{symbol}`"),
            Token::End => write!(out, "the end of the text"),
        }
    }
}

/// What was wrong with a text and on which line, from 1.
#[derive(Clone, PartialEq, Eq, Debug)]
pub struct TextError {
    pub line: usize,
    pub message: String,
}

impl fmt::Display for TextError {
    fn fmt(&self, out: &mut fmt::Formatter) -> fmt::Result {
        write!(out, "line {}: {}", self.line, self.message)
    }
}

const KEYWORDS: [&str; 6] = ["fun", "if", "then", "else", "let", "in"];

/// All tokens with their lines; the last is the end of the text.
pub fn tokens(text: &str) -> Result<Vec<(Token, usize)>, TextError> {
    let mut found = Vec::new();
    let mut last_line = 1;
    for (index, content) in text.lines().enumerate() {
        last_line = index + 1;
        let code = content.split('#').next().unwrap_or("");
        let mut rest = code.trim_start();
        while let Some(start) = rest.chars().next() {
            let is_word = |c: char| c.is_ascii_alphanumeric() || c == '_';
            let length = match is_word(start) {
                true => rest.find(|c| !is_word(c)).unwrap_or(rest.len()),
                false => start.len_utf8(),
            };
            let (word, after) = rest.split_at(length);
            found.push((token(word, start, last_line)?, last_line));
            rest = after.trim_start();
        }
    }
    found.push((Token::End, last_line));
    Ok(found)
}

fn token(word: &str, start: char, line: usize) -> Result<Token, TextError> {
    if start.is_ascii_digit() {
        return number(word).map(Token::Number).ok_or_else(|| TextError {
            line,
            message: format!("expected a number from 0 to {}, found `{word}`", u32::MAX),
        });
    }
    if start.is_ascii_alphabetic() || start == '_' {
        let keyword = KEYWORDS.iter().find(|keyword| **keyword == word);
        return Ok(keyword.map_or_else(|| Token::Name(word.to_string()), |keyword| Token::Keyword(keyword)));
    }
    if "(),:=".contains(start) {
        return Ok(Token::Symbol(start));
    }
    // What can't be seen is told by its number.
    let shown = if start.is_ascii_graphic() { start.to_string() } else { start.escape_debug().to_string() };
    Err(TextError { line, message: format!("expected a name, a number or one of `(),:=`, found `{shown}`") })
}

fn number(word: &str) -> Option<u32> {
    match word.strip_prefix("0x") {
        // A sign would be taken by the standard reader, but never comes in a word.
        Some(digits) => u32::from_str_radix(digits, 16).ok(),
        None => word.parse().ok(),
    }
}
