//! A script cut into words: names, numbers and marks. What follows `#` in a line is a remark.
use std::error::Error;

/// What is wrong with a script, in words.
pub type Fault = Box<dyn Error>;

/// The words of a script with their lines, and how far they are read.
pub struct Words<'a> {
    words: Vec<(&'a str, usize)>,
    /// The place of the next word.
    pub at: usize,
}

/// How long the first word is.
fn length(text: &str) -> Option<usize> {
    let while_it = |belongs: fn(char) -> bool| text.find(|letter| !belongs(letter)).unwrap_or(text.len());
    match text.chars().next()? {
        '0'..='9' => Some(while_it(|letter| letter.is_ascii_digit() || letter == '.')),
        'a'..='z' | 'A'..='Z' => Some(while_it(|letter| letter.is_ascii_alphanumeric() || letter == '_')),
        '<' | '=' if text[1..].starts_with('=') => Some(2),
        mark => "<=+-*/(){};".contains(mark).then_some(1),
    }
}

impl<'a> Words<'a> {
    /// Cuts a script, or says in which line a word is none.
    pub fn of(script: &'a str) -> Result<Words<'a>, String> {
        let mut words = vec![];
        for (text, line) in script.lines().zip(1..) {
            let mut rest = text.split('#').next().unwrap_or_default().trim();
            while !rest.is_empty() {
                let (word, after) = rest.split_at(length(rest).ok_or_else(|| format!("line {line}: `{rest}` begins no word"))?);
                words.push((word, line));
                rest = after.trim_start();
            }
        }
        Ok(Words { words, at: 0 })
    }

    /// The next word, which stays; an empty one at the end.
    pub fn peek(&self) -> &'a str {
        self.words.get(self.at).map_or("", |(word, _)| word)
    }

    /// The next word, which is taken.
    pub fn take(&mut self) -> &'a str {
        let word = self.peek();
        self.at += 1;
        word
    }

    /// Takes the next word if it is this one. Was it?
    pub fn take_if(&mut self, word: &str) -> bool {
        let is = self.peek() == word;
        self.at += usize::from(is);
        is
    }

    /// Takes this word; another is a fault.
    pub fn want(&mut self, word: &str) -> Result<(), Fault> {
        match self.take_if(word) {
            true => Ok(()),
            false => Err(format!("`{word}` is wanted, not `{}`", self.peek()).into()),
        }
    }

    /// Takes a word that can be a name; another is a fault.
    pub fn take_name(&mut self) -> Result<&'a str, Fault> {
        let word = self.take();
        let free = word.starts_with(|letter: char| letter.is_ascii_alphabetic())
            && !["if", "else", "while", "repeat", "to", "return", "input"].contains(&word);
        free.then_some(word).ok_or_else(|| format!("`{word}` is no name").into())
    }

    /// The line of the word that was taken last.
    pub fn line(&self) -> usize {
        let taken = self.at.saturating_sub(1).min(self.words.len().saturating_sub(1));
        self.words.get(taken).map_or(1, |(_, line)| *line)
    }
}
