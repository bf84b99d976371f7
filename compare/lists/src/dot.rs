//! A reader of Graphviz's language DOT, as far as directed graphs without subgraphs go: written from the language's grammar, without a look at the
//! library's writer. Blanks and ends of lines are where they may be; statements end in `;` or with the next one's start.
use std::iter::Peekable;
use std::str::Chars;

#[derive(PartialEq, Debug)]
pub struct Attribute {
    pub name: String,
    pub value: String,
}

#[derive(PartialEq, Debug)]
pub enum Statement {
    Node { id: String, attributes: Vec<Attribute> },
    Edge { from: String, to: String, attributes: Vec<Attribute> },
}

#[derive(PartialEq, Debug)]
pub struct Digraph {
    pub id: String,
    pub statements: Vec<Statement>,
}

#[derive(Clone, PartialEq, Debug)]
enum Token {
    /// a name, a number or a quoted text
    Id(String),
    Arrow,
    Sign(char),
}

struct Tokens<'a>(Peekable<Chars<'a>>);

impl Tokens<'_> {
    /// A text up to the closing quotation mark; only that mark is escaped.
    fn quoted(&mut self) -> Result<Token, String> {
        let mut text = String::new();
        loop {
            match self.0.next().ok_or("a quoted text without an end")? {
                '"' => return Ok(Token::Id(text)),
                '\\' if self.0.next_if_eq(&'"').is_some() => text.push('"'),
                letter => text.push(letter),
            }
        }
    }

    fn name(&mut self, first: char) -> Token {
        let mut text = String::from(first);
        while let Some(letter) = self.0.next_if(|letter| letter.is_ascii_alphanumeric() || *letter == '_') {
            text.push(letter);
        }
        Token::Id(text)
    }

    fn all(mut self) -> Result<Vec<Token>, String> {
        let mut tokens = Vec::new();
        while let Some(first) = self.0.next() {
            tokens.push(match first {
                _ if first.is_ascii_whitespace() => continue,
                '"' => self.quoted()?,
                '-' if self.0.next_if_eq(&'>').is_some() => Token::Arrow,
                '{' | '}' | '[' | ']' | '=' | ';' | ',' => Token::Sign(first),
                _ if first.is_ascii_alphanumeric() || first == '_' => self.name(first),
                _ => return Err(format!("{first:?} begins nothing")),
            });
        }
        Ok(tokens)
    }
}

struct Reader<'a>(Peekable<std::slice::Iter<'a, Token>>);

impl Reader<'_> {
    fn sign(&mut self, sign: char) -> Result<(), String> {
        if self.passed(sign) { Ok(()) } else { Err(format!("{sign:?} is wanted, and here is {:?}", self.0.peek())) }
    }

    fn passed(&mut self, sign: char) -> bool {
        self.0.next_if_eq(&&Token::Sign(sign)).is_some()
    }

    fn id(&mut self) -> Result<String, String> {
        match self.0.next() {
            Some(Token::Id(id)) => Ok(id.clone()),
            other => Err(format!("a name is wanted, and here is {other:?}")),
        }
    }

    fn attributes(&mut self) -> Result<Vec<Attribute>, String> {
        let mut attributes = Vec::new();
        while self.passed('[') {
            while !self.passed(']') {
                let name = self.id()?;
                self.sign('=')?;
                attributes.push(Attribute { name, value: self.id()? });
                let _ = self.passed(',') || self.passed(';');
            }
        }
        Ok(attributes)
    }

    fn statement(&mut self) -> Result<Statement, String> {
        let id = self.id()?;
        let to = if self.0.next_if_eq(&&Token::Arrow).is_some() { Some(self.id()?) } else { None };
        let attributes = self.attributes()?;
        let _ = self.passed(';');
        Ok(match to {
            None => Statement::Node { id, attributes },
            Some(to) => Statement::Edge { from: id, to, attributes },
        })
    }

    fn digraph(&mut self) -> Result<Digraph, String> {
        if self.id()? != "digraph" {
            return Err("no directed graph begins here".to_string());
        }
        let id = self.id()?;
        self.sign('{')?;
        let mut statements = Vec::new();
        while !self.passed('}') {
            statements.push(self.statement()?);
        }
        Ok(Digraph { id, statements })
    }
}

/// The graphs of a text, one after the other.
pub fn read(text: &str) -> Result<Vec<Digraph>, String> {
    let tokens = Tokens(text.chars().peekable()).all()?;
    let mut reader = Reader(tokens.iter().peekable());
    let mut graphs = Vec::new();
    while reader.0.peek().is_some() {
        graphs.push(reader.digraph()?);
    }
    Ok(graphs)
}

#[cfg(test)]
mod tests {
    use super::*;

    #[test]
    fn blanks_and_signs_are_where_they_may_be() {
        let loose = read("digraph g{a[label=\"x \\\"y\\\"\", shape=box]b->a;\n c -> c [label = \"\"] }").unwrap();
        let attribute = |name: &str, value: &str| Attribute { name: name.to_string(), value: value.to_string() };
        let edge = |from: &str, to: &str, attributes| Statement::Edge { from: from.to_string(), to: to.to_string(), attributes };
        let node = Statement::Node { id: "a".to_string(), attributes: vec![attribute("label", "x \"y\""), attribute("shape", "box")] };
        assert_eq!(loose, [Digraph { id: "g".to_string(), statements: vec![node, edge("b", "a", vec![]), edge("c", "c", vec![attribute("label", "")])] }]);
    }

    #[test]
    fn what_is_no_graph_is_refused() {
        for text in ["digraph g {", "digraph g { a [label=\"x] }", "digraph { }", "graph g { }", "digraph g { a - b }", "digraph g { a [label] }", "}"] {
            assert!(read(text).is_err(), "{text}");
        }
    }
}
