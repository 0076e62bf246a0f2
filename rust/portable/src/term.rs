//! The text of a term as the toolchain prints it: words, quoted texts and parentheses. What the words mean is `program`'s business.

use crate::Refused;

/// A word, a text in quotation marks, or what stands within parentheses.
#[derive(Clone, Debug, PartialEq, Eq)]
pub enum Node {
    Word(String),
    Text(String),
    List(Vec<Node>),
}

/// Reads a whole text; it need not have parentheses around it.
pub fn read(text: &str) -> Result<Node, Refused> {
    let mut open: Vec<Vec<Node>> = vec![Vec::new()];
    let mut rest = text;
    loop {
        rest = rest.trim_start();
        let Some(first) = rest.chars().next() else { break };
        match first {
            '(' => open.push(Vec::new()),
            ')' => close(&mut open)?,
            '"' => {
                let Some((inner, after)) = rest[1..].split_once('"') else {
                    return Err(Refused::new("a text without its second quotation mark"));
                };
                add(&mut open, Node::Text(inner.to_string()));
                rest = after;
                continue;
            }
            _ => {
                let end = rest.find(|c: char| c.is_whitespace() || "()\"".contains(c)).unwrap_or(rest.len());
                add(&mut open, Node::Word(rest[..end].to_string()));
                rest = &rest[end..];
                continue;
            }
        }
        rest = &rest[1..];
    }
    match (open.pop(), open.is_empty()) {
        (Some(nodes), true) => Ok(Node::List(nodes)),
        _ => Err(Refused::new("a parenthesis that is not closed")),
    }
}

fn add(open: &mut [Vec<Node>], node: Node) {
    if let Some(innermost) = open.last_mut() {
        innermost.push(node);
    }
}

fn close(open: &mut Vec<Vec<Node>>) -> Result<(), Refused> {
    match open.pop() {
        Some(nodes) if !open.is_empty() => {
            add(open, Node::List(nodes));
            Ok(())
        }
        _ => Err(Refused::new("a parenthesis that is closed and was not opened")),
    }
}

impl Node {
    /// The constructor at the front, and what it is applied to.
    pub fn applied(&self) -> Result<(&str, &[Node]), Refused> {
        match self {
            Node::Word(word) => Ok((word, &[])),
            Node::List(nodes) => match nodes.split_first() {
                Some((Node::Word(word), rest)) => Ok((word, rest)),
                _ => Err(Refused::new(format!("no constructor at the front of {}", self.short()))),
            },
            Node::Text(text) => Err(Refused::new(format!("the text \"{text}\" where a constructor is needed"))),
        }
    }

    /// A list that is made of one constructor with a head and a rest, and one for its end.
    pub fn items(&self, cons: &str, nil: &str) -> Result<Vec<&Node>, Refused> {
        let mut items = Vec::new();
        let mut at = self;
        loop {
            match at.applied()? {
                (word, [head, rest]) if word == cons => {
                    items.push(head);
                    at = rest;
                }
                (word, []) if word == nil => return Ok(items),
                _ => return Err(Refused::new(format!("no list of {cons} and {nil}: {}", at.short()))),
            }
        }
    }

    pub fn number(&self) -> Result<u64, Refused> {
        match self {
            Node::Word(word) => word.parse().map_err(|_| Refused::new(format!("no number: {word}"))),
            _ => Err(Refused::new(format!("no number: {}", self.short()))),
        }
    }

    pub fn place(&self) -> Result<usize, Refused> {
        usize::try_from(self.number()?).map_err(|_| Refused::new(format!("too large: {}", self.short())))
    }

    pub fn text(&self) -> Result<&str, Refused> {
        match self {
            Node::Text(text) => Ok(text),
            _ => Err(Refused::new(format!("no text: {}", self.short()))),
        }
    }

    /// The beginning of the node's text, for a message.
    pub fn short(&self) -> String {
        let whole = match self {
            Node::Word(word) => word.clone(),
            Node::Text(text) => format!("\"{text}\""),
            Node::List(nodes) => {
                let parts: Vec<String> = nodes.iter().take(4).map(Node::short).collect();
                format!("({})", parts.join(" "))
            }
        };
        whole.chars().take(80).collect()
    }
}
