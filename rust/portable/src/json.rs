//! JSON, as the toolchain writes a library's program: no more of it than that needs.

use crate::Refused;

#[derive(Clone, Debug, PartialEq, Eq, PartialOrd, Ord)]
pub enum Json {
    Null,
    Bool(bool),
    /// The digits as they stand: 64 bits are more than a floating-point number holds.
    Number(String),
    Text(String),
    List(Vec<Json>),
    Map(Vec<(String, Json)>),
}

/// Reads a whole text.
pub fn read(text: &str) -> Result<Json, Refused> {
    let mut reader = Reader { rest: text };
    let value = reader.value()?;
    reader.rest = reader.rest.trim_start();
    if reader.rest.is_empty() {
        Ok(value)
    } else {
        Err(reader.wrong("its end"))
    }
}

struct Reader<'a> {
    rest: &'a str,
}

impl Reader<'_> {
    fn wrong(&self, wanted: &str) -> Refused {
        let found: String = self.rest.chars().take(20).collect();
        Refused::new(format!("no JSON: {wanted} is wanted where there is '{found}'"))
    }

    /// Takes a mark that stands next, blanks aside.
    fn takes(&mut self, mark: char) -> bool {
        self.rest = self.rest.trim_start();
        match self.rest.strip_prefix(mark) {
            Some(rest) => {
                self.rest = rest;
                true
            }
            None => false,
        }
    }

    fn value(&mut self) -> Result<Json, Refused> {
        if self.takes('[') {
            return self.several(']', Reader::value).map(Json::List);
        }
        if self.takes('{') {
            return self.several('}', Reader::entry).map(Json::Map);
        }
        if self.takes('"') {
            return self.text().map(Json::Text);
        }
        let end = self.rest.find(|c: char| !c.is_ascii_alphanumeric()).unwrap_or(self.rest.len());
        let word = &self.rest[..end];
        let value = match word {
            "null" => Json::Null,
            "true" => Json::Bool(true),
            "false" => Json::Bool(false),
            _ if !word.is_empty() && word.bytes().all(|byte| byte.is_ascii_digit()) => {
                Json::Number(word.to_string())
            }
            _ => return Err(self.wrong("a value")),
        };
        self.rest = &self.rest[end..];
        Ok(value)
    }

    /// What stands between commas up to a closing mark.
    fn several<T>(
        &mut self,
        end: char,
        one: impl Fn(&mut Self) -> Result<T, Refused>,
    ) -> Result<Vec<T>, Refused> {
        let mut found = Vec::new();
        if self.takes(end) {
            return Ok(found);
        }
        loop {
            found.push(one(self)?);
            if self.takes(end) {
                return Ok(found);
            }
            if !self.takes(',') {
                return Err(self.wrong("a comma"));
            }
        }
    }

    fn entry(&mut self) -> Result<(String, Json), Refused> {
        if !self.takes('"') {
            return Err(self.wrong("a key"));
        }
        let key = self.text()?;
        if !self.takes(':') {
            return Err(self.wrong("a colon"));
        }
        Ok((key, self.value()?))
    }

    /// A text behind its first quotation mark. Names have no sign that is written in another way.
    fn text(&mut self) -> Result<String, Refused> {
        let end = self.rest.find(['"', '\\']).filter(|end| self.rest[*end..].starts_with('"'));
        let Some(end) = end else { return Err(self.wrong("a text without a backslash")) };
        let text = self.rest[..end].to_string();
        self.rest = &self.rest[end + 1..];
        Ok(text)
    }
}

impl Json {
    /// A variant that is written as its name alone, or as a map of its name to what it holds.
    pub fn variant(&self) -> Option<(&str, &Json)> {
        match self {
            Json::Text(name) => Some((name, &Json::Null)),
            Json::Map(entries) => match &entries[..] {
                [(name, of)] => Some((name, of)),
                _ => None,
            },
            _ => None,
        }
    }

    pub fn list(&self) -> Option<&[Json]> {
        match self {
            Json::List(items) => Some(items),
            _ => None,
        }
    }

    pub fn text(&self) -> Option<&str> {
        match self {
            Json::Text(text) => Some(text),
            _ => None,
        }
    }

    pub fn number(&self) -> Option<&str> {
        match self {
            Json::Number(digits) => Some(digits),
            _ => None,
        }
    }

    /// What a map has for a key.
    pub fn of(&self, key: &str) -> Option<&Json> {
        match self {
            Json::Map(entries) => entries.iter().find(|(name, _)| name == key).map(|(_, of)| of),
            _ => None,
        }
    }

    pub fn is_empty_list(&self) -> bool {
        self.list().is_some_and(<[Json]>::is_empty)
    }

    /// The beginning of its text, for a message.
    pub fn short(&self) -> String {
        let whole = match self {
            Json::Null => "null".to_string(),
            Json::Bool(value) => value.to_string(),
            Json::Number(digits) => digits.clone(),
            Json::Text(text) => text.clone(),
            Json::List(items) => {
                let parts: Vec<String> = items.iter().take(4).map(Json::short).collect();
                format!("[{}]", parts.join(" "))
            }
            Json::Map(entries) => {
                let part = |(name, of): &(String, Json)| format!("{name} {}", of.short());
                format!("({})", entries.iter().take(4).map(part).collect::<Vec<_>>().join(" "))
            }
        };
        whole.chars().take(80).collect()
    }
}
