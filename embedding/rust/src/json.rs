//! JSON as the library writes it: compact, valid, with whole numbers.

/// A JSON value.
#[derive(Debug, Clone, PartialEq, Eq)]
pub(crate) enum Json {
    Null,
    Boolean(bool),
    Number(u64),
    Text(String),
    List(Vec<Json>),
    Object(Vec<(String, Json)>),
}

impl Json {
    /// Reads a line of the library.
    ///
    /// # Panics
    ///
    /// Panics if the line is not such JSON, which no line of the library is.
    pub(crate) fn read(line: &[u8]) -> Json {
        let text = std::str::from_utf8(line).expect("the library writes UTF-8");
        let mut rest = text;
        let value = value(&mut rest);
        match value {
            Some(value) if rest.is_empty() => value,
            _ => panic!("the library wrote no JSON: {text}"),
        }
    }

    /// Returns the value under a key, or null.
    pub(crate) fn get(&self, key: &str) -> &Json {
        match self {
            Json::Object(members) => members.iter().find(|(k, _)| k == key).map_or(&Json::Null, |(_, v)| v),
            _ => &Json::Null,
        }
    }

    pub(crate) fn number(&self) -> Option<u64> {
        match self {
            Json::Number(n) => Some(*n),
            _ => None,
        }
    }

    pub(crate) fn text(&self) -> String {
        match self {
            Json::Text(text) => text.clone(),
            _ => String::new(),
        }
    }

    pub(crate) fn list(&self) -> &[Json] {
        match self {
            Json::List(items) => items,
            _ => &[],
        }
    }
}

/// Takes a prefix off the rest.
fn eat(rest: &mut &str, word: &str) -> Option<()> {
    *rest = rest.strip_prefix(word)?;
    Some(())
}

fn value(rest: &mut &str) -> Option<Json> {
    match rest.as_bytes().first()? {
        b'n' => eat(rest, "null").map(|()| Json::Null),
        b't' => eat(rest, "true").map(|()| Json::Boolean(true)),
        b'f' => eat(rest, "false").map(|()| Json::Boolean(false)),
        b'"' => text(rest).map(Json::Text),
        b'[' => list(rest).map(Json::List),
        b'{' => object(rest).map(Json::Object),
        _ => number(rest).map(Json::Number),
    }
}

fn number(rest: &mut &str) -> Option<u64> {
    let end = rest.find(|c: char| !c.is_ascii_digit()).unwrap_or(rest.len());
    let (digits, after) = rest.split_at(end);
    *rest = after;
    digits.parse().ok()
}

fn text(rest: &mut &str) -> Option<String> {
    eat(rest, "\"")?;
    let mut text = String::new();
    loop {
        let mut chars = rest.chars();
        let next = chars.next()?;
        *rest = chars.as_str();
        match next {
            '"' => return Some(text),
            '\\' => text.push(escape(rest)?),
            plain => text.push(plain),
        }
    }
}

fn escape(rest: &mut &str) -> Option<char> {
    let mut chars = rest.chars();
    let kind = chars.next()?;
    *rest = chars.as_str();
    Some(match kind {
        'b' => '\u{8}',
        'f' => '\u{c}',
        'n' => '\n',
        'r' => '\r',
        't' => '\t',
        'u' => {
            let code = u32::from_str_radix(rest.get(..4)?, 16).ok()?;
            *rest = &rest[4..];
            char::from_u32(code)?
        }
        itself => itself,
    })
}

fn list(rest: &mut &str) -> Option<Vec<Json>> {
    eat(rest, "[")?;
    let mut items = Vec::new();
    while !rest.starts_with(']') {
        if !items.is_empty() {
            eat(rest, ",")?;
        }
        items.push(value(rest)?);
    }
    eat(rest, "]")?;
    Some(items)
}

fn object(rest: &mut &str) -> Option<Vec<(String, Json)>> {
    eat(rest, "{")?;
    let mut members = Vec::new();
    while !rest.starts_with('}') {
        if !members.is_empty() {
            eat(rest, ",")?;
        }
        let key = text(rest)?;
        eat(rest, ":")?;
        members.push((key, value(rest)?));
    }
    eat(rest, "}")?;
    Some(members)
}

/// Appends a text as JSON.
pub(crate) fn quote(text: &str, to: &mut String) {
    to.push('"');
    for c in text.chars() {
        match c {
            '"' | '\\' => {
                to.push('\\');
                to.push(c);
            }
            c if c < ' ' => to.push_str(&format!("\\u{:04x}", u32::from(c))),
            c => to.push(c),
        }
    }
    to.push('"');
}
