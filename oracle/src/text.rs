//! Documents as KDL text on one line, and the escapes of listings.
//!
//! The reader knows the part of KDL 2.0 that the writer writes: plain and quoted strings, decimal
//! numbers, keywords, types, blocks in one line, and semicolons. Spans are places in the text: a
//! name's and a type's is the string itself, an entry's goes from its name or type to the end of
//! its value, a node's from its type or name to the end of its last entry or its block.

use image::{Entry, Identifier, Node, Span, Value};

/// A text as listings show it: a byte outside 0x21 to 0x7E, and the backslash, is a backslash and
/// two hexadecimal digits.
pub fn escape(text: &str) -> String {
    let mut escaped = String::new();
    for byte in text.bytes() {
        match byte {
            b'\\' => escaped.push_str("\\5c"),
            0x21..=0x7e => escaped.push(char::from(byte)),
            _ => escaped.push_str(&format!("\\{byte:02x}")),
        }
    }
    escaped
}

/// The text that an escaped one stands for.
pub fn unescape(escaped: &str) -> Option<String> {
    let mut bytes = Vec::new();
    let mut rest = escaped.as_bytes();
    while let [first, after @ ..] = rest {
        rest = after;
        if *first == b'\\' {
            let digits = std::str::from_utf8(rest.get(..2)?).ok()?;
            bytes.push(u8::from_str_radix(digits, 16).ok()?);
            rest = &rest[2..];
        } else {
            bytes.push(*first);
        }
    }
    String::from_utf8(bytes).ok()
}

/// The document as KDL text. A float that is no number is written as `#nan`, whatever its bits.
pub fn write(document: &[Node]) -> String {
    let nodes: Vec<String> = document.iter().map(write_node).collect();
    nodes.join("; ")
}

fn write_node(node: &Node) -> String {
    let mut text = write_type(&node.ty) + &write_name(&node.name.text);
    for entry in &node.entries {
        text.push(' ');
        if let Some(name) = &entry.name {
            text += &write_name(&name.text);
            text.push('=');
        }
        text += &write_type(&entry.ty);
        text += &write_value(&entry.value);
    }
    match node.block.as_deref() {
        None => {}
        Some([]) => text += " {}",
        Some(block) => text += &format!(" {{ {} }}", write(block)),
    }
    text
}

fn write_type(ty: &Option<Identifier>) -> String {
    ty.as_ref()
        .map(|ty| format!("({})", write_name(&ty.text)))
        .unwrap_or_default()
}

fn write_name(name: &str) -> String {
    if is_plain(name) {
        name.to_owned()
    } else {
        quote(name)
    }
}

/// Whether a name is written without quotes: ASCII letters, digits, `-` and `_`, with a letter
/// first, and no keyword's name. KDL allows more.
fn is_plain(name: &str) -> bool {
    name.starts_with(|c: char| c.is_ascii_alphabetic())
        && name.chars().all(is_plain_char)
        && !["true", "false", "null", "inf", "nan"].contains(&name)
}

fn is_plain_char(c: char) -> bool {
    c.is_ascii_alphanumeric() || c == '-' || c == '_'
}

fn quote(text: &str) -> String {
    let mut quoted = String::from("\"");
    for c in text.chars() {
        match c {
            '"' => quoted.push_str("\\\""),
            '\\' => quoted.push_str("\\\\"),
            ' '..='~' => quoted.push(c),
            _ => quoted.push_str(&format!("\\u{{{:x}}}", u32::from(c))),
        }
    }
    quoted + "\""
}

fn write_value(value: &Value) -> String {
    match value {
        Value::Text(text) => quote(text),
        Value::Integer(number) => number.to_string(),
        Value::Float(bits) => {
            let number = f64::from_bits(*bits);
            if number.is_nan() {
                "#nan".to_owned()
            } else if number.is_infinite() {
                (if number > 0.0 { "#inf" } else { "#-inf" }).to_owned()
            } else {
                format!("{number:?}")
            }
        }
        Value::Bool(flag) => format!("#{flag}"),
        Value::Null => "#null".to_owned(),
    }
}

/// The document of a KDL text, or the place where the reader stopped.
pub fn read(text: &str) -> Result<Vec<Node>, usize> {
    let mut reader = Reader { text, at: 0 };
    let nodes = reader.nodes();
    match nodes {
        Some(nodes) if reader.at == text.len() => Ok(nodes),
        _ => Err(reader.at),
    }
}

struct Reader<'t> {
    text: &'t str,
    at: usize,
}

impl Reader<'_> {
    fn peek(&self) -> Option<char> {
        self.text[self.at..].chars().next()
    }

    fn take(&mut self, expected: char) -> bool {
        let found = self.peek() == Some(expected);
        if found {
            self.at += expected.len_utf8();
        }
        found
    }

    fn spaces(&mut self) {
        while self.take(' ') {}
    }

    /// The text from here on of which each character fits.
    fn run(&mut self, fits: impl Fn(char) -> bool) -> &str {
        let rest = &self.text[self.at..];
        let length = rest.find(|c| !fits(c)).unwrap_or(rest.len());
        self.at += length;
        &rest[..length]
    }

    fn span(&self, start: usize) -> Span {
        let number = |n: usize| u32::try_from(n).expect("texts are short");
        Span {
            start: number(start),
            length: number(self.at - start),
        }
    }

    fn nodes(&mut self) -> Option<Vec<Node>> {
        let mut nodes = Vec::new();
        loop {
            self.spaces();
            if matches!(self.peek(), None | Some('}')) {
                return Some(nodes);
            }
            nodes.push(self.node()?);
            self.spaces();
            if !self.take(';') && !matches!(self.peek(), None | Some('}')) {
                return None;
            }
        }
    }

    fn node(&mut self) -> Option<Node> {
        let start = self.at;
        let ty = self.ty()?;
        let name = self.identifier()?;
        let mut node = Node {
            span: self.span(start),
            name,
            ty,
            entries: Vec::new(),
            block: None,
        };
        loop {
            let end = self.at;
            self.spaces();
            match self.peek() {
                None | Some('}' | ';') => {
                    self.at = end;
                    break;
                }
                Some('{') => {
                    self.at += 1;
                    node.block = Some(self.nodes()?);
                    if !self.take('}') {
                        return None;
                    }
                    break;
                }
                Some(_) => node.entries.push(self.entry()?),
            }
        }
        node.span = self.span(start);
        Some(node)
    }

    /// A type, or none where no parenthesis opens.
    fn ty(&mut self) -> Option<Option<Identifier>> {
        if !self.take('(') {
            return Some(None);
        }
        let ty = self.identifier()?;
        self.take(')').then_some(Some(ty))
    }

    fn identifier(&mut self) -> Option<Identifier> {
        let start = self.at;
        let text = if self.peek() == Some('"') {
            self.quoted()?
        } else {
            self.run(is_plain_char).to_owned()
        };
        let span = self.span(start);
        (span.length > 0).then_some(Identifier { text, span })
    }

    fn quoted(&mut self) -> Option<String> {
        let mut text = String::new();
        self.at += 1;
        loop {
            let c = self.peek()?;
            self.at += c.len_utf8();
            match c {
                '"' => return Some(text),
                '\\' => {
                    if self.take('u') {
                        if !self.take('{') {
                            return None;
                        }
                        let digits = self.run(|c| c.is_ascii_hexdigit());
                        text.push(char::from_u32(u32::from_str_radix(digits, 16).ok()?)?);
                        if !self.take('}') {
                            return None;
                        }
                    } else if self.take('"') {
                        text.push('"');
                    } else if self.take('\\') {
                        text.push('\\');
                    } else {
                        return None;
                    }
                }
                c => text.push(c),
            }
        }
    }

    fn entry(&mut self) -> Option<Entry> {
        let start = self.at;
        let mut name = None;
        if self
            .peek()
            .is_some_and(|c| c == '"' || c.is_ascii_alphabetic())
        {
            let first = self.identifier()?;
            if !self.take('=') {
                return Some(Entry {
                    span: self.span(start),
                    name: None,
                    ty: None,
                    value: Value::Text(first.text),
                });
            }
            name = Some(first);
        }
        let ty = self.ty()?;
        let value = self.value()?;
        Some(Entry {
            span: self.span(start),
            name,
            ty,
            value,
        })
    }

    fn value(&mut self) -> Option<Value> {
        match self.peek()? {
            '"' => self.quoted().map(Value::Text),
            '#' => {
                self.at += 1;
                Some(match self.run(is_plain_char) {
                    "true" => Value::Bool(true),
                    "false" => Value::Bool(false),
                    "null" => Value::Null,
                    "inf" => Value::Float(f64::INFINITY.to_bits()),
                    "-inf" => Value::Float(f64::NEG_INFINITY.to_bits()),
                    "nan" => Value::Float(f64::NAN.to_bits()),
                    _ => return None,
                })
            }
            c if c.is_ascii_alphabetic() => self
                .identifier()
                .map(|identifier| Value::Text(identifier.text)),
            _ => {
                let digits = self.run(|c| c.is_ascii_alphanumeric() || "+-.".contains(c));
                if digits.contains('.') || digits.contains('e') {
                    digits
                        .parse()
                        .ok()
                        .map(|number: f64| Value::Float(number.to_bits()))
                } else {
                    digits.parse().ok().map(Value::Integer)
                }
            }
        }
    }
}
