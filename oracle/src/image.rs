//! A document as a tree of our own, and its image as bytes.

use std::fmt;

/// Where an identifier, entry or node stands in its source.
#[derive(Debug, Clone, Copy, PartialEq, Eq, Default)]
pub struct Span {
    pub start: u32,
    pub length: u32,
}

#[derive(Debug, Clone, PartialEq, Eq)]
pub struct Identifier {
    pub text: String,
    pub span: Span,
}

/// A value; a float is its bits.
#[derive(Debug, Clone, PartialEq, Eq)]
pub enum Value {
    Text(String),
    Integer(i128),
    Float(u64),
    Bool(bool),
    Null,
}

/// An argument, or a property if it has a name.
#[derive(Debug, Clone, PartialEq, Eq)]
pub struct Entry {
    pub span: Span,
    pub name: Option<Identifier>,
    pub ty: Option<Identifier>,
    pub value: Value,
}

#[derive(Debug, Clone, PartialEq, Eq)]
pub struct Node {
    pub span: Span,
    pub name: Identifier,
    pub ty: Option<Identifier>,
    pub entries: Vec<Entry>,
    pub block: Option<Vec<Node>>,
}

/// The document without the properties that a later one of their node and name overrides.
pub fn in_force(document: &[Node]) -> Vec<Node> {
    document.iter().map(node_in_force).collect()
}

fn node_in_force(node: &Node) -> Node {
    let overridden = |at: usize| {
        let name = node.entries[at].name.as_ref();
        name.is_some_and(|name| {
            node.entries[at + 1..]
                .iter()
                .filter_map(|later| later.name.as_ref())
                .any(|later| later.text == name.text)
        })
    };
    Node {
        entries: (0..node.entries.len())
            .filter(|&at| !overridden(at))
            .map(|at| node.entries[at].clone())
            .collect(),
        block: node.block.as_deref().map(in_force),
        ..node.clone()
    }
}

const DOCUMENT: u16 = 1;
const NODE: u16 = 2;
const NAME: u16 = 3;
const TYPE: u16 = 4;
const ARGUMENT: u16 = 5;
const PROPERTY: u16 = 6;
const STRING: u16 = 7;
const INTEGER: u16 = 8;
const FLOAT: u16 = 9;
const BOOL: u16 = 10;
const NULL: u16 = 11;

/// The bytes of a record's length and kind.
const HEAD: usize = 6;

/// The image of a document.
pub fn write(document: &[Node]) -> Vec<u8> {
    let mut image = Vec::new();
    write_document(&mut image, document);
    image
}

/// Writes a record whose body is what `body` writes.
fn record(out: &mut Vec<u8>, kind: u16, body: impl FnOnce(&mut Vec<u8>)) {
    let start = out.len();
    out.extend([0; 4]);
    out.extend(kind.to_le_bytes());
    body(out);
    let length = u32::try_from(out.len() - start).expect("an image is shorter than 2^32 bytes");
    out[start..start + 4].copy_from_slice(&length.to_le_bytes());
}

fn write_document(out: &mut Vec<u8>, nodes: &[Node]) {
    record(out, DOCUMENT, |out| {
        for node in nodes {
            write_node(out, node);
        }
    });
}

fn write_node(out: &mut Vec<u8>, node: &Node) {
    record(out, NODE, |out| {
        write_span(out, node.span);
        write_identifier(out, NAME, &node.name);
        if let Some(ty) = &node.ty {
            write_identifier(out, TYPE, ty);
        }
        for entry in &node.entries {
            write_entry(out, entry);
        }
        if let Some(block) = &node.block {
            write_document(out, block);
        }
    });
}

fn write_span(out: &mut Vec<u8>, span: Span) {
    out.extend(span.start.to_le_bytes());
    out.extend(span.length.to_le_bytes());
}

fn write_identifier(out: &mut Vec<u8>, kind: u16, identifier: &Identifier) {
    record(out, kind, |out| {
        write_span(out, identifier.span);
        out.extend(identifier.text.as_bytes());
    });
}

fn write_entry(out: &mut Vec<u8>, entry: &Entry) {
    let kind = if entry.name.is_some() {
        PROPERTY
    } else {
        ARGUMENT
    };
    record(out, kind, |out| {
        write_span(out, entry.span);
        if let Some(name) = &entry.name {
            write_identifier(out, NAME, name);
        }
        if let Some(ty) = &entry.ty {
            write_identifier(out, TYPE, ty);
        }
        write_value(out, &entry.value);
    });
}

fn write_value(out: &mut Vec<u8>, value: &Value) {
    match value {
        Value::Text(text) => record(out, STRING, |out| out.extend(text.as_bytes())),
        Value::Integer(number) => record(out, INTEGER, |out| out.extend(number.to_le_bytes())),
        Value::Float(bits) => record(out, FLOAT, |out| out.extend(bits.to_le_bytes())),
        Value::Bool(flag) => record(out, BOOL, |out| out.push(u8::from(*flag))),
        Value::Null => record(out, NULL, |_| ()),
    }
}

/// Why bytes are no image of a document with UTF-8 text.
#[derive(Debug, Clone, Copy, PartialEq, Eq)]
pub struct Fault(pub &'static str);

impl fmt::Display for Fault {
    fn fmt(&self, f: &mut fmt::Formatter<'_>) -> fmt::Result {
        write!(f, "not an image: {}", self.0)
    }
}

impl std::error::Error for Fault {}

/// The document of an image.
pub fn read(image: &[u8]) -> Result<Vec<Node>, Fault> {
    let mut rest = Parts(image);
    let body = rest.take(DOCUMENT)?;
    rest.end()?;
    read_document(body)
}

/// The records of a body that are still to be read.
struct Parts<'b>(&'b [u8]);

impl<'b> Parts<'b> {
    /// The kind of the next record, if there is one.
    fn kind(&self) -> Option<u16> {
        let head = self.0.get(4..HEAD)?;
        Some(u16::from_le_bytes(head.try_into().ok()?))
    }

    /// The body of the next record, which must be of this kind.
    fn take(&mut self, kind: u16) -> Result<&'b [u8], Fault> {
        if self.kind() != Some(kind) {
            return Err(Fault("a record of another kind was expected"));
        }
        let length = u32::from_le_bytes(bytes(&self.0[..4])?) as usize;
        if length < HEAD || length > self.0.len() {
            return Err(Fault("a record's length does not fit"));
        }
        let (record, rest) = self.0.split_at(length);
        self.0 = rest;
        Ok(&record[HEAD..])
    }

    /// The body of the next record, if that is of this kind.
    fn take_if(&mut self, kind: u16) -> Result<Option<&'b [u8]>, Fault> {
        if self.kind() == Some(kind) {
            self.take(kind).map(Some)
        } else {
            Ok(None)
        }
    }

    fn span(&mut self) -> Result<Span, Fault> {
        let (start, rest) = self.0.split_at_checked(4).ok_or(Fault("no span"))?;
        let (length, rest) = rest.split_at_checked(4).ok_or(Fault("no span"))?;
        self.0 = rest;
        Ok(Span {
            start: u32::from_le_bytes(bytes(start)?),
            length: u32::from_le_bytes(bytes(length)?),
        })
    }

    fn end(&self) -> Result<(), Fault> {
        if self.0.is_empty() {
            Ok(())
        } else {
            Err(Fault("a record or bytes too many"))
        }
    }
}

fn bytes<const N: usize>(body: &[u8]) -> Result<[u8; N], Fault> {
    body.try_into()
        .map_err(|_| Fault("a body of another length was expected"))
}

fn text(body: &[u8]) -> Result<String, Fault> {
    String::from_utf8(body.to_vec()).map_err(|_| Fault("a text outside UTF-8"))
}

fn read_document(body: &[u8]) -> Result<Vec<Node>, Fault> {
    let mut parts = Parts(body);
    let mut nodes = Vec::new();
    while let Some(node) = parts.take_if(NODE)? {
        nodes.push(read_node(node)?);
    }
    parts.end()?;
    Ok(nodes)
}

fn read_node(body: &[u8]) -> Result<Node, Fault> {
    let mut parts = Parts(body);
    let span = parts.span()?;
    let name = read_identifier(parts.take(NAME)?)?;
    let ty = parts.take_if(TYPE)?.map(read_identifier).transpose()?;
    let mut entries = Vec::new();
    loop {
        if let Some(argument) = parts.take_if(ARGUMENT)? {
            entries.push(read_entry(argument, false)?);
        } else if let Some(property) = parts.take_if(PROPERTY)? {
            entries.push(read_entry(property, true)?);
        } else {
            break;
        }
    }
    let block = parts.take_if(DOCUMENT)?.map(read_document).transpose()?;
    parts.end()?;
    Ok(Node {
        span,
        name,
        ty,
        entries,
        block,
    })
}

fn read_identifier(body: &[u8]) -> Result<Identifier, Fault> {
    let mut parts = Parts(body);
    let span = parts.span()?;
    Ok(Identifier {
        text: text(parts.0)?,
        span,
    })
}

fn read_entry(body: &[u8], named: bool) -> Result<Entry, Fault> {
    let mut parts = Parts(body);
    let span = parts.span()?;
    let name = if named {
        Some(read_identifier(parts.take(NAME)?)?)
    } else {
        None
    };
    let ty = parts.take_if(TYPE)?.map(read_identifier).transpose()?;
    let kind = parts.kind().ok_or(Fault("an entry without a value"))?;
    let body = parts.take(kind)?;
    parts.end()?;
    let value = match kind {
        STRING => Value::Text(text(body)?),
        INTEGER => Value::Integer(i128::from_le_bytes(bytes(body)?)),
        FLOAT => Value::Float(u64::from_le_bytes(bytes(body)?)),
        BOOL => match body {
            [0] => Value::Bool(false),
            [1] => Value::Bool(true),
            _ => return Err(Fault("a bool that is neither 0 nor 1")),
        },
        NULL if body.is_empty() => Value::Null,
        _ => return Err(Fault("no such value")),
    };
    Ok(Entry {
        span,
        name,
        ty,
        value,
    })
}

/// Bytes as lower-case hexadecimal digits.
pub fn hex(bytes: &[u8]) -> String {
    bytes.iter().map(|byte| format!("{byte:02x}")).collect()
}

/// The bytes that hexadecimal digits stand for.
pub fn unhex(digits: &str) -> Result<Vec<u8>, Fault> {
    let digit = |byte: &u8| char::from(*byte).to_digit(16);
    let (pairs, odd) = digits.as_bytes().as_chunks::<2>();
    if !odd.is_empty() {
        return Err(Fault("an odd count of hexadecimal digits"));
    }
    pairs
        .iter()
        .map(|[high, low]| Some((digit(high)? * 16 + digit(low)?) as u8))
        .collect::<Option<_>>()
        .ok_or(Fault("something else than hexadecimal digits"))
}
