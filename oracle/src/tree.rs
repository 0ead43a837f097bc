//! The published crate's own document of an image: how much is in it, and all of it as lines.

use kdl::{KdlDocument, KdlEntry, KdlIdentifier, KdlNode, KdlValue};
use miette::SourceSpan;

/// How many nodes there are at all levels, and how many entries they have.
pub fn count(document: &KdlDocument) -> (usize, usize) {
    let mut nodes = 0;
    let mut entries = 0;
    for node in document.nodes() {
        let (nodes_below, entries_below) = node.children().map_or((0, 0), count);
        nodes += 1 + nodes_below;
        entries += node.entries().len() + entries_below;
    }
    (nodes, entries)
}

/// A line for each node and entry in document order, as the program bank prints them. Nodes and
/// entries are numbered from 0 in this order.
pub fn lines(document: &KdlDocument) -> String {
    let mut listing = Listing::default();
    listing.document(document, 0);
    listing.text
}

#[derive(Default)]
struct Listing {
    text: String,
    nodes: usize,
    entries: usize,
}

impl Listing {
    fn document(&mut self, document: &KdlDocument, indent: usize) {
        for node in document.nodes() {
            self.node(node, indent);
        }
    }

    fn node(&mut self, node: &KdlNode, indent: usize) {
        let block = match node.children() {
            None => "no block",
            Some(block) if block.nodes().is_empty() => "an empty block",
            Some(_) => "a block",
        };
        self.text += &format!(
            "{:indent$}node {}{}{}, span {}, {block}\n",
            "",
            self.nodes,
            identifier("name", Some(node.name())),
            identifier("type", node.ty()),
            span(node.span()),
        );
        self.nodes += 1;
        for entry in node.entries() {
            self.entry(entry, indent + 2);
        }
        if let Some(block) = node.children() {
            self.document(block, indent + 4);
        }
    }

    fn entry(&mut self, entry: &KdlEntry, indent: usize) {
        let role = match entry.name() {
            None => " argument".to_owned(),
            name => identifier("property", name),
        };
        self.text += &format!(
            "{:indent$}entry {}{role}{} is {}, span {}\n",
            "",
            self.entries,
            identifier("type", entry.ty()),
            value(entry.value()),
            span(entry.span()),
        );
        self.entries += 1;
    }
}

/// An identifier with its span, or nothing.
fn identifier(what: &str, identifier: Option<&KdlIdentifier>) -> String {
    identifier.map_or(String::new(), |identifier| {
        format!(
            " {what} {} at {}",
            quoted(identifier.value()),
            span(identifier.span())
        )
    })
}

fn value(value: &KdlValue) -> String {
    match value {
        KdlValue::Null => "null".to_owned(),
        KdlValue::String(text) => format!("string {}", quoted(text)),
        KdlValue::Integer(number) => {
            let low = *number as u64;
            format!("integer {} * 2^64 + {low}", number >> 64)
        }
        KdlValue::Float(number) => format!("float {:016x}", number.to_bits()),
        KdlValue::Bool(flag) => format!("bool {flag}"),
    }
}

fn span(span: SourceSpan) -> String {
    format!("{}+{}", span.offset(), span.len())
}

/// A text in quotes; what is no printable ASCII, a quote or a backslash is a backslash and two
/// digits.
fn quoted(text: &str) -> String {
    let mut shown = String::from("\"");
    for byte in text.bytes() {
        match byte {
            b'"' | b'\\' => shown += &format!("\\{byte:02x}"),
            0x20..=0x7e => shown.push(char::from(byte)),
            _ => shown += &format!("\\{byte:02x}"),
        }
    }
    shown.push('"');
    shown
}
