//! The published crate kdl: its own files, and stand-ins for the modules that are not compiled.
//!
//! The stand-in for the parser reads an image in hexadecimal digits in place of KDL text, so that
//! `de::from_str` runs as published over a document that was not parsed. No question formats or
//! parses anything else.

#[path = "../target/published/de.rs"]
pub mod de;
#[path = "../target/published/document.rs"]
mod document;
#[path = "../target/published/entry.rs"]
mod entry;
#[path = "../target/published/identifier.rs"]
mod identifier;
#[path = "../target/published/node.rs"]
mod node;
#[path = "../target/published/value.rs"]
mod value;

use miette::{Severity, SourceSpan};
use std::fmt::{self as format, Display};
use std::sync::Arc;

pub use document::*;
pub use entry::*;
pub use identifier::*;
pub use node::*;
pub use value::*;

/// Stand-in for the published error of one fault.
#[derive(Debug, Clone)]
pub struct KdlDiagnostic {
    pub input: Arc<String>,
    pub span: SourceSpan,
    pub message: Option<String>,
    pub label: Option<String>,
    pub help: Option<String>,
    pub severity: Severity,
}

impl Display for KdlDiagnostic {
    fn fmt(&self, f: &mut format::Formatter<'_>) -> format::Result {
        f.write_str(self.message.as_deref().unwrap_or_default())
    }
}

impl std::error::Error for KdlDiagnostic {}

impl miette::Diagnostic for KdlDiagnostic {}

/// Stand-in for the published error of a parse.
#[derive(Debug, Clone)]
pub struct KdlError {
    pub input: Arc<String>,
    pub diagnostics: Vec<KdlDiagnostic>,
}

impl Display for KdlError {
    fn fmt(&self, f: &mut format::Formatter<'_>) -> format::Result {
        f.write_str("the input is not an image in hexadecimal digits")
    }
}

impl std::error::Error for KdlError {}

/// Stand-in for the published settings of formatting.
#[derive(Debug, Default)]
pub struct FormatConfig<'a> {
    pub indent_level: usize,
    pub indent: &'a str,
    pub no_comments: bool,
    pub entry_autoformate_keep: bool,
}

mod fmt {
    use crate::FormatConfig;

    pub(crate) fn autoformat_leading(_: &mut String, _: &FormatConfig<'_>) {
        unreachable!("no question formats a document")
    }

    pub(crate) fn autoformat_trailing(_: &mut String, _: bool) {
        unreachable!("no question formats a document")
    }
}

mod v2_parser {
    use crate::{KdlDocument, KdlEntry, KdlError, KdlIdentifier, KdlNode, KdlValue};
    use image::{Entry, Fault, Identifier, Node, Span, Value};
    use std::sync::Arc;

    pub(crate) static NEWLINES: [&str; 1] = ["\n"];

    pub(crate) fn is_disallowed_ident_char(_: char) -> bool {
        unreachable!("no question formats a document")
    }

    pub(crate) fn try_parse<T>(
        parser: fn(&str) -> Result<T, Fault>,
        input: &str,
    ) -> Result<T, KdlError> {
        parser(input).map_err(|_| KdlError {
            input: Arc::new(input.to_owned()),
            diagnostics: Vec::new(),
        })
    }

    /// Reads an image in hexadecimal digits.
    pub(crate) fn document(input: &str) -> Result<KdlDocument, Fault> {
        let nodes = image::read(&image::unhex(input)?)?;
        Ok(build_document(&nodes))
    }

    pub(crate) fn padded_node(_: &str) -> Result<KdlNode, Fault> {
        unreachable!("only whole documents are read")
    }

    pub(crate) fn padded_node_entry(_: &str) -> Result<KdlEntry, Fault> {
        unreachable!("only whole documents are read")
    }

    pub(crate) fn identifier(_: &str) -> Result<KdlIdentifier, Fault> {
        unreachable!("only whole documents are read")
    }

    fn build_document(nodes: &[Node]) -> KdlDocument {
        let mut document = KdlDocument::new();
        document.nodes_mut().extend(nodes.iter().map(build_node));
        document
    }

    fn build_node(node: &Node) -> KdlNode {
        let mut built = KdlNode::new(build_identifier(&node.name));
        built.set_span(build_span(node.span));
        if let Some(ty) = &node.ty {
            built.set_ty(build_identifier(ty));
        }
        built
            .entries_mut()
            .extend(node.entries.iter().map(build_entry));
        if let Some(block) = &node.block {
            built.set_children(build_document(block));
        }
        built
    }

    fn build_entry(entry: &Entry) -> KdlEntry {
        let mut built = KdlEntry::new(build_value(&entry.value));
        built.set_name(entry.name.as_ref().map(build_identifier));
        built.set_span(build_span(entry.span));
        if let Some(ty) = &entry.ty {
            built.set_ty(build_identifier(ty));
        }
        built
    }

    fn build_identifier(identifier: &Identifier) -> KdlIdentifier {
        let mut built = KdlIdentifier::from(identifier.text.as_str());
        built.set_span(build_span(identifier.span));
        built
    }

    fn build_value(value: &Value) -> KdlValue {
        match value {
            Value::Text(text) => KdlValue::String(text.clone()),
            Value::Integer(number) => KdlValue::Integer(*number),
            Value::Float(bits) => KdlValue::Float(f64::from_bits(*bits)),
            Value::Bool(flag) => KdlValue::Bool(*flag),
            Value::Null => KdlValue::Null,
        }
    }

    fn build_span(span: Span) -> (usize, usize) {
        (span.start as usize, span.length as usize)
    }
}
