//! Stand-in for the crate miette: only the items that the published files name.

use std::fmt;
use std::ops::Range;
use std::sync::Arc;

/// A part of a text: where it starts and how long it is.
#[derive(Debug, Clone, Copy, PartialEq, Eq)]
pub struct SourceSpan {
    offset: usize,
    length: usize,
}

impl SourceSpan {
    pub fn offset(&self) -> usize {
        self.offset
    }

    pub fn len(&self) -> usize {
        self.length
    }

    pub fn is_empty(&self) -> bool {
        self.length == 0
    }
}

impl From<Range<usize>> for SourceSpan {
    fn from(range: Range<usize>) -> Self {
        SourceSpan {
            offset: range.start,
            length: range.len(),
        }
    }
}

impl From<(usize, usize)> for SourceSpan {
    fn from((offset, length): (usize, usize)) -> Self {
        SourceSpan { offset, length }
    }
}

#[derive(Debug, Clone, Copy, PartialEq, Eq)]
pub enum Severity {
    Error,
}

/// A span with the text that an error message sets beside it.
#[derive(Debug, Clone, PartialEq, Eq)]
pub struct LabeledSpan {
    label: Option<String>,
    span: SourceSpan,
}

impl LabeledSpan {
    pub fn new_with_span(label: Option<String>, span: impl Into<SourceSpan>) -> Self {
        LabeledSpan {
            label,
            span: span.into(),
        }
    }

    pub fn label(&self) -> Option<&str> {
        self.label.as_deref()
    }

    pub fn inner(&self) -> &SourceSpan {
        &self.span
    }
}

pub trait SourceCode: fmt::Debug {}

impl SourceCode for Arc<String> {}

/// An error that can point at a place in its source.
pub trait Diagnostic: std::error::Error {
    fn source_code(&self) -> Option<&dyn SourceCode> {
        None
    }

    fn severity(&self) -> Option<Severity> {
        None
    }

    fn labels(&self) -> Option<Box<dyn Iterator<Item = LabeledSpan> + '_>> {
        None
    }

    fn related<'a>(&'a self) -> Option<Box<dyn Iterator<Item = &'a dyn Diagnostic> + 'a>> {
        None
    }
}
