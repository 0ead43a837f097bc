//! The terms of questions and answers: places, requests, paths, labels and causes.

use std::any::type_name;
use std::fmt;

/// The names of a form, in the shape that the published crate asks for.
pub type Form = &'static [&'static str];

/// The form of these names. It is kept for the rest of the run, as the published crate demands.
pub fn form<S: AsRef<str>>(names: &[S]) -> Form {
    let names: Vec<&'static str> = names
        .iter()
        .map(|name| &*String::leak(name.as_ref().to_owned()))
        .collect();
    Vec::leak(names)
}

#[derive(Debug, Clone, Copy, PartialEq, Eq)]
pub enum PlaceKind {
    Document,
    Node,
    Value,
    Identifier,
    Group,
    Arguments,
    Omission,
}

impl PlaceKind {
    pub const ALL: [PlaceKind; 7] = [
        PlaceKind::Document,
        PlaceKind::Node,
        PlaceKind::Value,
        PlaceKind::Identifier,
        PlaceKind::Group,
        PlaceKind::Arguments,
        PlaceKind::Omission,
    ];

    /// The place that the published crate's deserializer of this type stands for.
    pub fn of<D>() -> PlaceKind {
        match last_segment(type_name::<D>()) {
            "DocumentDeserializer" => PlaceKind::Document,
            "NodeDeserializer" => PlaceKind::Node,
            "ValueDeserializer" => PlaceKind::Value,
            "IdentDeserializer" => PlaceKind::Identifier,
            "NodeGroupDeserializer" => PlaceKind::Group,
            "ArgsSeqDeserializer" => PlaceKind::Arguments,
            "OmittedChildDeserializer" => PlaceKind::Omission,
            other => panic!("a deserializer of an unknown type: {other}"),
        }
    }
}

impl fmt::Display for PlaceKind {
    fn fmt(&self, f: &mut fmt::Formatter<'_>) -> fmt::Result {
        f.write_str(match self {
            PlaceKind::Document => "document",
            PlaceKind::Node => "node",
            PlaceKind::Value => "value",
            PlaceKind::Identifier => "identifier",
            PlaceKind::Group => "group",
            PlaceKind::Arguments => "arguments",
            PlaceKind::Omission => "omission",
        })
    }
}

/// The kind of an enum: which access of the published crate came.
pub fn enum_kind<A>() -> &'static str {
    match last_segment(type_name::<A>()) {
        "NodeEnumAccess" => "node",
        "PropertyEnumAccess" => "property",
        "StrDeserializer" => "word",
        other => panic!("an enum access of an unknown type: {other}"),
    }
}

/// The last part of a type's path, without its generic arguments.
fn last_segment(name: &str) -> &str {
    let path = name.split('<').next().unwrap_or(name);
    path.rsplit("::").next().unwrap_or(path)
}

/// What is taken as the content of a variant.
#[derive(Debug, Clone, Copy, PartialEq, Eq)]
pub enum Content {
    Unit,
    Newtype,
    Tuple,
    Struct,
}

impl Content {
    const ALL: [Content; 4] = [
        Content::Unit,
        Content::Newtype,
        Content::Tuple,
        Content::Struct,
    ];
}

impl fmt::Display for Content {
    fn fmt(&self, f: &mut fmt::Formatter<'_>) -> fmt::Result {
        f.write_str(match self {
            Content::Unit => "unit",
            Content::Newtype => "newtype",
            Content::Tuple => "tuple",
            Content::Struct => "struct",
        })
    }
}

/// What is asked of a place. `Other` are the requests that the published crate knows beyond ours.
#[derive(Debug, Clone, Copy, PartialEq, Eq)]
pub enum Request {
    Any,
    Bool,
    Option,
    Unit,
    Newtype,
    Seq,
    Tuple,
    Map,
    Struct(usize),
    Enum(Content),
    Other(&'static str),
}

impl Request {
    /// The requests beyond ours.
    pub const OTHERS: [&'static str; 21] = [
        "i8",
        "i16",
        "i32",
        "i64",
        "i128",
        "u8",
        "u16",
        "u32",
        "u64",
        "u128",
        "f32",
        "f64",
        "char",
        "str",
        "string",
        "bytes",
        "byte_buf",
        "unit_struct",
        "tuple_struct",
        "identifier",
        "ignored_any",
    ];

    /// Each of our requests, with a struct for each of so many forms and an enum for each content.
    pub fn all(forms: usize) -> Vec<Request> {
        use Request::*;
        let mut requests = vec![Any, Bool, Option, Unit, Newtype, Seq, Tuple, Map];
        requests.extend((0..forms).map(Struct));
        requests.extend(Content::ALL.map(Enum));
        requests
    }
}

impl fmt::Display for Request {
    fn fmt(&self, f: &mut fmt::Formatter<'_>) -> fmt::Result {
        match self {
            Request::Any => f.write_str("any"),
            Request::Bool => f.write_str("bool"),
            Request::Option => f.write_str("option"),
            Request::Unit => f.write_str("unit"),
            Request::Newtype => f.write_str("newtype"),
            Request::Seq => f.write_str("seq"),
            Request::Tuple => f.write_str("tuple"),
            Request::Map => f.write_str("map"),
            Request::Struct(form) => write!(f, "struct {form}"),
            Request::Enum(content) => write!(f, "enum {content}"),
            Request::Other(name) => f.write_str(name),
        }
    }
}

/// One step of a path: the current place is asked, and the item of this number is taken. For
/// `option` and `newtype` the item is the same place again, for `enum` it is the newtype content.
#[derive(Debug, Clone, Copy, PartialEq, Eq)]
pub struct Step {
    pub request: Request,
    pub item: usize,
}

impl Step {
    pub fn new(request: Request, item: usize) -> Self {
        Step { request, item }
    }
}

impl fmt::Display for Step {
    fn fmt(&self, f: &mut fmt::Formatter<'_>) -> fmt::Result {
        match self.request {
            Request::Option | Request::Newtype => write!(f, "{}", self.request),
            Request::Enum(_) => f.write_str("enum"),
            _ => write!(f, "{} {}", self.request, self.item),
        }
    }
}

/// The five texts that the published crate sets beside a span.
#[derive(Debug, Clone, Copy, PartialEq, Eq)]
pub enum Label {
    Value,
    Identifier,
    Variant,
    Node,
    Property,
}

impl Label {
    pub const ALL: [Label; 5] = [
        Label::Value,
        Label::Identifier,
        Label::Variant,
        Label::Node,
        Label::Property,
    ];

    pub fn text(self) -> &'static str {
        match self {
            Label::Value => "while deserializing this KDL value",
            Label::Identifier => "while deserializing this KDL identifier",
            Label::Variant => "while deserializing this enum variant",
            Label::Node => "while deserializing this KDL node",
            Label::Property => "while deserializing this KDL property",
        }
    }
}

impl fmt::Display for Label {
    fn fmt(&self, f: &mut fmt::Formatter<'_>) -> fmt::Result {
        f.write_str(match self {
            Label::Value => "value",
            Label::Identifier => "identifier",
            Label::Variant => "variant",
            Label::Node => "node",
            Label::Property => "property",
        })
    }
}

/// Our name for the cause of a refusal, by the published crate's message.
pub fn cause(message: &str) -> &'static str {
    match message {
        "expected a boolean value" => "flag",
        "expected exactly one node for enum deserialization" => "one-node",
        "expected a string for unit enum variant" => "word",
        "tuple variants not supported from KDL properties"
        | "struct variants not supported from KDL properties" => "property",
        "invalid type: unit variant, expected newtype variant"
        | "invalid type: unit variant, expected tuple variant"
        | "invalid type: unit variant, expected struct variant" => "content",
        other => panic!("an unknown refusal: {other}"),
    }
}
