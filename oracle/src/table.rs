//! The table of docs/REQUESTS.md as code: what each place answers to each request.
//!
//! `check` compares it with the published crate over generated documents; it is no source of
//! recorded answers. A tuple at a document is the published crate's here: a map.

use crate::ask::{Line, Mark};
use crate::terms::{Content, Form, Label, PlaceKind, Request, Step};
use crate::text::escape;
use image::{Entry, Identifier, Node, Value};

/// A place of a document.
#[derive(Clone)]
pub enum Place<'t> {
    Document(&'t [Node]),
    Node(&'t Node),
    Value(&'t Entry),
    Identifier(&'t Identifier),
    Group(Vec<&'t Node>),
    Arguments(Vec<&'t Entry>),
    Omission,
}

impl<'t> Place<'t> {
    pub fn kind(&self) -> PlaceKind {
        match self {
            Place::Document(_) => PlaceKind::Document,
            Place::Node(_) => PlaceKind::Node,
            Place::Value(_) => PlaceKind::Value,
            Place::Identifier(_) => PlaceKind::Identifier,
            Place::Group(_) => PlaceKind::Group,
            Place::Arguments(_) => PlaceKind::Arguments,
            Place::Omission => PlaceKind::Omission,
        }
    }

    /// The lines of the answer to a request, each inner place being asked as `any`.
    pub fn lines(&self, request: Request, forms: &[Form]) -> Vec<Line> {
        let mut lines = Vec::new();
        self.answer(request, forms).write(&mut lines);
        lines
    }

    /// The places that the items of an answer lead to, each with the step that leads there.
    pub fn inner(&self, request: Request, forms: &[Form]) -> Vec<(Step, Place<'t>)> {
        let places = match self.answer(request, forms) {
            Answer::Some(place) | Answer::Newtype(place) => vec![place],
            Answer::Seq(places) => places,
            Answer::Map(items) => items.into_iter().map(|(_, place)| place).collect(),
            Answer::Node(node, _) => vec![Place::Node(node)],
            Answer::Property(entry, _, _) => vec![Place::Value(entry)],
            Answer::Plain(..) | Answer::Word(..) | Answer::Refused(..) => Vec::new(),
        };
        let steps = (0..).map(|item| Step::new(request, item));
        steps.zip(places).collect()
    }

    fn answer(&self, request: Request, forms: &[Form]) -> Answer<'t> {
        let request = match request {
            Request::Other(name) => self.among_ours(name),
            request => request,
        };
        match self {
            Place::Document(nodes) => document(nodes, request),
            Place::Node(node) => answer_of_node(node, request, forms),
            Place::Value(entry) => value(entry, request),
            Place::Identifier(identifier) => {
                let mark = Some((Label::Identifier, identifier.span));
                match request {
                    Request::Newtype => Answer::Newtype(self.clone()),
                    Request::Enum(content) => Answer::Word(&identifier.text, content, mark),
                    _ => Answer::Plain(format!("text {}", escape(&identifier.text)), mark),
                }
            }
            Place::Group(nodes) => nodes_in_order(nodes.iter().copied()),
            Place::Arguments(entries) => match request {
                Request::Option if entries.is_empty() => Answer::plain("none"),
                Request::Option => Answer::Some(self.clone()),
                Request::Newtype => Answer::Newtype(self.clone()),
                _ => Answer::Seq(entries.iter().map(|entry| Place::Value(entry)).collect()),
            },
            Place::Omission => match request {
                Request::Option => Answer::plain("none"),
                _ => Answer::plain("false"),
            },
        }
    }

    /// The request of ours that a request beyond ours is answered like.
    fn among_ours(&self, name: &str) -> Request {
        match name {
            "unit_struct" => Request::Unit,
            "tuple_struct" => Request::Tuple,
            "ignored_any" if self.kind() == PlaceKind::Node => Request::Unit,
            _ => Request::Any,
        }
    }
}

/// An answer, with the inner places that it leads to.
enum Answer<'t> {
    Plain(String, Mark),
    Some(Place<'t>),
    Newtype(Place<'t>),
    Seq(Vec<Place<'t>>),
    Map(Vec<(String, Place<'t>)>),
    Word(&'t str, Content, Mark),
    Node(&'t Node, Content),
    Property(&'t Entry, &'t Identifier, Content),
    Refused(&'static str, Mark),
}

impl<'t> Answer<'t> {
    fn plain(answer: &str) -> Self {
        Answer::Plain(answer.to_owned(), None)
    }

    fn write(self, lines: &mut Vec<Line>) {
        let mut line = |answer: &str, mark: Mark| {
            lines.push(Line {
                answer: answer.to_owned(),
                mark,
            });
        };
        let any = |place: Place<'t>, lines: &mut Vec<Line>| {
            place.answer(Request::Any, &[]).write(lines);
        };
        match self {
            Answer::Plain(answer, mark) => line(&answer, mark),
            Answer::Some(place) => {
                line("some", None);
                any(place, lines);
            }
            Answer::Newtype(place) => {
                line("newtype", None);
                any(place, lines);
            }
            Answer::Seq(places) => {
                line("seq", None);
                for place in places {
                    push(lines, format!("element {}", place.kind()), None);
                    any(place, lines);
                }
                push(lines, "end".to_owned(), None);
            }
            Answer::Map(items) => {
                line("map", None);
                for (key, place) in items {
                    push(lines, format!("key {}", escape(&key)), None);
                    push(lines, format!("value {}", place.kind()), None);
                    any(place, lines);
                }
                push(lines, "end".to_owned(), None);
            }
            Answer::Word(word, content, mark) => {
                line("enum word", mark);
                line(&format!("variant {}", escape(word)), mark);
                match content {
                    Content::Unit => line("unit", mark),
                    _ => line("refused content", mark),
                }
            }
            Answer::Node(node, content) => {
                line("enum node", None);
                let variant = format!("variant {}", escape(&node.name.text));
                line(&variant, Some((Label::Variant, node.span)));
                match content {
                    Content::Unit => line("unit", None),
                    Content::Newtype => {
                        line("content node", None);
                        any(Place::Node(node), lines);
                    }
                    Content::Tuple => answer_of_node(node, Request::Seq, &[]).write(lines),
                    Content::Struct => answer_of_node(node, Request::Map, &[]).write(lines),
                }
            }
            Answer::Property(entry, name, content) => {
                line("enum property", None);
                let variant = format!("variant {}", escape(&name.text));
                line(&variant, Some((Label::Variant, entry.span)));
                match content {
                    Content::Unit => line("unit", None),
                    Content::Newtype => {
                        line("content value", None);
                        any(Place::Value(entry), lines);
                    }
                    Content::Tuple | Content::Struct => {
                        line("refused property", Some((Label::Property, entry.span)));
                    }
                }
            }
            Answer::Refused(cause, mark) => line(&format!("refused {cause}"), mark),
        }
    }
}

fn push(lines: &mut Vec<Line>, answer: String, mark: Mark) {
    lines.push(Line { answer, mark });
}

fn nodes_in_order<'t>(nodes: impl Iterator<Item = &'t Node>) -> Answer<'t> {
    Answer::Seq(nodes.map(Place::Node).collect())
}

/// The groups of nodes, each at its first node's position; a group of one is that node.
fn groups(nodes: &[Node]) -> Vec<(String, Place<'_>)> {
    let mut items = Vec::new();
    for (at, node) in nodes.iter().enumerate() {
        let same = |other: &&Node| other.name.text == node.name.text;
        if nodes[..at].iter().any(|earlier| same(&earlier)) {
            continue;
        }
        let group: Vec<&Node> = nodes.iter().filter(same).collect();
        let place = match group[..] {
            [only] => Place::Node(only),
            _ => Place::Group(group),
        };
        items.push((node.name.text.clone(), place));
    }
    items
}

fn document(nodes: &[Node], request: Request) -> Answer<'_> {
    match request {
        Request::Option if nodes.is_empty() => Answer::plain("none"),
        Request::Option => Answer::Some(Place::Document(nodes)),
        Request::Newtype => Answer::Newtype(Place::Document(nodes)),
        Request::Unit => Answer::plain("unit"),
        Request::Seq => nodes_in_order(nodes.iter()),
        Request::Enum(content) => match nodes {
            [only] => Answer::Node(only, content),
            _ => Answer::Refused("one-node", None),
        },
        _ => Answer::Map(groups(nodes)),
    }
}

fn arguments(node: &Node) -> Vec<&Entry> {
    let unnamed = |entry: &&Entry| entry.name.is_none();
    node.entries.iter().filter(unnamed).collect()
}

fn properties(node: &Node) -> Vec<(&Identifier, &Entry)> {
    let entries = node.entries.iter();
    entries
        .filter_map(|entry| entry.name.as_ref().map(|name| (name, entry)))
        .collect()
}

fn answer_of_node<'t>(node: &'t Node, request: Request, forms: &[Form]) -> Answer<'t> {
    let arguments = arguments(node);
    let properties = properties(node);
    let empty = node.entries.is_empty() && node.block.is_none();
    let scalar = match arguments[..] {
        [only] if properties.is_empty() && node.block.is_none() => Some(only),
        _ => None,
    };
    let arguments_only = !arguments.is_empty() && properties.is_empty() && node.block.is_none();
    let sequence = |entries: &[&'t Entry]| {
        Answer::Seq(entries.iter().map(|entry| Place::Value(entry)).collect())
    };
    match request {
        Request::Any => match scalar {
            _ if empty => Answer::plain("true"),
            Some(only) => value(only, Request::Any),
            None if arguments_only => sequence(&arguments),
            None => Answer::Map(items(node, None)),
        },
        Request::Bool => match scalar {
            Some(only) => value(only, Request::Any),
            None if empty => Answer::plain("true"),
            None => Answer::Refused("flag", Some((Label::Node, node.span))),
        },
        Request::Option => match scalar {
            _ if empty => Answer::plain("none"),
            Some(only) if only.value == Value::Null => Answer::plain("none"),
            _ => Answer::Some(Place::Node(node)),
        },
        Request::Unit => Answer::plain("unit"),
        Request::Newtype => Answer::Newtype(Place::Node(node)),
        Request::Seq | Request::Tuple => match &node.block {
            None => sequence(&arguments),
            Some(block) => nodes_in_order(block.iter()),
        },
        Request::Map => Answer::Map(items(node, None)),
        Request::Struct(form) => Answer::Map(items(node, Some(forms[form]))),
        Request::Enum(content) => {
            if let Some(only) = scalar
                && let Value::Text(word) = &only.value
            {
                return Answer::Word(word, content, Some((Label::Variant, only.span)));
            }
            if let Some([only]) = node.block.as_deref() {
                return Answer::Node(only, content);
            }
            match properties[..] {
                [(name, entry)] if arguments.is_empty() && node.block.is_none() => {
                    Answer::Property(entry, name, content)
                }
                _ => Answer::Node(node, content),
            }
        }
        Request::Other(_) => unreachable!("answered like a request of ours"),
    }
}

/// The items of a node's map, or of its struct with this form.
fn items<'t>(node: &'t Node, form: Option<Form>) -> Vec<(String, Place<'t>)> {
    let asked = |name: &str| form.is_some_and(|form| form.contains(&name));
    let mut items: Vec<(String, Place<'t>)> = Vec::new();
    if asked("#name") {
        items.push(("#name".to_owned(), Place::Identifier(&node.name)));
    }
    if let Some(ty) = &node.ty
        && asked("#type")
    {
        items.push(("#type".to_owned(), Place::Identifier(ty)));
    }
    let arguments = arguments(node);
    for (i, argument) in arguments.iter().enumerate() {
        if let Some(ty) = &argument.ty
            && form.is_some()
        {
            items.push((format!("#{i}#type"), Place::Identifier(ty)));
        }
        if asked(&format!("#{i}")) {
            items.push((format!("#{i}"), Place::Value(argument)));
        }
    }
    if asked("#args") {
        items.push(("#args".to_owned(), Place::Arguments(arguments.clone())));
    }
    if asked("#rest") {
        let numbered = arguments.iter().enumerate();
        let rest = numbered.filter(|(i, _)| !asked(&format!("#{i}")));
        let rest = rest.map(|(_, argument)| *argument).collect();
        items.push(("#rest".to_owned(), Place::Arguments(rest)));
    }
    let properties = properties(node);
    for (name, entry) in &properties {
        let hashed = format!("#@{}", name.text);
        if asked(&hashed) {
            items.push((hashed.clone(), Place::Value(entry)));
        }
        if let Some(ty) = &entry.ty
            && asked(&format!("{hashed}#type"))
        {
            items.push((format!("{hashed}#type"), Place::Identifier(ty)));
        }
        items.push((name.text.clone(), Place::Value(entry)));
    }
    let children = node.block.as_deref().unwrap_or_default();
    items.extend(groups(children));
    for name in form.unwrap_or_default() {
        let is_property = properties.iter().any(|(other, _)| other.text == *name);
        let is_child = children.iter().any(|child| child.name.text == *name);
        if !name.starts_with('#') && !is_property && !is_child {
            items.push(((*name).to_owned(), Place::Omission));
        }
    }
    items
}

fn value(entry: &Entry, request: Request) -> Answer<'_> {
    let mark = Some((Label::Value, entry.span));
    match request {
        Request::Option if entry.value == Value::Null => Answer::Plain("none".to_owned(), mark),
        Request::Option => Answer::Some(Place::Value(entry)),
        Request::Newtype => Answer::Newtype(Place::Value(entry)),
        Request::Enum(content) => match &entry.value {
            Value::Text(word) => Answer::Word(word, content, mark),
            _ => Answer::Refused("word", mark),
        },
        _ => {
            let answer = match &entry.value {
                Value::Text(text) => format!("text {}", escape(text)),
                Value::Integer(number) => {
                    let low = -(1_i128 << 63);
                    let high = 1_i128 << 64;
                    if (low..-low).contains(number) {
                        format!("int {number}")
                    } else if (0..high).contains(number) {
                        format!("uint {number}")
                    } else {
                        format!("wide {number:032x}")
                    }
                }
                Value::Float(bits) => format!("float {bits:016x}"),
                Value::Bool(flag) => flag.to_string(),
                Value::Null => "unit".to_owned(),
            };
            Answer::Plain(answer, mark)
        }
    }
}
