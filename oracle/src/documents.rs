//! Documents to ask: all short ones, seeded random ones, and large ones.

use crate::text;
use image::{Entry, Identifier, Node, Span, Value};

/// The names, types and values of the short documents.
const SHORT_NAMES: [&str; 2] = ["a", "b"];
const SHORT_TYPE: &str = "t";

fn short_values() -> [Value; 3] {
    [Value::Integer(1), Value::Text("w".to_owned()), Value::Null]
}

/// Every document of exactly this size, its spans being those of its KDL text. A node, an entry, a
/// type and a pair of braces count one each. Nodes and properties are named a or b, a type is t, a
/// value is 1, "w" or null.
pub fn short(size: usize) -> Vec<Vec<Node>> {
    let documents = nodes_of_size(size);
    documents.into_iter().map(|nodes| spanned(&nodes)).collect()
}

/// The document with the spans of its KDL text.
fn spanned(document: &[Node]) -> Vec<Node> {
    text::read(&text::write(document)).expect("the writer's text can be read")
}

fn nodes_of_size(size: usize) -> Vec<Vec<Node>> {
    rows_of_size(size, &node_of_size)
}

/// Every row of parts whose sizes add up to this one.
fn rows_of_size<T: Clone>(size: usize, part: &dyn Fn(usize) -> Vec<T>) -> Vec<Vec<T>> {
    if size == 0 {
        return vec![Vec::new()];
    }
    let mut rows = Vec::new();
    for first_size in 1..=size {
        let ends = rows_of_size(size - first_size, part);
        for first in part(first_size) {
            for end in &ends {
                let mut row = vec![first.clone()];
                row.extend_from_slice(end);
                rows.push(row);
            }
        }
    }
    rows
}

fn node_of_size(size: usize) -> Vec<Node> {
    let mut nodes = Vec::new();
    for name in SHORT_NAMES {
        for typed in [false, true] {
            let Some(rest) = size.checked_sub(1 + usize::from(typed)) else {
                continue;
            };
            for entries_size in 0..=rest {
                for entries in rows_of_size(entries_size, &entry_of_size) {
                    for block in block_of_size(rest - entries_size) {
                        nodes.push(Node {
                            ty: typed.then(|| identifier(SHORT_TYPE)),
                            ..node(name, entries.clone(), block)
                        });
                    }
                }
            }
        }
    }
    nodes
}

fn block_of_size(size: usize) -> Vec<Option<Vec<Node>>> {
    if size == 0 {
        return vec![None];
    }
    nodes_of_size(size - 1).into_iter().map(Some).collect()
}

fn entry_of_size(size: usize) -> Vec<Entry> {
    let typed = match size {
        1 => false,
        2 => true,
        _ => return Vec::new(),
    };
    let mut entries = Vec::new();
    for name in [None, Some(SHORT_NAMES[0]), Some(SHORT_NAMES[1])] {
        for value in short_values() {
            entries.push(Entry {
                ty: typed.then(|| identifier(SHORT_TYPE)),
                ..entry(name, &value)
            });
        }
    }
    entries
}

fn identifier(text: &str) -> Identifier {
    Identifier {
        text: text.to_owned(),
        span: Span::default(),
    }
}

fn entry(name: Option<&str>, value: &Value) -> Entry {
    Entry {
        span: Span::default(),
        name: name.map(identifier),
        ty: None,
        value: value.clone(),
    }
}

fn node(name: &str, entries: Vec<Entry>, block: Option<Vec<Node>>) -> Node {
    Node {
        span: Span::default(),
        name: identifier(name),
        ty: None,
        entries,
        block,
    }
}

/// The document with a span of its own for each identifier, entry and node.
fn numbered(mut document: Vec<Node>) -> Vec<Node> {
    number_nodes(&mut document, &mut 0);
    document
}

fn number_nodes(nodes: &mut [Node], count: &mut u32) {
    let mut number = |span: &mut Span| {
        *span = Span {
            start: *count,
            length: *count + 1,
        };
        *count += 1;
    };
    for node in nodes.iter_mut() {
        number(&mut node.span);
        number(&mut node.name.span);
        node.ty.iter_mut().for_each(|ty| number(&mut ty.span));
        for entry in &mut node.entries {
            number(&mut entry.span);
            entry
                .name
                .iter_mut()
                .for_each(|name| number(&mut name.span));
            entry.ty.iter_mut().for_each(|ty| number(&mut ty.span));
        }
    }
    for node in nodes {
        if let Some(block) = &mut node.block {
            number_nodes(block, count);
        }
    }
}

/// A row of numbers that a seed determines (SplitMix64).
pub struct Random(u64);

impl Random {
    pub fn new(seed: u64) -> Self {
        Random(seed)
    }

    pub fn next(&mut self) -> u64 {
        self.0 = self.0.wrapping_add(0x9e37_79b9_7f4a_7c15);
        let mut mixed = self.0;
        mixed = (mixed ^ (mixed >> 30)).wrapping_mul(0xbf58_476d_1ce4_e5b9);
        mixed = (mixed ^ (mixed >> 27)).wrapping_mul(0x94d0_49bb_1331_11eb);
        mixed ^ (mixed >> 31)
    }

    /// A number below the bound.
    pub fn below(&mut self, bound: usize) -> usize {
        (self.next() % bound as u64) as usize
    }

    pub fn one_in(&mut self, count: usize) -> bool {
        self.below(count) == 0
    }

    fn pick<'a, T: ?Sized>(&mut self, choices: &[&'a T]) -> &'a T {
        choices[self.below(choices.len())]
    }
}

/// Names and texts: short ones, ones that look like a form's, and odd ones.
const TEXTS: [&str; 24] = [
    "a",
    "b",
    "c",
    "x",
    "",
    "#",
    "#name",
    "#type",
    "#0",
    "#1",
    "#00",
    "#args",
    "#rest",
    "#@a",
    "#@a#type",
    "#0#type",
    "a#type",
    "0",
    "two words",
    "back\\slash",
    "line\nfeed\u{0}",
    "\u{e9}",
    "\u{1f600}",
    "true",
];

const INTEGERS: [i128; 16] = [
    0,
    1,
    -1,
    i64::MIN as i128,
    i64::MIN as i128 - 1,
    i64::MAX as i128,
    i64::MAX as i128 + 1,
    u64::MAX as i128,
    u64::MAX as i128 + 1,
    -(u64::MAX as i128),
    -(u64::MAX as i128) - 1,
    i128::MAX,
    i128::MAX - 1,
    i128::MIN,
    i128::MIN + 1,
    999_999_999_999_999_999_999,
];

/// Zeros, one, the least and the largest numbers, infinities, and quiet and signalling NaNs.
const FLOATS: [u64; 12] = [
    0x0000_0000_0000_0000,
    0x8000_0000_0000_0000,
    0x3ff0_0000_0000_0000,
    0x0000_0000_0000_0001,
    0x7fef_ffff_ffff_ffff,
    0xffef_ffff_ffff_ffff,
    0x7ff0_0000_0000_0000,
    0xfff0_0000_0000_0000,
    0x7ff8_0000_0000_0000,
    0xfff8_0000_0000_0001,
    0x7ff0_0000_0000_0001,
    0xffff_ffff_ffff_ffff,
];

/// The deepest nesting of a sound document.
pub const NESTING: usize = 32;

/// A random document of about so many parts, with arbitrary spans.
pub fn random(random: &mut Random, size: usize) -> Vec<Node> {
    let mut left = 1 + random.below(size);
    let mut nodes = Vec::new();
    while left > 0 {
        nodes.push(random_node(random, NESTING, &mut left));
    }
    if random.one_in(40) {
        nodes.clear();
    }
    nodes
}

fn random_node(random: &mut Random, nesting: usize, left: &mut usize) -> Node {
    *left = left.saturating_sub(1);
    let mut entries = Vec::new();
    if !random.one_in(4) {
        for _ in 0..random.below(4) {
            *left = left.saturating_sub(1);
            let named = random.one_in(2);
            entries.push(random_entry(random, named));
        }
    }
    let block = random.one_in(2).then(|| {
        let mut children = Vec::new();
        while nesting > 1 && *left > 0 && !random.one_in(4) {
            children.push(random_node(random, nesting - 1, left));
        }
        children
    });
    Node {
        span: random_span(random),
        name: random_identifier(random),
        ty: random_type(random),
        entries,
        block,
    }
}

fn random_entry(random: &mut Random, named: bool) -> Entry {
    Entry {
        span: random_span(random),
        name: named.then(|| random_identifier(random)),
        ty: random_type(random),
        value: random_value(random),
    }
}

fn random_type(random: &mut Random) -> Option<Identifier> {
    random.one_in(5).then(|| random_identifier(random))
}

fn random_identifier(random: &mut Random) -> Identifier {
    Identifier {
        text: random_name(random).to_owned(),
        span: random_span(random),
    }
}

/// Any name, or a common one, so that names repeat.
fn random_name(random: &mut Random) -> &'static str {
    if random.one_in(2) {
        random.pick(&["a", "b"])
    } else {
        random.pick(&TEXTS)
    }
}

fn random_span(random: &mut Random) -> Span {
    Span {
        start: random_u32(random),
        length: random_u32(random),
    }
}

/// Mostly a small number, else any, with the largest among them.
fn random_u32(random: &mut Random) -> u32 {
    match random.below(8) {
        0 => u32::MAX,
        1 => random.next() as u32,
        _ => random.below(1000) as u32,
    }
}

fn random_value(random: &mut Random) -> Value {
    match random.below(10) {
        0..=2 => Value::Text(random.pick(&TEXTS).to_owned()),
        3..=4 => Value::Integer(INTEGERS[random.below(INTEGERS.len())]),
        5 => {
            let number = u128::from(random.next()) << 64 | u128::from(random.next());
            Value::Integer(number.cast_signed() >> random.below(128))
        }
        6 => Value::Float(FLOATS[random.below(FLOATS.len())]),
        7 => Value::Float(random.next()),
        8 => Value::Bool(random.one_in(2)),
        _ => Value::Null,
    }
}

/// Random names for a form: special ones, and ones that a random document has.
pub fn random_form(random: &mut Random) -> Vec<String> {
    (0..random.below(12))
        .map(|_| {
            let name = random_name(random);
            let number = random.below(4);
            match random.below(12) {
                0..=1 => name.to_owned(),
                2 => "#name".to_owned(),
                3 => "#type".to_owned(),
                4..=5 => format!("#{number}"),
                6 => format!("#{number}#type"),
                7 => "#args".to_owned(),
                8 => "#rest".to_owned(),
                9..=10 => format!("#@{name}"),
                _ => format!("#@{name}#type"),
            }
        })
        .collect()
}

/// Every kind of value, with the edges of each, as scalar nodes and as properties.
pub fn values() -> Vec<Vec<Node>> {
    let integers = INTEGERS.iter().map(|&number| Value::Integer(number));
    let floats = FLOATS.iter().map(|&bits| Value::Float(bits));
    let texts = TEXTS.iter().map(|&text| Value::Text(text.to_owned()));
    let others = [Value::Bool(true), Value::Bool(false), Value::Null];
    let values: Vec<Value> = integers.chain(floats).chain(texts).chain(others).collect();
    values
        .chunks(4)
        .map(|chunk| {
            let named = || chunk.iter().zip(["a", "b", "c", "d"]);
            let mut nodes: Vec<Node> = named()
                .map(|(value, name)| node(name, vec![entry(None, value)], None))
                .collect();
            let properties = named().map(|(value, name)| entry(Some(name), value));
            nodes.push(node("p", properties.collect(), None));
            numbered(nodes)
        })
        .collect()
}

/// Blocks of one node each, down to the deepest nesting; the innermost is an empty block or none.
pub fn deep(empty_block: bool) -> Vec<Node> {
    let mut block = empty_block.then(Vec::new);
    for _ in 0..NESTING {
        block = Some(vec![node("n", Vec::new(), block)]);
    }
    spanned(&block.unwrap_or_default())
}

/// One node with many children of few names.
pub fn wide(random: &mut Random, children: usize, names: usize) -> Vec<Node> {
    let child = |_| {
        let name = format!("n{}", random.below(names));
        let entries = if random.one_in(2) {
            vec![random_entry(random, false)]
        } else {
            Vec::new()
        };
        node(&name, entries, None)
    };
    let block = (0..children).map(child).collect();
    numbered(vec![node("many", Vec::new(), Some(block))])
}
