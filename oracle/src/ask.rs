//! Asks the published deserializer and records what it answers.
//!
//! The visitors here take every answer and write down each call with its outcome. Where they go
//! next is a plan: the listing of one question, or a row of calls that a seed picks. To find the
//! label and span that an error at an outcome carries, a question is run again and the visitor
//! fails at that outcome.

use crate::documents::Random;
use crate::terms::{Content, Form, Label, PlaceKind, Request, Step, cause, enum_kind};
use crate::text::escape;
use image::Span;
use miette::Diagnostic;
use serde::de::{
    Deserialize, DeserializeSeed, Deserializer, EnumAccess, Error, MapAccess, SeqAccess,
    VariantAccess, Visitor,
};
use std::cell::RefCell;
use std::{fmt, mem};

/// The label and span that an error carries, if it carries one.
pub type Mark = Option<(Label, Span)>;

/// An answer, and the mark of an error at it.
#[derive(Debug, Clone, PartialEq, Eq)]
pub struct Line {
    pub answer: String,
    pub mark: Mark,
}

impl fmt::Display for Line {
    fn fmt(&self, f: &mut fmt::Formatter<'_>) -> fmt::Result {
        f.write_str(&self.answer)?;
        if let Some((label, span)) = self.mark {
            write!(f, "\t{label} {} {}", span.start, span.length)?;
        }
        Ok(())
    }
}

/// The place that a path led to, and the lines of its answer. No place has no answer.
#[derive(Debug, Clone, PartialEq, Eq)]
pub struct Reply {
    pub place: Option<PlaceKind>,
    pub lines: Vec<Line>,
}

/// Asks the place at the end of the path, and each place below it as `any`.
pub fn ask(image: &str, forms: &[Form], path: &[Step], request: Request) -> Reply {
    ask_marking(image, forms, path, request, usize::MAX)
}

/// Like `ask`, but only so many answers from the start are failed at to find their mark; the
/// others are shown without.
pub fn ask_marking(
    image: &str,
    forms: &[Form],
    path: &[Step],
    request: Request,
    marked: usize,
) -> Reply {
    let question = |fail_at| {
        let plan = Plan::Listing {
            path: path.to_vec(),
            request,
            place: None,
        };
        Run::new(forms, plan, fail_at).start(image)
    };
    let (run, error) = question(None);
    let Plan::Listing {
        place: Some(place), ..
    } = run.plan
    else {
        return Reply {
            place: None,
            lines: Vec::new(),
        };
    };
    let mark_at = |at| {
        let (again, error) = question(Some(at));
        assert!(again.failed, "the visitor was to fail at outcome {at}");
        mark(&error.expect("a visitor's failure is an error"))
    };
    let mut lines: Vec<Line> = run
        .events
        .iter()
        .enumerate()
        .map(|(at, event)| Line {
            answer: event.listed(),
            mark: if at < marked { mark_at(at) } else { None },
        })
        .collect();
    lines.extend(error.map(|error| Line {
        answer: format!("refused {}", cause(&error.to_string())),
        mark: mark(&error),
    }));
    Reply {
        place: Some(place),
        lines,
    }
}

/// The listing of asking `any` from the document down.
pub fn walk(image: &str) -> Vec<String> {
    let plan = Plan::Listing {
        path: Vec::new(),
        request: Request::Any,
        place: None,
    };
    let (run, error) = Run::new(&[], plan, None).start(image);
    if let Some(error) = error {
        panic!("a walk was refused: {error}");
    }
    let answers = run.events.iter().filter(|event| !event.names_a_place());
    answers.map(Event::listed).collect()
}

/// A row of calls from the document on, picked at random. It asks, passes over, enters and leaves
/// places until it is at rest, is refused or rejects.
pub fn row(image: &str, forms: &[Form], random: &mut Random) -> Vec<Line> {
    let plan = Plan::Row(Random::new(random.next()));
    let (run, error) = Run::new(forms, plan, None).start(image);
    let mut lines = vec![Line {
        answer: "begin".to_owned(),
        mark: None,
    }];
    lines.extend(run.events.iter().map(|event| Line {
        answer: event.called(),
        mark: None,
    }));
    lines.extend(error.map(|error| Line {
        answer: if run.failed {
            "reject".to_owned()
        } else {
            format!("{}: refused {}", run.call, cause(&error.to_string()))
        },
        mark: mark(&error),
    }));
    lines
}

fn mark(error: &kdl::de::Error) -> Mark {
    let labelled = error.labels().and_then(|mut labels| labels.next());
    assert_eq!(error.span(), labelled.as_ref().map(|one| *one.inner()));
    let labelled = labelled?;
    let text = labelled.label().expect("a span comes with a label");
    let label = Label::ALL.into_iter().find(|label| label.text() == text);
    let number = |n: usize| u32::try_from(n).expect("spans have 32 bits");
    let span = Span {
        start: number(labelled.inner().offset()),
        length: number(labelled.inner().len()),
    };
    Some((
        label.unwrap_or_else(|| panic!("an unknown label: {text}")),
        span,
    ))
}

/// A call of a reader that a visitor stands for.
#[derive(Clone, Copy)]
enum Call {
    Ask(Request),
    Element,
    Key,
    Value,
    Skip,
    Variant,
    Content(Content),
    Leave,
}

impl fmt::Display for Call {
    fn fmt(&self, f: &mut fmt::Formatter<'_>) -> fmt::Result {
        match self {
            Call::Ask(Request::Enum(_)) => f.write_str("ask enum"),
            Call::Ask(request) => write!(f, "ask {request}"),
            Call::Element => f.write_str("element"),
            Call::Key => f.write_str("key"),
            Call::Value => f.write_str("value"),
            Call::Skip => f.write_str("skip"),
            Call::Variant => f.write_str("variant"),
            Call::Content(content) => write!(f, "content {content}"),
            Call::Leave => f.write_str("leave"),
        }
    }
}

/// What a call comes to.
enum Outcome {
    Answer(String),
    /// A key or a variant's name.
    Name(String),
    /// A place becomes pending.
    Place(PlaceKind),
    End,
    Done,
}

struct Event {
    call: Call,
    outcome: Outcome,
}

impl Event {
    /// Whether the event says only which place is asked next.
    fn names_a_place(&self) -> bool {
        matches!(self.outcome, Outcome::Place(_))
    }

    /// The event as a line of a listing.
    fn listed(&self) -> String {
        let word = match self.call {
            Call::Content(_) => "content".to_owned(),
            call => call.to_string(),
        };
        match &self.outcome {
            Outcome::Answer(answer) => answer.clone(),
            Outcome::Name(name) => format!("{word} {}", escape(name)),
            Outcome::Place(place) => format!("{word} {place}"),
            Outcome::End => "end".to_owned(),
            Outcome::Done => word,
        }
    }

    /// The event as a line of a row: the call and its outcome.
    fn called(&self) -> String {
        match &self.outcome {
            Outcome::Answer(answer) => format!("{}: {answer}", self.call),
            Outcome::Name(name) => format!("{}: name {}", self.call, escape(name)),
            Outcome::Place(place) => format!("{}: {place}", self.call),
            Outcome::End => format!("{}: end", self.call),
            Outcome::Done => self.call.to_string(),
        }
    }
}

/// How a run goes on.
enum Plan {
    /// Follows a path, asks the request at its end, asks `any` below, and goes through every list.
    Listing {
        path: Vec<Step>,
        request: Request,
        place: Option<PlaceKind>,
    },
    /// Does anything that fits.
    Row(Random),
}

/// A question or a row while it is asked.
struct Run {
    forms: Vec<Form>,
    plan: Plan,
    /// The event at which the visitor fails.
    fail_at: Option<usize>,
    failed: bool,
    /// The last call.
    call: Call,
    /// Whether the visitor of an enum returned early. The published crate sets a word's mark on all
    /// errors until that visitor has returned, so the level is left after it.
    enum_left: bool,
    events: Vec<Event>,
}

thread_local! {
    /// What the next `Root` runs. The published entry function takes a type and no state, so the
    /// state goes this way.
    static NEXT: RefCell<Option<Run>> = const { RefCell::new(None) };
}

struct Root;

impl<'de> Deserialize<'de> for Root {
    fn deserialize<D: Deserializer<'de>>(document: D) -> Result<Self, D::Error> {
        let mut run = NEXT.take().expect("a run was put");
        let result = match &run.plan {
            Plan::Listing { path, .. } => {
                let path = path.clone();
                let follow = Follow {
                    run: &mut run,
                    path: &path,
                };
                follow.deserialize(document)
            }
            Plan::Row(_) => run.pending(document),
        };
        NEXT.set(Some(run));
        result.map(|()| Root)
    }
}

impl Run {
    fn new(forms: &[Form], plan: Plan, fail_at: Option<usize>) -> Self {
        Run {
            forms: forms.to_vec(),
            plan,
            fail_at,
            failed: false,
            call: Call::Ask(Request::Any),
            enum_left: false,
            events: Vec::new(),
        }
    }

    fn start(self, image: &str) -> (Run, Option<kdl::de::Error>) {
        NEXT.set(Some(self));
        let error = kdl::de::from_str::<Root>(image).err();
        let run = NEXT.take().expect("the document was read");
        (run, error)
    }

    /// Writes down what the last call came to. A listing fails before the event that it is to fail
    /// at, a row now and then after one.
    fn came<E: Error>(&mut self, outcome: Outcome) -> Result<(), E> {
        let fails_before = self.fail_at == Some(self.events.len());
        if !fails_before {
            let call = self.call;
            self.events.push(Event { call, outcome });
        }
        self.failed = match &mut self.plan {
            Plan::Listing { .. } => fails_before,
            Plan::Row(random) => random.one_in(80),
        };
        if self.failed {
            return Err(E::custom("rejected"));
        }
        Ok(())
    }

    fn answer<E: Error>(&mut self, answer: impl Into<String>) -> Result<(), E> {
        self.came(Outcome::Answer(answer.into()))
    }

    /// Asks or passes over a place.
    fn pending<'de, D: Deserializer<'de>>(&mut self, place: D) -> Result<(), D::Error> {
        let request = match &mut self.plan {
            Plan::Listing { .. } => Some(Request::Any),
            Plan::Row(random) => random_request(random, self.forms.len()),
        };
        match request {
            Some(request) => self.put(place, request),
            None => {
                self.call = Call::Skip;
                self.came(Outcome::Done)
            }
        }
    }

    fn put<'de, D: Deserializer<'de>>(
        &mut self,
        place: D,
        request: Request,
    ) -> Result<(), D::Error> {
        self.call = Call::Ask(request);
        let forms = self.forms.clone();
        put(place, request, &forms, Record { run: self, request })?;
        if mem::take(&mut self.enum_left) {
            self.leave(0)?;
        }
        Ok(())
    }

    /// Whether a list is gone on with.
    fn goes_on(&mut self, ended: bool) -> bool {
        match &mut self.plan {
            Plan::Listing { .. } => !ended,
            Plan::Row(random) => !random.one_in(if ended { 2 } else { 8 }),
        }
    }

    /// Whether something that a listing takes is passed over or left.
    fn turns_away(&mut self) -> bool {
        match &mut self.plan {
            Plan::Listing { .. } => false,
            Plan::Row(random) => random.one_in(8),
        }
    }

    /// Leaves a level whose list had so many items left.
    fn leave<E: Error>(&mut self, left: usize) -> Result<(), E> {
        if let Plan::Listing { .. } = self.plan {
            assert_eq!(left, 0, "a list that has ended gives nothing more");
            return Ok(());
        }
        self.call = Call::Leave;
        self.answer(left.to_string())
    }
}

/// One of our requests, those that open lists more often than the others, or none.
fn random_request(random: &mut Random, forms: usize) -> Option<Request> {
    match random.below(12) {
        0 => None,
        1..=3 => Some(Request::Any),
        4..=6 if forms > 0 => Some(Request::Struct(random.below(forms))),
        7 => Some(Request::Seq),
        _ => {
            let requests = Request::all(forms);
            let request = requests[random.below(requests.len())];
            Some(match request {
                Request::Tuple => Request::Seq,
                request => request,
            })
        }
    }
}

/// Calls the deserializer's method for a request.
fn put<'de, D: Deserializer<'de>, V: Visitor<'de>>(
    place: D,
    request: Request,
    forms: &[Form],
    visitor: V,
) -> Result<V::Value, D::Error> {
    match request {
        Request::Any => place.deserialize_any(visitor),
        Request::Bool => place.deserialize_bool(visitor),
        Request::Option => place.deserialize_option(visitor),
        Request::Unit => place.deserialize_unit(visitor),
        Request::Newtype => place.deserialize_newtype_struct("", visitor),
        Request::Seq => place.deserialize_seq(visitor),
        Request::Tuple => place.deserialize_tuple(0, visitor),
        Request::Map => place.deserialize_map(visitor),
        Request::Struct(form) => place.deserialize_struct("", forms[form], visitor),
        Request::Enum(_) => place.deserialize_enum("", &[], visitor),
        Request::Other(name) => match name {
            "i8" => place.deserialize_i8(visitor),
            "i16" => place.deserialize_i16(visitor),
            "i32" => place.deserialize_i32(visitor),
            "i64" => place.deserialize_i64(visitor),
            "i128" => place.deserialize_i128(visitor),
            "u8" => place.deserialize_u8(visitor),
            "u16" => place.deserialize_u16(visitor),
            "u32" => place.deserialize_u32(visitor),
            "u64" => place.deserialize_u64(visitor),
            "u128" => place.deserialize_u128(visitor),
            "f32" => place.deserialize_f32(visitor),
            "f64" => place.deserialize_f64(visitor),
            "char" => place.deserialize_char(visitor),
            "str" => place.deserialize_str(visitor),
            "string" => place.deserialize_string(visitor),
            "bytes" => place.deserialize_bytes(visitor),
            "byte_buf" => place.deserialize_byte_buf(visitor),
            "unit_struct" => place.deserialize_unit_struct("", visitor),
            "tuple_struct" => place.deserialize_tuple_struct("", 0, visitor),
            "identifier" => place.deserialize_identifier(visitor),
            "ignored_any" => place.deserialize_ignored_any(visitor),
            other => panic!("no such request: {other}"),
        },
    }
}

/// Follows a path, and asks the question at its end.
struct Follow<'r> {
    run: &'r mut Run,
    path: &'r [Step],
}

impl<'de> DeserializeSeed<'de> for Follow<'_> {
    type Value = ();

    fn deserialize<D: Deserializer<'de>>(self, end: D) -> Result<(), D::Error> {
        if let Some((&step, path)) = self.path.split_first() {
            let forms = self.run.forms.clone();
            let run = self.run;
            return put(end, step.request, &forms, TakeItem { run, step, path });
        }
        let Plan::Listing { request, place, .. } = &mut self.run.plan else {
            unreachable!("only a listing follows a path")
        };
        *place = Some(PlaceKind::of::<D>());
        let request = *request;
        self.run.put(end, request)
    }
}

/// Takes one item of an answer and follows the rest of the path from there. The answers that have
/// no items are refused, as a visitor does by default, and the path leads to no place.
struct TakeItem<'r> {
    run: &'r mut Run,
    step: Step,
    path: &'r [Step],
}

impl<'r> TakeItem<'r> {
    fn rest(self) -> Follow<'r> {
        Follow {
            run: self.run,
            path: self.path,
        }
    }
}

impl<'de> Visitor<'de> for TakeItem<'_> {
    type Value = ();

    fn visit_some<D: Deserializer<'de>>(self, place: D) -> Result<(), D::Error> {
        self.rest().deserialize(place)
    }

    fn visit_newtype_struct<D: Deserializer<'de>>(self, place: D) -> Result<(), D::Error> {
        self.rest().deserialize(place)
    }

    fn visit_seq<A: SeqAccess<'de>>(self, mut elements: A) -> Result<(), A::Error> {
        for _ in 0..self.step.item {
            elements.next_element_seed(Pass)?;
        }
        elements.next_element_seed(self.rest())?;
        Ok(())
    }

    fn visit_map<A: MapAccess<'de>>(self, mut items: A) -> Result<(), A::Error> {
        for _ in 0..self.step.item {
            if items.next_key_seed(Pass)?.is_some() {
                items.next_value_seed(Pass)?;
            }
        }
        if items.next_key_seed(Pass)?.is_some() {
            items.next_value_seed(self.rest())?;
        }
        Ok(())
    }

    fn visit_enum<A: EnumAccess<'de>>(self, access: A) -> Result<(), A::Error> {
        let ((), content) = access.variant_seed(Pass)?;
        content.newtype_variant_seed(self.rest())
    }
}

/// Takes a key, an element or a value without asking it.
struct Pass;

impl<'de> DeserializeSeed<'de> for Pass {
    type Value = ();

    fn deserialize<D: Deserializer<'de>>(self, _: D) -> Result<(), D::Error> {
        Ok(())
    }
}

/// Takes the answer to a request or a content, and goes on below it.
struct Record<'r> {
    run: &'r mut Run,
    request: Request,
}

impl<'de> Visitor<'de> for Record<'_> {
    type Value = ();

    fn visit_bool<E: Error>(self, v: bool) -> Result<(), E> {
        self.run.answer(v.to_string())
    }

    fn visit_i64<E: Error>(self, v: i64) -> Result<(), E> {
        self.run.answer(format!("int {v}"))
    }

    fn visit_u64<E: Error>(self, v: u64) -> Result<(), E> {
        self.run.answer(format!("uint {v}"))
    }

    fn visit_i128<E: Error>(self, v: i128) -> Result<(), E> {
        self.run.answer(format!("wide {v:032x}"))
    }

    fn visit_f64<E: Error>(self, v: f64) -> Result<(), E> {
        self.run.answer(format!("float {:016x}", v.to_bits()))
    }

    fn visit_str<E: Error>(self, v: &str) -> Result<(), E> {
        self.run.answer(format!("text {}", escape(v)))
    }

    fn visit_none<E: Error>(self) -> Result<(), E> {
        self.run.answer("none")
    }

    fn visit_unit<E: Error>(self) -> Result<(), E> {
        self.run.answer("unit")
    }

    fn visit_some<D: Deserializer<'de>>(self, place: D) -> Result<(), D::Error> {
        self.run.answer("some")?;
        self.run.pending(place)
    }

    fn visit_newtype_struct<D: Deserializer<'de>>(self, place: D) -> Result<(), D::Error> {
        self.run.answer("newtype")?;
        self.run.pending(place)
    }

    fn visit_seq<A: SeqAccess<'de>>(self, mut elements: A) -> Result<(), A::Error> {
        let run = self.run;
        run.answer("seq")?;
        let mut ended = false;
        while run.goes_on(ended) {
            run.call = Call::Element;
            ended = elements.next_element_seed(Inner { run })?.is_none();
            if ended {
                run.came(Outcome::End)?;
            }
        }
        let mut left = 0;
        while elements.next_element_seed(Pass)?.is_some() {
            left += 1;
        }
        run.leave(left)
    }

    fn visit_map<A: MapAccess<'de>>(self, mut items: A) -> Result<(), A::Error> {
        let run = self.run;
        run.answer("map")?;
        let mut ended = false;
        while run.goes_on(ended) {
            run.call = Call::Key;
            ended = items.next_key_seed(Name { run })?.is_none();
            if ended {
                run.came(Outcome::End)?;
            } else if run.turns_away() {
                items.next_value_seed(Pass)?;
                run.call = Call::Skip;
                run.came(Outcome::Done)?;
            } else {
                run.call = Call::Value;
                items.next_value_seed(Inner { run })?;
            }
        }
        let mut left = 0;
        while items.next_key_seed(Pass)?.is_some() {
            items.next_value_seed(Pass)?;
            left += 1;
        }
        run.leave(left)
    }

    fn visit_enum<A: EnumAccess<'de>>(self, access: A) -> Result<(), A::Error> {
        let Record { run, request } = self;
        let Request::Enum(content) = request else {
            panic!("an enum came that was not asked for")
        };
        run.answer(format!("enum {}", enum_kind::<A>()))?;
        if run.turns_away() {
            run.enum_left = true;
            return Ok(());
        }
        run.call = Call::Variant;
        let ((), variant) = access.variant_seed(Name { run })?;
        if run.turns_away() {
            run.enum_left = true;
            return Ok(());
        }
        run.call = Call::Content(content);
        match content {
            Content::Unit => {
                variant.unit_variant()?;
                run.answer("unit")
            }
            Content::Newtype => variant.newtype_variant_seed(Inner { run }),
            Content::Tuple => variant.tuple_variant(0, Record { run, request }),
            Content::Struct => {
                let form = run.forms.first().copied().unwrap_or_default();
                variant.struct_variant(form, Record { run, request })
            }
        }
    }
}

/// An element, a map's value or a newtype content: a place that becomes pending.
struct Inner<'r> {
    run: &'r mut Run,
}

impl<'de> DeserializeSeed<'de> for Inner<'_> {
    type Value = ();

    fn deserialize<D: Deserializer<'de>>(self, place: D) -> Result<(), D::Error> {
        self.run.came(Outcome::Place(PlaceKind::of::<D>()))?;
        self.run.pending(place)
    }
}

/// A key or a variant's name.
struct Name<'r> {
    run: &'r mut Run,
}

impl<'de> DeserializeSeed<'de> for Name<'_> {
    type Value = ();

    fn deserialize<D: Deserializer<'de>>(self, name: D) -> Result<(), D::Error> {
        name.deserialize_str(self)
    }
}

impl<'de> Visitor<'de> for Name<'_> {
    type Value = ();

    fn visit_str<E: Error>(self, v: &str) -> Result<(), E> {
        self.run.came(Outcome::Name(v.to_owned()))
    }
}
