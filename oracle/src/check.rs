//! Compares the table of answers, or a program, with the published crate.

use crate::ask;
use crate::documents::{self, Random};
use crate::questions;
use crate::table::Place;
use crate::terms::{Content, Form, PlaceKind, Request, Step, form};
use crate::text;
use image::Node;
use std::io::{self, Write};
use std::process::{Command, Stdio};

/// How many answers of a reply have their label and span compared. What comes later is an inner
/// place's, which is asked on its own.
const MARKED: usize = 4;

/// How much was compared.
#[derive(Default)]
pub struct Tally {
    pub documents: usize,
    pub places: usize,
    pub answers: usize,
}

/// Compares every place and request of generated documents: all of at most this size, so many
/// random ones, and the ones with all values. A difference ends it, as a text.
pub fn check(size: usize, seed: u64, count: usize) -> Result<Tally, String> {
    let mut tally = Tally::default();
    let short_forms = [
        form(&["#name", "#type", "#0", "#rest", "#@a", "#@b#type", "a", "c"]),
        form(&["#args", "#1", "#1#type", "#@a#type", "b", "b", "c"]),
    ];
    for size in 0..=size {
        for document in documents::short(size) {
            tally.document(&document, &short_forms)?;
        }
    }
    for document in documents::values() {
        tally.document(&document, &short_forms)?;
    }
    let mut random = Random::new(seed);
    for _ in 0..count {
        let forms: Vec<Form> = (0..3)
            .map(|_| form(&documents::random_form(&mut random)))
            .collect();
        tally.document(&documents::random(&mut random, 30), &forms)?;
    }
    Ok(tally)
}

/// Compares a program's listings with the walks of generated documents, and answers how many. The
/// program reads an image from standard input and writes the listing to standard output.
pub fn against(
    size: usize,
    seed: u64,
    count: usize,
    program: &dyn Fn() -> Command,
) -> Result<usize, String> {
    let mut random = Random::new(seed);
    let mut documents: Vec<Vec<Node>> = (0..=size).flat_map(documents::short).collect();
    documents.extend(documents::values());
    documents.extend([documents::deep(false), documents::deep(true)]);
    documents.push(documents::wide(&mut random, 200, 20));
    documents.extend((0..count).map(|_| documents::random(&mut random, 60)));
    for document in &documents {
        let listing = listing(program(), &image::write(document))
            .map_err(|error| format!("cannot run the program: {error}"))?;
        let walk = questions::walk(document, false);
        if listing != walk.as_bytes() {
            return Err(format!(
                "{}\npublished:\n{walk}program:\n{}",
                text::write(document),
                String::from_utf8_lossy(&listing)
            ));
        }
    }
    Ok(documents.len())
}

/// What a program prints for an image.
fn listing(mut program: Command, image: &[u8]) -> io::Result<Vec<u8>> {
    let mut child = program
        .stdin(Stdio::piped())
        .stdout(Stdio::piped())
        .spawn()?;
    let mut input = child.stdin.take().expect("standard input is piped");
    input.write_all(image)?;
    drop(input);
    Ok(child.wait_with_output()?.stdout)
}

impl Tally {
    /// Compares a document in both readings.
    fn document(&mut self, document: &[Node], forms: &[Form]) -> Result<(), String> {
        self.documents += 1;
        let in_force = image::in_force(document);
        self.reading(document, forms)?;
        if in_force != document {
            self.reading(&in_force, forms)?;
        }
        Ok(())
    }

    fn reading(&mut self, document: &[Node], forms: &[Form]) -> Result<(), String> {
        let checked = Checked {
            document,
            image: image::hex(&image::write(document)),
            forms,
        };
        checked.place(&Place::Document(document), &mut Vec::new(), true, self)
    }
}

struct Checked<'t> {
    document: &'t [Node],
    image: String,
    forms: &'t [Form],
}

impl Checked<'_> {
    /// Compares a place, and if `below` is set the places that it leads to.
    fn place(
        &self,
        place: &Place<'_>,
        path: &mut Vec<Step>,
        below: bool,
        tally: &mut Tally,
    ) -> Result<(), String> {
        tally.places += 1;
        let ours = Request::all(self.forms.len());
        let others = Request::OTHERS.map(Request::Other);
        for request in ours.into_iter().chain(others) {
            tally.answers += 1;
            let mut expected = place.lines(request, self.forms);
            let found = ask::ask_marking(&self.image, self.forms, path, request, MARKED);
            for line in expected.iter_mut().skip(MARKED) {
                line.mark = line.mark.filter(|_| line.answer.starts_with("refused "));
            }
            if found.place != Some(place.kind()) || found.lines != expected {
                return Err(self.difference(path, request, &expected, &found));
            }
        }
        if !below {
            return Ok(());
        }
        let mut steps: Vec<(Request, bool)> = vec![
            (Request::Map, true),
            (Request::Seq, false),
            (Request::Option, false),
            (Request::Newtype, false),
            (Request::Enum(Content::Newtype), false),
        ];
        if place.kind() == PlaceKind::Node {
            steps.extend((0..self.forms.len()).map(|form| (Request::Struct(form), false)));
        }
        for (request, below) in steps {
            for (step, inner) in place.inner(request, self.forms) {
                path.push(step);
                self.place(&inner, path, below, tally)?;
                path.pop();
            }
        }
        Ok(())
    }

    fn difference(
        &self,
        path: &[Step],
        request: Request,
        expected: &[ask::Line],
        found: &ask::Reply,
    ) -> String {
        let lines = |lines: &[ask::Line]| {
            lines
                .iter()
                .map(|line| format!("    {line}\n"))
                .collect::<String>()
        };
        let steps: String = path.iter().map(|step| format!(" {step}")).collect();
        format!(
            "{}\nforms {:?}\nat document{steps}\nask {request}\ntable:\n{}published:\n{}",
            text::write(self.document),
            self.forms,
            lines(expected),
            lines(&found.lines),
        )
    }
}
