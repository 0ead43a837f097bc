//! Questions and answers as lines of text; answers/README.md describes them.

use crate::ask::{self, Line, Reply};
use crate::documents::{Random, random, random_form};
use crate::terms::{Content, Form, PlaceKind, Request, Step, form};
use crate::text::{escape, unescape, write};
use image::Node;

/// A line that asks something, or sets what later lines ask.
pub enum Question {
    Image(Vec<Node>),
    Form(Form),
    Reading { as_is: bool },
    At(Vec<Step>),
    Ask(Request),
}

impl Question {
    pub fn form(names: &[&str]) -> Question {
        Question::Form(form(names))
    }

    /// A path from the document, as words.
    pub fn at(path: &str) -> Option<Question> {
        let mut words = path.split_whitespace();
        let mut steps = Vec::new();
        while let Some(word) = words.next() {
            let mut number = || words.next()?.parse::<usize>().ok();
            let (request, item) = match word {
                "option" => (Request::Option, 0),
                "newtype" => (Request::Newtype, 0),
                "enum" => (Request::Enum(Content::Newtype), 0),
                "any" => (Request::Any, number()?),
                "seq" => (Request::Seq, number()?),
                "tuple" => (Request::Tuple, number()?),
                "map" => (Request::Map, number()?),
                "struct" => (Request::Struct(number()?), number()?),
                _ => return None,
            };
            steps.push(Step::new(request, item));
        }
        Some(Question::At(steps))
    }

    fn ask(request: &str) -> Option<Question> {
        let ours = |forms| Request::all(forms).into_iter();
        let others = Request::OTHERS.map(Request::Other).into_iter();
        let form = request
            .strip_prefix("struct ")
            .and_then(|number| number.parse::<usize>().ok());
        ours(form.map_or(0, |form| form + 1))
            .chain(others)
            .find(|known| known.to_string() == request)
            .map(Question::Ask)
    }

    /// The question of a line. Lines that ask nothing have none.
    fn read(line: &str) -> Result<Option<Question>, String> {
        let (word, rest) = line.split_once(' ').unwrap_or((line, ""));
        let question = match word {
            "image" => {
                let document = image::unhex(rest).and_then(|image| image::read(&image));
                Some(Question::Image(
                    document.map_err(|fault| fault.to_string())?,
                ))
            }
            "form" => {
                let names: Option<Vec<String>> = match line.strip_prefix("form ") {
                    None => Some(Vec::new()),
                    Some(names) => names.split(' ').map(unescape).collect(),
                };
                names.map(|names| Question::Form(form(&names)))
            }
            "reading" => match rest {
                "in-force" => Some(Question::Reading { as_is: false }),
                "as-is" => Some(Question::Reading { as_is: true }),
                _ => None,
            },
            "at" => rest.strip_prefix("document").and_then(Question::at),
            "ask" => Question::ask(rest),
            _ => return Ok(None),
        };
        match question {
            None => Err(format!("not a question: {line}")),
            question => Ok(question),
        }
    }
}

/// The questions among these lines.
pub fn read(lines: &str) -> Result<Vec<Question>, String> {
    let questions = lines.lines().map(Question::read);
    questions.filter_map(Result::transpose).collect()
}

/// Questions with their answers, and how many there are.
#[derive(Default)]
pub struct Answers {
    pub text: String,
    pub images: usize,
    pub answers: usize,
    /// The places and requests that came up.
    pub pairs: Vec<(PlaceKind, Request)>,
}

impl Answers {
    fn image(&mut self, document: &[Node]) {
        if self.images > 0 {
            self.text.push('\n');
        }
        self.images += 1;
        let image = image::hex(&image::write(document));
        self.text += &format!("image {image}\nkdl {}\n", write(document));
    }

    fn lines(&mut self, lines: &[Line]) {
        for line in lines {
            self.text += &format!("{line}\n");
        }
    }
}

fn show_form(form: Form) -> String {
    let names = form.iter().map(|name| format!(" {}", escape(name)));
    format!("form{}\n", names.collect::<String>())
}

/// Answers questions, in order. A struct must have a form.
pub fn answer(questions: &[Question]) -> Result<Answers, String> {
    let mut out = Answers::default();
    let mut document: &[Node] = &[];
    let mut forms: Vec<Form> = Vec::new();
    let mut as_is = false;
    let mut path: &[Step] = &[];
    for question in questions {
        match question {
            Question::Image(nodes) => {
                document = nodes;
                forms.clear();
                as_is = false;
                path = &[];
                out.image(document);
            }
            Question::Form(form) => {
                forms.push(form);
                out.text += &show_form(form);
            }
            Question::Reading { as_is: wanted } => {
                as_is = *wanted;
                let reading = if as_is { "as-is" } else { "in-force" };
                out.text += &format!("reading {reading}\n");
            }
            Question::At(steps) => {
                path = steps;
                for step in path {
                    has_form(step.request, &forms)?;
                }
                out.text += "at document";
                for step in path {
                    out.text += &format!(" {step}");
                }
                let reply = ask_in_reading(document, as_is, &forms, path, Request::Any);
                let place = reply.place.map(|place| place.to_string());
                out.text += &format!("\nplace {}\n", place.as_deref().unwrap_or("absent"));
            }
            Question::Ask(request) => {
                has_form(*request, &forms)?;
                let reply = ask_in_reading(document, as_is, &forms, path, *request);
                out.answers += 1;
                out.text += &format!("ask {request}\n");
                out.lines(&reply.lines);
                out.pairs.extend(reply.place.map(|place| (place, *request)));
            }
        }
    }
    Ok(out)
}

fn has_form(request: Request, forms: &[Form]) -> Result<(), String> {
    match request {
        Request::Struct(form) if form >= forms.len() => Err(format!("there is no form {form}")),
        _ => Ok(()),
    }
}

fn ask_in_reading(
    document: &[Node],
    as_is: bool,
    forms: &[Form],
    path: &[Step],
    request: Request,
) -> Reply {
    ask::ask(&read_as(document, as_is), forms, path, request)
}

/// The image of one of a document's two readings, in hexadecimal digits.
pub fn read_as(document: &[Node], as_is: bool) -> String {
    if as_is {
        image::hex(&image::write(document))
    } else {
        image::hex(&image::write(&image::in_force(document)))
    }
}

/// The listing of a document in one reading, each answer on a line.
pub fn walk(document: &[Node], as_is: bool) -> String {
    let answers = ask::walk(&read_as(document, as_is));
    answers.iter().map(|answer| format!("{answer}\n")).collect()
}

/// Documents with their walks, and how many walks there are.
pub fn walks(documents: &[Vec<Node>]) -> Answers {
    let mut out = Answers::default();
    for document in documents {
        out.image(document);
        let in_force = walk(document, false);
        let as_is = walk(document, true);
        out.text += &format!("walk\n{in_force}");
        out.answers += 1;
        if in_force != as_is {
            out.text += &format!("walk as-is\n{as_is}");
            out.answers += 1;
        }
    }
    out
}

/// Random rows of calls over random documents of about so many parts, with random forms.
pub fn rows(numbers: &mut Random, documents: usize, size: usize, rows: usize) -> Answers {
    let mut out = Answers::default();
    for _ in 0..documents {
        let document = random(numbers, size);
        let forms: Vec<Form> = (0..2).map(|_| form(&random_form(numbers))).collect();
        out.image(&document);
        out.text.extend(forms.iter().map(|form| show_form(form)));
        let image = read_as(&document, false);
        for _ in 0..rows {
            out.answers += 1;
            out.text += "row\n";
            out.lines(&ask::row(&image, &forms, numbers));
        }
    }
    out
}
