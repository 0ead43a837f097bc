//! The documents, forms and places of the recorded questions.

use crate::questions::Question;
use crate::terms::Request;
use crate::text;

/// A document as KDL text, forms, and paths to places of it.
struct Case {
    kdl: &'static str,
    forms: &'static [&'static [&'static str]],
    places: &'static [&'static str],
}

/// The path to the first node of a document.
const FIRST: &[&str] = &["map 0"];

/// A form that names something of every kind.
const FULL: &[&str] = &[
    "#name", "#type", "#0", "#args", "#rest", "#@x", "#@x#type", "x", "absent",
];

const CASES: &[Case] = &[
    // Documents.
    case("", &[&["a"]], &[""]),
    case(
        "lamp",
        &[&["lamp", "x", "#name"]],
        &["", "option", "newtype", "seq 0"],
    ),
    case(
        "a 1; b 2; a 3",
        &[&["c"]],
        &["", "option", "newtype", "tuple 1"],
    ),
    // Nodes without entries, with and without a block.
    case("a", &[FULL], &["map 0", "map 0 newtype", "enum"]),
    case("a {}", &[FULL], &["map 0", "map 0 option", "enum"]),
    case("(t)a", &[FULL], FIRST),
    // Scalar nodes.
    case(
        "a 1",
        &[FULL],
        &["map 0", "map 0 option", "map 0 enum", "enum"],
    ),
    case("a 1.5", &[FULL], FIRST),
    case("a \"w\"", &[FULL], &["map 0", "map 0 option", "enum"]),
    case("a \"\"", &[FULL], FIRST),
    case("a #true", &[FULL], FIRST),
    case("a #false", &[FULL], FIRST),
    case("a #null", &[FULL], &["map 0", "map 0 newtype"]),
    case("a 9223372036854775808", &[FULL], FIRST),
    case("a 18446744073709551616", &[FULL], FIRST),
    case("(t)a (u)\"w\"", &[FULL], FIRST),
    // One argument is not alone.
    case("a 1 {}", &[FULL], FIRST),
    case("a \"w\" {}", &[FULL], FIRST),
    case("a \"w\" x=1", &[FULL], FIRST),
    case("a #null x=1", &[FULL], FIRST),
    // Arguments only.
    case(
        "a 1 2 3",
        &[FULL, &["#0", "#rest"], &["#1", "#3", "#args"]],
        FIRST,
    ),
    case("a \"v\" \"w\"", &[FULL, &["#2", "#00", "#01", "#"]], FIRST),
    case(
        "a 0 1 2 3 4 5 6 7 8 9 10",
        &[&["#10", "#010", "#1", "#rest"]],
        &["map 0", "map 0 struct 0 2"],
    ),
    // Properties.
    case("a x=1", &[FULL], &["map 0", "map 0 enum", "enum"]),
    case("a x=\"w\"", &[FULL], &["map 0", "map 0 enum"]),
    case("a x=#null", &[FULL], &["map 0", "map 0 enum"]),
    case("a x=(v)1", &[FULL, &["#@x#type"]], FIRST),
    case("a y=1 x=2", &[FULL, &["#@y", "z", "y"]], FIRST),
    case("a 1 x=2", &[FULL], FIRST),
    case("a x=1 {}", &[FULL], FIRST),
    // Blocks.
    case(
        "a { b }",
        &[FULL, &["b"]],
        &["map 0", "map 0 enum", "map 0 seq 0"],
    ),
    case("a { b 1 }", &[FULL], &["map 0", "map 0 enum"]),
    case(
        "a { b \"w\" }",
        &[FULL],
        &["map 0", "map 0 enum", "enum enum"],
    ),
    case("a { b x=1 }", &[FULL], &["map 0 enum"]),
    case(
        "a { b { c 1 } }",
        &[FULL],
        &["map 0", "map 0 enum", "map 0 enum enum"],
    ),
    case(
        "a { b; c 1 }",
        &[FULL, &["c", "d", "b", "d"]],
        &["map 0", "map 0 seq 1"],
    ),
    case("a 1 x=2 { b 3 }", &[FULL, &["b"]], FIRST),
    case("a 1 2 { b 3; b 4; c }", &[FULL], FIRST),
    case("a x=1 { x 2 }", &[FULL], FIRST),
    // Everything at once.
    case(
        "(t)a (u)1 y=2 \"w\" x=(v)3 { b; c 4; b 5 }",
        &[FULL, &["#0#type", "#1#type", "#@y#type", "b", "d"], &[]],
        FIRST,
    ),
    // Names that look like a form's.
    case(
        "\"#name\" \"#0\"=1 \"#args\"=2 { \"#rest\" 3; \"#@x\" 4 }",
        &[&["#name", "#0", "#args", "#rest", "#@x", "#@#0"]],
        &["", "map 0"],
    ),
    case(
        "a x=(t)1 \"x#type\"=2 \"#@x\"=3",
        &[&["#@x", "#@x#type", "#@#@x", "x#type"]],
        FIRST,
    ),
    case(
        "a 1 2 { \"#0\" 3; \"#1#type\" 4 }",
        &[&["#0", "#1#type"]],
        FIRST,
    ),
    // Empty names, types and strings.
    case(
        "(\"\")\"\" (\"\")\"\" \"\"=(\"\")\"\" { \"\" }",
        &[&["", "#name", "#type", "#0", "#@", "#@#type"]],
        FIRST,
    ),
    case("a", &[&[""], &["", ""]], FIRST),
    // Repeated names of a form.
    case(
        "a 1 x=2",
        &[&["y", "#0", "y", "#0", "x", "#args", "#args", "z"]],
        FIRST,
    ),
    // Overridden properties.
    case("p x=1 y=2 x=3", &[FULL, &["#@y", "x"]], FIRST),
    case("p x=3 x=4", &[FULL], &["map 0", "map 0 enum", "enum"]),
    case("p x=(t)1 x=2", &[&["#@x", "#@x#type"]], FIRST),
    case("p x=1 x=(t)2", &[&["#@x", "#@x#type"]], FIRST),
    case("p 1 x=2 x=3 { x 4 }", &[FULL], FIRST),
    case("p x=1 x=\"w\" { c }", &[FULL], &["map 0", "enum"]),
    case("a { p x=1 x=2 }", &[FULL], &["map 0", "map 0 enum"]),
    // Values, as properties and as elements.
    case(
        "a x=\"w\" i=1 u=9223372036854775808 w=18446744073709551616 d=1.5 t=#true f=#false n=#null e=\"\"",
        &[FULL],
        &[
            "map 0 map 0",
            "map 0 map 0 option",
            "map 0 map 0 newtype",
            "map 0 map 1",
            "map 0 map 1 option",
            "map 0 map 2",
            "map 0 map 3",
            "map 0 map 4",
            "map 0 map 5",
            "map 0 map 6",
            "map 0 map 7",
            "map 0 map 8",
        ],
    ),
    case(
        "a \"w\" -1 #nan #true #null",
        &[FULL],
        &[
            "map 0 seq 0",
            "map 0 any 1",
            "map 0 tuple 2",
            "map 0 struct 0 1",
            "map 0 seq 3",
            "map 0 seq 4",
        ],
    ),
    // Identifiers.
    case(
        "(t)a (u)1 x=(v)2",
        &[&["#name", "#type", "#@x#type"]],
        &[
            "map 0 struct 0 0",
            "map 0 struct 0 0 newtype",
            "map 0 struct 0 1",
            "map 0 struct 0 2",
            "map 0 struct 0 3",
        ],
    ),
    case(
        "\"\" (\"two words\")1",
        &[&["#name"]],
        &["map 0 struct 0 0", "map 0 struct 0 1"],
    ),
    // Groups, of a document and of a block.
    case("a; a \"w\"", &[&["a"]], &["map 0", "map 0 any 1"]),
    case(
        "a 1; b; a { c }; a x=2",
        &[&["a"]],
        &["map 0", "map 0 seq 1", "map 0 map 2"],
    ),
    case(
        "n { c; c 1 }",
        &[&["c"]],
        &["map 0 map 0", "map 0 struct 0 0"],
    ),
    // Argument lists.
    case(
        "a \"w\" x=1 2",
        &[
            &["#args"],
            &["#rest"],
            &["#0", "#rest"],
            &["#0", "#1", "#rest"],
        ],
        &[
            "map 0 struct 0 0",
            "map 0 struct 0 0 option",
            "map 0 struct 0 0 newtype",
            "map 0 struct 1 0",
            "map 0 struct 2 1",
            "map 0 struct 3 2",
            "map 0 struct 3 2 newtype",
            "map 0 struct 0 0 map 1",
        ],
    ),
    case(
        "a",
        &[&["#args", "#rest"]],
        &["map 0 struct 0 0", "map 0 struct 0 1"],
    ),
    case(
        "a #null",
        &[&["#args", "#rest"]],
        &["map 0 struct 0 0", "map 0 struct 0 0 seq 0"],
    ),
    // Omissions.
    case(
        "a 1",
        &[&["#0", "x"], &["x", "x"]],
        &["map 0 struct 0 1", "map 0 struct 1 1"],
    ),
];

const fn case(
    kdl: &'static str,
    forms: &'static [&'static [&'static str]],
    places: &'static [&'static str],
) -> Case {
    Case { kdl, forms, places }
}

/// The recorded questions: each place of each case, asked each request.
pub fn questions() -> Vec<Question> {
    let mut questions = Vec::new();
    for case in CASES {
        let document = text::read(case.kdl).expect("a case's text can be read");
        questions.push(Question::Image(document.clone()));
        questions.extend(case.forms.iter().map(|names| Question::form(names)));
        let mut readings = vec![false];
        if image::in_force(&document) != document {
            readings.push(true);
        }
        for as_is in readings.iter().copied() {
            if readings.len() > 1 {
                questions.push(Question::Reading { as_is });
            }
            for place in case.places {
                questions.push(Question::at(place).expect("a case's path can be read"));
                let requests = Request::all(case.forms.len());
                questions.extend(requests.into_iter().map(Question::Ask));
            }
        }
    }
    questions
}
