//! Asks the published deserializer of the crate kdl about documents given as images.

mod ask;
mod cases;
mod check;
mod documents;
mod questions;
mod table;
mod terms;
mod text;
mod tree;

use image::Node;
use kdl::KdlDocument;
use std::error::Error;
use std::io::Read;
use std::process::{Command, ExitCode};
use std::{env, fs, io};
use terms::{PlaceKind, Request};

const USAGE: &str = "usage:
  oracle answers FOLDER          write the recorded answers
  oracle ask                     answer the questions on standard input
  oracle walk [as-is]            list the images on standard input, in hexadecimal, one a line
  oracle kdl                     show the images on standard input as KDL text
  oracle count                   count the nodes and entries of the images on standard input
  oracle tree                    print the document of the image on standard input, each node and
                                 entry on a line
  oracle image KDL               print the image of a KDL text
  oracle short SIZE              print the images of all documents of this size
  oracle random SEED COUNT       print the images of random documents
  oracle check SIZE SEED COUNT   compare the table of answers with the published crate
  oracle against SIZE SEED COUNT PROGRAM [ARGUMENT...]
                                 compare a program's listings with the walks";

/// The seed of the random documents and rows on record.
const SEED: u64 = 1;

fn main() -> ExitCode {
    let arguments: Vec<String> = env::args().skip(1).collect();
    let words: Vec<&str> = arguments.iter().map(String::as_str).collect();
    match run(&words) {
        Ok(()) => ExitCode::SUCCESS,
        Err(error) => {
            eprintln!("oracle: {error}");
            ExitCode::FAILURE
        }
    }
}

fn run(arguments: &[&str]) -> Result<(), Box<dyn Error>> {
    match arguments {
        ["answers", folder] => answers(folder)?,
        ["ask"] => {
            let questions = questions::read(&input()?)?;
            print!("{}", questions::answer(&questions)?.text);
        }
        ["walk"] => each_image(|document| questions::walk(document, false))?,
        ["walk", "as-is"] => each_image(|document| questions::walk(document, true))?,
        ["kdl"] => each_image(text::write)?,
        ["count"] => {
            for line in input()?.lines() {
                let (nodes, entries) = tree::count(&KdlDocument::parse_v2(line)?);
                println!("ok {nodes} {entries}");
            }
        }
        ["tree"] => {
            let document = KdlDocument::parse_v2(input()?.trim_end())?;
            print!("{}", tree::lines(&document));
        }
        ["image", kdl] => {
            let document = text::read(kdl).map_err(|at| format!("cannot read it from {at} on"))?;
            print_images(&[document]);
        }
        ["short", size] => print_images(&documents::short(size.parse()?)),
        ["random", seed, count] => {
            let mut random = documents::Random::new(seed.parse()?);
            for _ in 0..count.parse()? {
                print_images(&[documents::random(&mut random, 60)]);
            }
        }
        ["check", size, seed, count] => {
            let tally = check::check(size.parse()?, seed.parse()?, count.parse()?)?;
            println!(
                "the table agrees with the published crate: {} documents, {} places, {} answers",
                tally.documents, tally.places, tally.answers
            );
        }
        ["against", size, seed, count, program, arguments @ ..] => {
            let compared = check::against(size.parse()?, seed.parse()?, count.parse()?, &|| {
                let mut command = Command::new(program);
                command.args(arguments);
                command
            })?;
            println!("{program} agrees with the published crate: {compared} walks");
        }
        _ => return Err(USAGE.into()),
    }
    Ok(())
}

fn input() -> io::Result<String> {
    let mut input = String::new();
    io::stdin().read_to_string(&mut input)?;
    Ok(input)
}

/// Prints what is made of each image on standard input, with an empty line after it.
fn each_image(show: impl Fn(&[Node]) -> String) -> Result<(), Box<dyn Error>> {
    for line in input()?.lines() {
        let document = image::read(&image::unhex(line)?)?;
        println!("{}", show(&document));
    }
    Ok(())
}

fn print_images(documents: &[Vec<Node>]) {
    for document in documents {
        println!("{}", image::hex(&image::write(document)));
    }
}

/// Writes the recorded answers to files of this folder.
fn answers(folder: &str) -> Result<(), Box<dyn Error>> {
    let requests = questions::answer(&cases::questions())?;
    for place in PlaceKind::ALL {
        for request in Request::all(1) {
            if !requests.pairs.contains(&(place, request)) {
                return Err(format!("no recorded question asks a {place} as {request}").into());
            }
        }
    }
    let mut random = documents::Random::new(SEED);
    let walks = questions::walks(&recorded_documents(&mut random));
    let rows = questions::rows(&mut random, 60, 16, 5);
    let files = [
        ("requests", requests, "answers"),
        ("walks", walks, "walks"),
        ("rows", rows, "rows"),
    ];
    for (name, file, what) in files {
        fs::write(format!("{folder}/{name}.txt"), &file.text)?;
        println!(
            "{name}.txt: {} {what} over {} documents, {} bytes",
            file.answers,
            file.images,
            file.text.len()
        );
    }
    Ok(())
}

/// The documents whose walks are on record.
fn recorded_documents(random: &mut documents::Random) -> Vec<Vec<Node>> {
    let mut documents: Vec<Vec<Node>> = (0..=3).flat_map(documents::short).collect();
    documents.extend(documents::values());
    documents.extend([documents::deep(false), documents::deep(true)]);
    documents.push(documents::wide(random, 100, 10));
    documents.extend((0..120).map(|_| documents::random(random, 12)));
    documents
}
