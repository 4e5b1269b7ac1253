//! Running two programs on the same text, or one on many questions, and telling where they differ.

use std::collections::BTreeMap;
use std::io::{Read, Write};
use std::path::{Path, PathBuf};
use std::process::{Child, Command, Stdio};

fn start(program: &Path) -> Child {
    Command::new(program)
        .stdin(Stdio::piped())
        .stdout(Stdio::piped())
        .stderr(Stdio::null())
        .spawn()
        .unwrap_or_else(|error| panic!("{}: {error}", program.display()))
}

/// Gives the text. A program may stop reading early; that is no error. Texts are shorter than a pipe holds.
fn give(child: &mut Child, text: &[u8]) {
    let mut stdin = child.stdin.take().expect("piped");
    let _ = stdin.write_all(text);
}

fn output(child: Child) -> Vec<u8> {
    child.wait_with_output().expect("the program ends").stdout
}

/// The words of a question and of its answer; zeros fill both.
const ASKED: usize = 204;
const TOLD: usize = 62;

/// What a question is about, its first word.
#[derive(Clone, Copy)]
pub enum About {
    Operation,
    Rule,
    Test,
    Back,
}

/// Words as bytes, the lowest byte of each word first, and zeros up to so many words.
fn put_words(bytes: &mut Vec<u8>, words: &[i32], room: usize) {
    let end = bytes.len() + 4 * room;
    bytes.extend(words.iter().flat_map(|word| word.to_le_bytes()));
    bytes.resize(end, 0);
}

fn words_of(bytes: &[u8]) -> Vec<i32> {
    bytes.chunks_exact(4).map(|four| i32::from_le_bytes(four.try_into().expect("four"))).collect()
}

/// A program's whole output for an input of any length.
fn output_of(program: &Path, input: Vec<u8>) -> std::io::Result<Vec<u8>> {
    let mut child = start(program);
    let mut stdin = child.stdin.take().expect("piped");
    let writer = std::thread::spawn(move || {
        let _ = stdin.write_all(&input);
    });
    let mut output = Vec::new();
    child.stdout.take().expect("piped").read_to_end(&mut output)?;
    let _ = writer.join();
    child.wait()?;
    Ok(output)
}

/// Asks the program all questions, prints the first answers that aren't as expected, and counts them all.
pub fn count_differences<const N: usize, const M: usize>(
    program: &Path,
    about: About,
    questions: &[[i32; N]],
    expected: &[[i32; M]],
    describe: impl Fn(&[i32; N]) -> String,
) -> usize {
    let mut input = Vec::with_capacity(4 * ASKED * questions.len());
    for question in questions {
        put_words(&mut input, &[about as i32], 1);
        put_words(&mut input, question, ASKED - 1);
    }
    let output = output_of(program, input).expect("the program runs");
    let mut answers = output.chunks(4 * TOLD);
    let mut differ = 0;
    for (number, (asked, told)) in questions.iter().zip(expected).enumerate() {
        let found = answers.next().unwrap_or_default();
        let mut answer = vec![];
        put_words(&mut answer, told, TOLD);
        if found != answer {
            differ += 1;
            if differ <= 5 {
                println!("question {number}: {}\nhere {told:?}\nthere {:?}", describe(asked), words_of(found));
            }
        }
    }
    let length = 4 * TOLD * questions.len();
    if output.len() != length {
        println!("output has {} bytes, not {length}", output.len());
        differ += 1;
    }
    differ
}

/// The first words of a part of a question that holds a record; a number below zero counts as 0. None: too many.
pub fn record_in(room: &[i32], length: i32) -> Option<&[i32]> {
    room.get(..length.max(0) as usize)
}

/// A program of this package, beside the one running.
pub fn own_program(name: &str) -> PathBuf {
    std::env::current_exe().expect("has a path").with_file_name(name)
}

/// What was seen so far.
pub struct Comparison {
    own: PathBuf,
    other: PathBuf,
    folder: Option<PathBuf>,
    pub texts: usize,
    pub differ: usize,
    pub answers: BTreeMap<String, usize>,
}

impl Comparison {
    /// The folder, if given, gets the texts on which the programs differ.
    pub fn new(own: PathBuf, other: PathBuf, folder: Option<PathBuf>) -> Comparison {
        Comparison { own, other, folder, texts: 0, differ: 0, answers: BTreeMap::new() }
    }

    /// Runs both programs on the text; `expected` is what the library says.
    pub fn compare(&mut self, text: &[u8], expected: &str) {
        let (mut own, mut other) = (start(&self.own), start(&self.other));
        give(&mut own, text);
        give(&mut other, text);
        let (own, other) = (output(own), output(other));
        assert_eq!(own, expected.as_bytes(), "this package's program and library agree");
        *self.answers.entry(kind_of(expected)).or_default() += 1;
        if own != other {
            self.differ += 1;
            if self.differ <= 5 {
                self.show(text, &own, &other);
            }
        }
        self.texts += 1;
    }

    fn show(&self, text: &[u8], own: &[u8], other: &[u8]) {
        let shown = |bytes: &[u8]| String::from_utf8_lossy(&bytes[..bytes.len().min(3000)]).into_owned();
        println!("text {} ({} bytes):\n{}", self.texts, text.len(), shown(text));
        println!("here:\n{}there:\n{}", shown(own), shown(other));
        if let Some(folder) = &self.folder {
            let path = folder.join(format!("differ-{}.txt", self.texts));
            std::fs::write(&path, text).expect("the folder can be written");
            println!("text written to {}", path.display());
        }
    }

    /// Prints the answers' counts and the result; gives the exit status.
    pub fn finish(&self, name: &str) -> i32 {
        for (kind, count) in &self.answers {
            println!("{kind}: {count}");
        }
        println!("{name}: {} texts, {} differ", self.texts, self.differ);
        (self.differ > 0) as i32
    }
}

/// The first line, without the place of "no flow".
fn kind_of(answer: &str) -> String {
    let first = answer.lines().next().unwrap_or("");
    match first.strip_prefix("no flow ") {
        Some(rest) => format!("no flow by rule {}", rest.split(' ').next().unwrap_or("")),
        None => first.to_string(),
    }
}

/// The arguments of a comparing program: the other program, how many texts, a folder for differing texts.
pub fn arguments(name: &str, count: usize) -> (PathBuf, usize, Option<PathBuf>) {
    let arguments: Vec<String> = std::env::args().collect();
    if arguments.len() < 2 {
        eprintln!("{name} PROGRAM [COUNT] [FOLDER]");
        std::process::exit(2);
    }
    let count = arguments.get(2).map_or(count, |text| text.parse().expect("a count"));
    (PathBuf::from(&arguments[1]), count, arguments.get(3).map(PathBuf::from))
}
