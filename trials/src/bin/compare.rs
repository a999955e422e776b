//! Compares two programs and stops at the first difference:
//!
//! - `compare PROGRAM_A PROGRAM_B DIR` feeds every job file (`*.bin`) in a
//!   folder to two print programs, or to two watch programs
//! - `compare --lines PROGRAM_A PROGRAM_B FILE` feeds a file of requests once
//!   to two layouts tools and compares answer by answer
//! - `compare --requests PROGRAM FILE` feeds the requests of a file once, in
//!   their binary form, to a program and compares its answers with our own;
//!   lines that are no requests are left out
//! - `compare --cdtext PROGRAM FILE` does so with a file of CD-TEXT requests,
//!   which stand there in their binary form
//!
//! A program is a file's path, or words parted by spaces: a program and its
//! arguments. One that ends by a signal, or with another exit status than 0,
//! makes a difference whatever it wrote.

use second::cdtext_requests::{requests_in, Request, ANSWER_HEAD};
use second::hex;
use second::layouts::answer;
use std::fs::{self, File};
use std::io::{self, BufReader, Write};
use std::path::{Path, PathBuf};
use std::process::{Command, ExitCode, Output, Stdio};
use std::thread;
use text::jobs::{clip, write_text};
use trials::packed::{kept, pack};

const USAGE: &str = "usage: compare PROGRAM_A PROGRAM_B DIR
       compare --lines PROGRAM_A PROGRAM_B FILE
       compare --requests PROGRAM FILE
       compare --cdtext PROGRAM FILE";
/// Progress is told after this many jobs.
const PROGRESS: usize = 500;
/// A job's text is shown up to this many lines, each up to this wide.
const MOST_LINES: usize = 60;
const WIDTH: usize = 120;
/// A request's payload is shown up to this wide, as three characters a byte.
const PAYLOAD_WIDTH: usize = 3 * 512;

fn main() -> ExitCode {
    let words: Vec<String> = std::env::args().skip(1).collect();
    let words: Vec<&str> = words.iter().map(String::as_str).collect();
    let result = match words.as_slice() {
        ["--lines", a, b, file] => compare_lines(a, b, Path::new(file)),
        ["--requests", program, file] => compare_requests(program, Path::new(file)),
        ["--cdtext", program, file] => compare_cdtext(program, Path::new(file)),
        [a, b, dir] => compare_jobs(a, b, Path::new(dir)),
        _ => Err(USAGE.to_string()),
    };
    match result {
        Ok(true) => ExitCode::SUCCESS,
        Ok(false) => ExitCode::FAILURE,
        Err(error) => {
            eprintln!("{error}");
            ExitCode::from(2)
        }
    }
}

/// What a program wrote, and what is wrong with how it ended: another exit
/// status than 0, or words on standard error.
struct Ran {
    output: Vec<u8>,
    fault: Option<String>,
}

/// Runs a program on an input file.
fn ran_on(program: &str, input: &Path) -> Result<Ran, String> {
    let fault = |error: io::Error| format!("{program}: {error}");
    let input = File::open(input).map_err(|error| format!("{}: {error}", input.display()))?;
    let output = command(program)?
        .stdin(Stdio::from(input))
        .output()
        .map_err(fault)?;
    Ok(ran(output))
}

/// Runs a program on an input in memory.
fn ran_with(program: &str, input: &[u8]) -> Result<Ran, String> {
    let fault = |error: io::Error| format!("{program}: {error}");
    let mut child = command(program)?
        .stdin(Stdio::piped())
        .stdout(Stdio::piped())
        .stderr(Stdio::piped())
        .spawn()
        .map_err(fault)?;
    let stdin = child.stdin.take();
    let output = thread::scope(|scope| {
        // A program that stops reading shows in its answers.
        scope.spawn(move || stdin.map(|mut stdin| stdin.write_all(input)));
        child.wait_with_output()
    });
    Ok(ran(output.map_err(fault)?))
}

fn ran(output: Output) -> Ran {
    let said = String::from_utf8_lossy(&output.stderr);
    let fault = match (output.status.success(), said.trim_end()) {
        (true, "") => None,
        (true, said) => Some(format!("`{said}` on standard error")),
        (false, said) => Some(format!("{} {said}", output.status)),
    };
    Ran {
        output: output.stdout,
        fault,
    }
}

/// Whether each program ended with exit status 0 and said nothing on standard
/// error; tells how another one ended.
fn ended_well(programs: &[(&str, &Ran)]) -> bool {
    for (program, ran) in programs {
        if let Some(fault) = &ran.fault {
            println!("{program}: ended with {fault}, in the place of exit status 0 and no word on standard error");
        }
    }
    programs.iter().all(|(_, ran)| ran.fault.is_none())
}

fn command(program: &str) -> Result<Command, String> {
    if Path::new(program).is_file() {
        return Ok(Command::new(program));
    }
    let mut words = program.split_whitespace();
    let mut command = Command::new(words.next().ok_or("no program is named")?);
    command.args(words);
    Ok(command)
}

/// The first line, counted from 1, in which two outputs differ.
fn first_difference(a: &[u8], b: &[u8]) -> Option<(usize, String, String)> {
    if a == b {
        return None;
    }
    let (a, b) = (lines_of(a), lines_of(b));
    let line =
        |lines: &[String], at: usize| lines.get(at).cloned().unwrap_or("(no line)".to_string());
    let at = (0..a.len().max(b.len())).find(|&at| a.get(at) != b.get(at))?;
    Some((at + 1, line(&a, at), line(&b, at)))
}

/// The lines, each with its line feed where it has one.
fn lines_of(output: &[u8]) -> Vec<String> {
    let lines = output.split_inclusive(|&byte| byte == b'\n');
    lines
        .map(|line| String::from_utf8_lossy(line).escape_debug().to_string())
        .collect()
}

// ---- jobs ----

fn compare_jobs(a: &str, b: &str, dir: &Path) -> Result<bool, String> {
    let files = job_files(dir)?;
    for (done, file) in files.iter().enumerate() {
        if done > 0 && done % PROGRESS == 0 {
            eprintln!("{done} of {} jobs", files.len());
        }
        if let Some(told) = job_difference(a, b, file)? {
            describe(dir, file);
            println!("{told}");
            println!("{} jobs, 1 difference", done + 1);
            return Ok(false);
        }
    }
    println!("{} jobs, 0 differences", files.len());
    Ok(true)
}

/// What is wrong with what two programs do with a job, if anything is.
fn job_difference(a: &str, b: &str, file: &Path) -> Result<Option<String>, String> {
    let (ran_a, ran_b) = (ran_on(a, file)?, ran_on(b, file)?);
    let ended = ended_well(&[(a, &ran_a), (b, &ran_b)]);
    if let Some((number, line_a, line_b)) = first_difference(&ran_a.output, &ran_b.output) {
        let told = format!("line {number} differs:\n  {a}: {line_a}\n  {b}: {line_b}");
        return Ok(Some(told));
    }
    Ok(if !ended {
        Some("the outputs are the same".to_string())
    } else if !is_whole(&ran_a.output) {
        Some("both outputs lack a last line that tells the job's end".to_string())
    } else {
        None
    })
}

fn job_files(dir: &Path) -> Result<Vec<PathBuf>, String> {
    let fault = |error: io::Error| format!("{}: {error}", dir.display());
    let mut files = Vec::new();
    for entry in fs::read_dir(dir).map_err(fault)? {
        let path = entry.map_err(fault)?.path();
        if path.extension().is_some_and(|extension| extension == "bin") {
            files.push(path);
        }
    }
    if files.is_empty() {
        return Err(format!("{}: no job files", dir.display()));
    }
    files.sort();
    Ok(files)
}

/// The start of the last line: of `print`, and of `watch`.
const LAST_LINES: [&str; 6] = [
    "done ",
    "stop ",
    "waiting ",
    "finished, ",
    "stopped: ",
    "waiting, ",
];

/// An output ends with a whole line that tells the job's end.
fn is_whole(output: &[u8]) -> bool {
    let output = String::from_utf8_lossy(output);
    let last = output.lines().last().unwrap_or("");
    output.ends_with('\n') && LAST_LINES.iter().any(|start| last.starts_with(start))
}

/// Prints a job's name, its line in the index, and its text.
fn describe(dir: &Path, file: &Path) {
    let name = file.file_name().unwrap_or_default().to_string_lossy();
    println!("job {name}");
    let index = fs::read_to_string(dir.join("index.txt")).unwrap_or_default();
    let mut entries = index.lines().filter_map(|line| line.split_once('\t'));
    if let Some((_, shows)) = entries.find(|(entry, _)| *entry == name) {
        println!("  {shows}");
    }
    let mut text = Vec::new();
    let written = File::open(file).and_then(|file| write_text(BufReader::new(file), &mut text));
    if let Err(error) = written {
        println!("  {error}");
    }
    let text = String::from_utf8_lossy(&text);
    for line in text.lines().take(MOST_LINES) {
        println!("  {}", clip(line, WIDTH));
    }
    let more = text.lines().count().saturating_sub(MOST_LINES);
    if more > 0 {
        println!("  ({more} more lines)");
    }
}

// ---- requests ----

fn read_file(file: &Path) -> Result<Vec<u8>, String> {
    fs::read(file).map_err(|error| format!("{}: {error}", file.display()))
}

/// A file's requests, of which there must be some.
fn some<T>(file: &Path, requests: Vec<T>) -> Result<Vec<T>, String> {
    if requests.is_empty() {
        return Err(format!("{}: no requests", file.display()));
    }
    Ok(requests)
}

/// Shows a request and both its answers, each with its program.
fn differs(number: usize, request: &str, answers: [(&str, &str); 2]) {
    println!("request {number}: {request}");
    for (program, answer) in answers {
        println!("  {program}: {answer}");
    }
}

/// The closing line where all answers are the same: whether the programs ended
/// well too.
fn closed(count: usize, what: &str, ended: bool) -> bool {
    match ended {
        true => println!("{count} {what}, 0 differences"),
        false => println!("{count} {what}, 1 difference"),
    }
    ended
}

fn compare_lines(a: &str, b: &str, file: &Path) -> Result<bool, String> {
    let requests = some(file, lines_of(&read_file(file)?))?;
    let (ran_a, ran_b) = (ran_on(a, file)?, ran_on(b, file)?);
    let ended = ended_well(&[(a, &ran_a), (b, &ran_b)]);
    if let Some((number, line_a, line_b)) = first_difference(&ran_a.output, &ran_b.output) {
        let request = requests.get(number - 1).map_or("(no request)", |r| r);
        differs(number, request, [(a, &line_a), (b, &line_b)]);
        println!("{number} lines, 1 difference");
        return Ok(false);
    }
    let answers = lines_of(&ran_a.output).len();
    if answers != requests.len() {
        println!("{} requests, but {answers} answers of both", requests.len());
        return Ok(false);
    }
    Ok(closed(requests.len(), "lines", ended))
}

fn compare_requests(program: &str, file: &Path) -> Result<bool, String> {
    let text = fs::read_to_string(file).map_err(|error| format!("{}: {error}", file.display()))?;
    let requests = some(file, kept(&text))?;
    let (mut packed, mut answers) = (Vec::new(), String::new());
    for request in &requests {
        packed.extend(pack(request)?);
        answers += &answer(request);
        answers.push('\n');
    }
    let ran = ran_with(program, &packed)?;
    let ended = ended_well(&[(program, &ran)]);
    if let Some((number, theirs, ours)) = first_difference(&ran.output, answers.as_bytes()) {
        let request = requests.get(number - 1).unwrap_or(&"(no request)");
        differs(number, request, [(program, &theirs), ("expected", &ours)]);
        println!("{number} requests, 1 difference");
        return Ok(false);
    }
    Ok(closed(requests.len(), "requests", ended))
}

fn compare_cdtext(program: &str, file: &Path) -> Result<bool, String> {
    let bytes = read_file(file)?;
    let requests = requests_in(&bytes).map_err(|error| format!("{}: {error}", file.display()))?;
    let requests = some(file, requests)?;
    let ran = ran_with(program, &bytes)?;
    let ended = ended_well(&[(program, &ran)]);
    let mut rest = ran.output.as_slice();
    for (number, request) in (1..).zip(&requests) {
        let ours = request.answer();
        let (theirs, later) = rest.split_at(ours.len().min(rest.len()));
        if theirs != ours {
            let answers = [theirs, &ours].map(cdtext_answer);
            let answers = [(program, &*answers[0]), ("expected", &*answers[1])];
            differs(number, &cdtext_request(request), answers);
            println!("  {}", first_byte(theirs, &ours));
            println!("{number} requests, 1 difference");
            return Ok(false);
        }
        rest = later;
    }
    if !rest.is_empty() {
        println!("{} bytes behind the last answer", rest.len());
        println!("{} requests, 1 difference", requests.len());
        return Ok(false);
    }
    Ok(closed(requests.len(), "requests", ended))
}

fn cdtext_request(request: &Request) -> String {
    let payload = request.payload();
    format!(
        "{}, {} bytes lent, payload of {}: {}",
        request.operation().name(),
        request.lent(),
        payload.len(),
        clip(&hex::or_dash(payload), PAYLOAD_WIDTH)
    )
}

/// An answer's number, or its refusal, and its buffer.
fn cdtext_answer(answer: &[u8]) -> String {
    let Some((&[status, high, low], buffer)) = answer.split_first_chunk::<ANSWER_HEAD>() else {
        return format!("(cut short) {}", hex::or_dash(answer));
    };
    let number = u16::from_be_bytes([high, low]);
    let told = match status {
        0 => format!("answered {number}"),
        _ => format!("refused {status}, number {number}"),
    };
    format!("{told}, buffer {}", clip(&hex::or_dash(buffer), WIDTH))
}

/// Where two answers part; it may lie behind what is shown of them.
fn first_byte(theirs: &[u8], ours: &[u8]) -> String {
    let at = theirs.iter().zip(ours).position(|(a, b)| a != b);
    match at {
        Some(at) => format!("byte {at}: {:02X}h, expected {:02X}h", theirs[at], ours[at]),
        None => format!("{} bytes, expected {}", theirs.len(), ours.len()),
    }
}
