//! Makes jobs and requests for comparison:
//!
//! - `jobs random SEED COUNT DIR`: random job files and their index
//! - `jobs corners DIR`: the fixed corner jobs and their index
//! - `jobs layouts SEED COUNT`: random requests for the layouts tool
//! - `jobs layout-corners`: the fixed list of requests
//! - `jobs every-time`: requests for every address and every time
//! - `jobs cdtext SEED COUNT`: random CD-TEXT requests in their binary form
//! - `jobs cdtext-corners`: the fixed list of these

use second::cdtext_requests::Request;
use second::rng::Rng;
use std::fs;
use std::io::{self, stdout, BufWriter, Write};
use std::path::Path;
use std::process::ExitCode;
use trials::{cdtext_corners, cdtext_random, corners, random, requests};

const USAGE: &str = "usage: jobs random SEED COUNT DIR
       jobs corners DIR
       jobs layouts SEED COUNT
       jobs layout-corners
       jobs every-time
       jobs cdtext SEED COUNT
       jobs cdtext-corners";

fn main() -> ExitCode {
    let words: Vec<String> = std::env::args().skip(1).collect();
    let words: Vec<&str> = words.iter().map(String::as_str).collect();
    match run(&words) {
        Ok(()) => ExitCode::SUCCESS,
        Err(error) => {
            eprintln!("{error}");
            ExitCode::FAILURE
        }
    }
}

fn run(words: &[&str]) -> Result<(), String> {
    let result = match words {
        ["random", seed, count, dir] => random_jobs(number(seed)?, number(count)?, Path::new(dir)),
        ["corners", dir] => corner_jobs(Path::new(dir)),
        ["layouts", seed, count] => random_requests(number(seed)?, number(count)?),
        ["layout-corners"] => corner_requests(),
        ["every-time"] => print_lines(requests::every_time()),
        ["cdtext", seed, count] => random_cdtext(number(seed)?, number(count)?),
        ["cdtext-corners"] => corner_cdtext(),
        _ => return Err(USAGE.to_string()),
    };
    result.map_err(|error| error.to_string())
}

fn number(word: &str) -> Result<u64, String> {
    word.parse()
        .map_err(|_| format!("`{word}` is no number\n{USAGE}"))
}

fn random_jobs(seed: u64, count: u64, dir: &Path) -> io::Result<()> {
    let mut folder = Folder::open(dir)?;
    for number in 1..=count {
        // Each job has its own generator, so that one can be made again.
        let mut rng = Rng::new(seed.wrapping_mul(1_000_003).wrapping_add(number));
        let made = random::job(&mut rng);
        folder.add(
            &format!("random-{seed}-{number:06}"),
            &made.shows,
            &made.bytes,
        )?;
    }
    folder.close()
}

fn corner_jobs(dir: &Path) -> io::Result<()> {
    let mut folder = Folder::open(dir)?;
    for corner in corners::corners() {
        let shows = format!("{} (ends with `{}`)", corner.shows, corner.ends);
        folder.add(&corner.name, &shows, &corner.bytes)?;
    }
    folder.close()
}

/// A folder of job files with an index: file name, tab, description.
struct Folder<'a> {
    dir: &'a Path,
    index: BufWriter<fs::File>,
}

impl<'a> Folder<'a> {
    fn open(dir: &'a Path) -> io::Result<Folder<'a>> {
        fs::create_dir_all(dir)?;
        let index = BufWriter::new(fs::File::create(dir.join("index.txt"))?);
        Ok(Folder { dir, index })
    }

    fn add(&mut self, name: &str, shows: &str, bytes: &[u8]) -> io::Result<()> {
        let file = format!("{name}.bin");
        fs::write(self.dir.join(&file), bytes)?;
        writeln!(self.index, "{file}\t{shows}")
    }

    fn close(mut self) -> io::Result<()> {
        self.index.flush()
    }
}

fn random_requests(seed: u64, count: u64) -> io::Result<()> {
    let mut rng = Rng::new(seed);
    print_lines((0..count).map(|_| requests::random(&mut rng)))
}

fn corner_requests() -> io::Result<()> {
    print_lines(requests::corners().into_iter())
}

fn print_lines(lines: impl Iterator<Item = String>) -> io::Result<()> {
    let mut output = BufWriter::with_capacity(1 << 16, stdout().lock());
    for line in lines {
        writeln!(output, "{line}")?;
    }
    output.flush()
}

fn random_cdtext(seed: u64, count: u64) -> io::Result<()> {
    let mut rng = Rng::new(seed);
    write_requests((0..count).map(|_| cdtext_random::request(&mut rng)))
}

fn corner_cdtext() -> io::Result<()> {
    let corners = cdtext_corners::corners().into_iter();
    write_requests(corners.map(|corner| corner.request))
}

fn write_requests(requests: impl Iterator<Item = Request>) -> io::Result<()> {
    let mut output = BufWriter::with_capacity(1 << 16, stdout().lock());
    for request in requests {
        output.write_all(&request.bytes())?;
    }
    output.flush()
}
