//! The print program of document 01, "Recording rules", last paragraph: reads
//! an order block and then reply blocks, and prints each command as a line of
//! hex and last `done N`, `stop R N` or `waiting N`.

use crate::follow::{follow, Event};
use crate::hex;
use crate::refusal::Refusal;
use std::io::{self, Read, Write};

/// Prints the job of an input. After its end nothing more is taken.
pub fn print(input: impl Read, output: &mut impl Write) -> io::Result<()> {
    follow(input, |job, event| {
        let count = job.count();
        match event {
            Event::Command(command) => command_line(output, &command.bytes),
            Event::Done => writeln!(output, "done {count}"),
            Event::Stop(refusal) => stop_line(output, refusal, count),
            Event::Waiting => writeln!(output, "waiting {count}"),
        }
    })
}

fn command_line(output: &mut impl Write, bytes: &[u8]) -> io::Result<()> {
    let mut line = Vec::with_capacity(30);
    hex::push(&mut line, bytes);
    line.push(b'\n');
    output.write_all(&line)
}

fn stop_line(output: &mut impl Write, refusal: Refusal, count: u64) -> io::Result<()> {
    write!(output, "stop {} {}", refusal.number(), count)?;
    if let Refusal::Failed(sense) = refusal {
        write!(
            output,
            " {}",
            hex::plain(&[sense.key, sense.asc, sense.ascq])
        )?;
    }
    writeln!(output)
}

#[cfg(test)]
mod tests {
    use super::*;
    use text::jobs::blocks_of;

    fn printed(input: &[u8]) -> String {
        let mut output = Vec::new();
        print(input, &mut output).unwrap();
        String::from_utf8(output).unwrap()
    }

    fn job(text: &str) -> Vec<u8> {
        blocks_of(text).unwrap()
    }

    /// Bench sheet: the whole output for a finalized disc.
    #[test]
    fn bench_print() {
        let job = job("order sao data 300\n\
             good profile 0009\n\
             good disc finalized\n\
             good track nwa 0 free 300000\n");
        assert_eq!(
            printed(&job),
            "46 00 00 00 00 00 00 00 08 00\n\
             51 00 00 00 00 00 00 00 22 00\n\
             52 01 00 00 00 FF 00 00 30 00\n\
             stop 6 3\n"
        );
    }

    #[test]
    fn missing_or_bad_order() {
        let order = job("order tao data 300\n");
        assert_eq!(printed(&[]), "stop 1 0\n");
        assert_eq!(printed(&order[..511]), "stop 1 0\n");
        let mut bad = order.clone();
        bad[511] ^= 1;
        assert_eq!(printed(&bad), "stop 2 0\n");
        assert_eq!(printed(&job("good\n")), "stop 3 0\n");
    }

    #[test]
    fn replies_run_out() {
        let text = "order tao data 300\ngood profile 000A\n";
        let input = job(text);
        assert!(printed(&input).ends_with("22 00\nwaiting 2\n"));
        assert!(printed(&input[..513]).ends_with("08 00\nstop 1 1\n"));
        assert!(printed(&input[..512]).ends_with("08 00\nwaiting 1\n"));
        let two_orders = [&input[..512], &input[..512]].concat();
        assert!(printed(&two_orders).ends_with("08 00\nstop 3 1\n"));
    }

    #[test]
    fn failed_with_triple() {
        let text = "order tao data 300\n2 x busy\nfailed 0B 4A AA\ngood\n";
        let first = "46 00 00 00 00 00 00 00 08 00\n";
        let expected = format!("{first}{first}{first}stop 12 3 0B 4A AA\n");
        assert_eq!(printed(&job(text)), expected);
    }
}
