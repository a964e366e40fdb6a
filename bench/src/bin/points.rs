//! The points program in Rust: basis.bin and history.bin of the current folder, lines on standard input, their answers on
//! standard output as they come, in memory that does not grow with the input. bench/points_throughput compares the proved
//! program with it.
use parvusek_bench::engine::basis::Basis;
use parvusek_bench::engine::form::Form;
use parvusek_bench::engine::layout::HISTORY_YEAR;
use parvusek_bench::engine::{Refusal, file};
use parvusek_bench::points::Answering;
use parvusek_bench::points::reply::{HEADER, put_refusal};
use std::fs::File;
use std::io::{self, ErrorKind, Read, Write};

/// The bytes of the longest history, from 1993 to 2080.
const LONGEST_HISTORY: usize = 88 * HISTORY_YEAR;

/// What is read at once, and what is written at once but for the replies to the last few lines.
const BLOCK: usize = 1 << 16;

/// The bytes of a file, one more than the longest that is accepted at most; a missing one has none.
fn bytes_of(name: &str, longest: usize) -> Vec<u8> {
    let mut bytes = Vec::with_capacity(longest + 1);
    if let Ok(file) = File::open(name) {
        // what cannot be read counts as missing too
        let _ = file.take(longest as u64 + 1).read_to_end(&mut bytes);
    }
    bytes
}

/// The run of a basis file of either form.
fn read_run() -> Result<Vec<u8>, Refusal> {
    let file = bytes_of("basis.bin", Form::Mpb2.file_length());
    let mut run = vec![0; file::run_needed(file.len())];
    file::read_basis(&file, &mut run).map(|()| run)
}

/// Answers each block of the input before the next is read.
fn answer_input(basis: Basis, output: &mut impl Write) -> io::Result<()> {
    let mut input = io::stdin().lock();
    let mut answering = Answering::new(basis);
    let mut replies = Vec::with_capacity(2 * BLOCK);
    let mut block = vec![0; BLOCK];
    loop {
        let part = match input.read(&mut block) {
            Ok(0) => break,
            Ok(length) => &block[..length],
            Err(error) if error.kind() == ErrorKind::Interrupted => continue,
            Err(error) => return Err(error),
        };
        // a reply is many times as long as its line, so that the replies to a whole block would be a large buffer
        for piece in part.chunks(BLOCK / 16) {
            answering.feed(piece, &mut replies);
            if replies.len() >= BLOCK {
                output.write_all(&replies)?;
                replies.clear();
            }
        }
        output.write_all(&replies)?;
        output.flush()?;
        replies.clear();
    }
    answering.finish(&mut replies);
    output.write_all(&replies)?;
    output.flush()
}

fn main() -> io::Result<()> {
    let mut output = io::stdout().lock();
    let history = bytes_of("history.bin", LONGEST_HISTORY);
    let run = read_run();
    match run.as_ref().map_err(|&refusal| refusal).and_then(|run| Basis::accept(run, &history)) {
        Ok(basis) => {
            output.write_all(HEADER)?;
            answer_input(basis, &mut output)
        }
        Err(refusal) => {
            let mut line = Vec::new();
            put_refusal(&mut line, refusal);
            output.write_all(&line)
        }
    }
}
