//! `cases`: makes streams of cases and gives this reader's answers to them.

use std::fs;
use std::io::{self, Read, Write};
use std::path::Path;
use std::process::ExitCode;

use second_reader::cases::answers::{kind_line, line, parts_line, place_line};
use second_reader::cases::counts::Counts;
use second_reader::cases::record::{read_stream, Record, RUN};
use second_reader::cases::{generate, misfits, paired, pairs, published, run, runs, table};
use second_reader::hex;

const USE: &str = "cases published DIR            a stream of cases about the *.der in DIR
cases mutated DIR SEED COUNT   the same responses with octets damaged
cases generate SEED COUNT      cases made from a seed
cases runs SEED COUNT          runs over one cache, made from a seed
cases misfits DIR SEED COUNT   cases for the place: the *.der in DIR and made ones, damaged
cases pairs DIR SEED COUNT     pairs of responses with the same signed part, and controls
cases answers < STREAM         one line of answer for each case
cases places < STREAM          the place for each desk's input that gives 3, else -
cases parts < STREAM           what is shown of each desk case's response, else -
cases counts < STREAM          how often each outcome comes
cases paired LINES < STREAM    judges pairs by the lines that a program wrote, in the file LINES
cases only OPS SIZE < STREAM   the cases of these operations (as 2,3,4) with at most SIZE octets
cases pick NUMBERS < STREAM    the cases of these numbers (as 4,17), counted from 0
cases show INDEX < STREAM      one case in hex, its answer, place and misfit; a run step by step
cases table DIR                the table of published responses";

fn main() -> ExitCode {
    let arguments: Vec<String> = std::env::args().skip(1).collect();
    let words: Vec<&str> = arguments.iter().map(String::as_str).collect();
    match obey(&words) {
        Ok(()) => ExitCode::SUCCESS,
        Err(message) => {
            eprintln!("{message}");
            ExitCode::FAILURE
        }
    }
}

fn obey(words: &[&str]) -> Result<(), String> {
    match words {
        ["published", folder] => {
            let all = published::read_folder(Path::new(folder))?;
            write_stream(all.iter().flat_map(|one| published::records(&one.octets)))
        }
        ["mutated", folder, seed, count] => {
            let all = published::read_folder(Path::new(folder))?;
            let seed = number(seed)?;
            write_stream((0..number(count)?).map(|index| published::mutated(&all, seed, index)))
        }
        ["generate", seed, count] => {
            let seed = number(seed)?;
            write_stream((0..number(count)?).map(|index| generate::case(seed, index)))
        }
        ["runs", seed, count] => {
            let seed = number(seed)?;
            write_stream((0..number(count)?).map(|index| runs::case(seed, index)))
        }
        ["misfits", folder, seed, count] => {
            let all = published::read_folder(Path::new(folder))?;
            let seed = number(seed)?;
            write_stream((0..number(count)?).map(|index| misfits::case(&all, seed, index)))
        }
        ["pairs", folder, seed, count] => {
            let all = published::read_folder(Path::new(folder))?;
            let seed = number(seed)?;
            write_stream((0..number(count)?).flat_map(|index| pairs::case(&all, seed, index)))
        }
        ["answers"] => write_lines(line),
        ["places"] => write_lines(|record| Ok(place_line(record))),
        ["parts"] => write_lines(|record| Ok(parts_line(record))),
        ["counts"] => {
            let mut counts = Counts::default();
            read_input()?.iter().for_each(|record| counts.add(record));
            print!("{}", counts.text());
            Ok(())
        }
        ["paired", lines] => {
            let text = fs::read_to_string(lines).map_err(|error| format!("{lines}: {error}"))?;
            let lines: Vec<&str> = text.lines().collect();
            let judgement = paired::judge(&read_input()?, &lines)?;
            print!("{}", judgement.counts.text());
            judgement.verdict()
        }
        ["only", operations, size] => {
            let wanted = numbers(operations)?;
            let size = number(size)? as usize;
            let kept = |record: &Record| {
                wanted.contains(&u64::from(record.operation)) && record.body.len() <= size
            };
            write_stream(read_input()?.into_iter().filter(kept))
        }
        ["pick", wanted] => {
            let wanted = numbers(wanted)?;
            let kept = |index: usize| wanted.contains(&(index as u64));
            let records = read_input()?.into_iter().enumerate();
            write_stream(records.filter(|(index, _)| kept(*index)).map(|(_, record)| record))
        }
        ["show", index] => {
            let records = read_input()?;
            let record = records.get(number(index)? as usize).ok_or("there is no such case")?;
            println!("operation {:02x}, {} octets", record.operation, record.body.len());
            println!("{}", hex::write(&record.body));
            if record.operation == RUN {
                print!("{}", run::text(&record.body));
            }
            println!("answer {}\nplace {}", line(record)?, place_line(record));
            println!("misfit {}", kind_line(record));
            Ok(())
        }
        ["table", folder] => {
            print!("{}", table::text(Path::new(folder))?);
            Ok(())
        }
        _ => Err(USE.to_string()),
    }
}

fn number(word: &str) -> Result<u64, String> {
    word.parse().map_err(|_| format!("{word} is no number"))
}

/// Numbers with commas between.
fn numbers(words: &str) -> Result<Vec<u64>, String> {
    words.split(',').map(number).collect()
}

/// Writes a stream to standard output and its counts to standard error.
fn write_stream(records: impl Iterator<Item = Record>) -> Result<(), String> {
    let mut output = io::BufWriter::new(io::stdout().lock());
    let mut counts = Counts::default();
    for record in records {
        output.write_all(&record.octets()).map_err(|error| error.to_string())?;
        counts.add(&record);
    }
    output.flush().map_err(|error| error.to_string())?;
    eprint!("{}", counts.text());
    Ok(())
}

fn read_input() -> Result<Vec<Record>, String> {
    let mut octets = Vec::new();
    io::stdin().lock().read_to_end(&mut octets).map_err(|error| error.to_string())?;
    read_stream(&octets)
}

fn write_lines(answer: impl Fn(&Record) -> Result<String, String>) -> Result<(), String> {
    let mut output = io::BufWriter::new(io::stdout().lock());
    for record in read_input()? {
        writeln!(output, "{}", answer(&record)?).map_err(|error| error.to_string())?;
    }
    output.flush().map_err(|error| error.to_string())
}
