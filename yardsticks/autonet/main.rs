//! The yardstick: an unverified program with the answers of `autonet` but `names`, to measure the proved one beside it.
//! Want of memory ends it by an abort, and `run` takes one thread. For
//! tests/autonet/by-hand/claims-at-each-moment it also has `wild SEED`, the journal of a run in an order that is drawn,
//! and `moments`, which looks at each moment of a journal.

#![forbid(unsafe_code)]

mod check;
mod epoch;
mod expect;
mod flood;
mod flow;
mod frame;
mod generate;
mod journal;
mod life;
mod moments;
mod plain;
mod planted;
mod port;
mod ports;
mod report;
mod routes;
mod script;
mod session;
mod solo;
mod switch;
mod table;
mod tables;
mod text;
mod wild;
mod wiring;
mod world;

use script::{Cause, Script};
use std::io::{self, Read, Write};
use std::process::ExitCode;

const INPUT_LIMIT: usize = 268_435_456;
const USAGE: &str = "usage: autonet expect, run, replay, check, flow B, flood, names or gen SEED N";

/// What the words ask for.
enum Command {
    Expect,
    Run,
    Replay,
    Check,
    Flow(usize),
    Flood,
    Gen(u64, usize),
    Wild(u64),
    Moments(Option<planted::Plant>),
}

/// How a call ends: its status, what goes to out, and the line for err.
struct Answer {
    status: u8,
    out: Vec<u8>,
    err: Option<String>,
}

impl Answer {
    fn good(out: Vec<u8>) -> Answer {
        Answer { status: 0, out, err: None }
    }

    fn refused(status: u8, err: impl Into<String>) -> Answer {
        Answer { status, out: Vec::new(), err: Some(err.into()) }
    }

    fn ended((out, end): (Vec<u8>, report::End)) -> Answer {
        let (status, err) = end.status();
        Answer { status, out, err }
    }
}

impl From<script::Fault> for Answer {
    fn from(script::Fault { line, cause }: script::Fault) -> Answer {
        Answer::refused(3, format!("autonet: script line {line}: {}", cause.text()))
    }
}

impl From<journal::Fault> for Answer {
    fn from(journal::Fault { line, cause }: journal::Fault) -> Answer {
        Answer::refused(7, format!("autonet: journal line {line}: {cause}"))
    }
}

fn main() -> ExitCode {
    let words: Vec<String> =
        std::env::args_os().skip(1).map(|word| word.to_string_lossy().into_owned()).collect();
    let words: Vec<&str> = words.iter().map(String::as_str).collect();
    let answer = match command(&words) {
        Some(command) => answer(command).unwrap_or_else(|refusal| refusal),
        None => Answer::refused(2, USAGE),
    };
    ExitCode::from(write(answer))
}

fn command(words: &[&str]) -> Option<Command> {
    match *words {
        ["expect"] => Some(Command::Expect),
        ["run"] => Some(Command::Run),
        ["replay"] => Some(Command::Replay),
        ["check"] => Some(Command::Check),
        ["flow", room] => Some(Command::Flow(argument(room, 1, 16)? as usize)),
        ["flood"] => Some(Command::Flood),
        ["gen", seed, count] => {
            let (seed, count) = (argument(seed, 0, u64::MAX)?, argument(count, 1, 100)?);
            Some(Command::Gen(seed, count as usize))
        }
        ["wild", seed] => Some(Command::Wild(argument(seed, 0, u64::MAX)?)),
        ["moments"] => Some(Command::Moments(None)),
        ["moments", plant] => Some(Command::Moments(Some(planted::Plant::named(plant)?))),
        _ => None,
    }
}

fn argument(word: &str, least: u64, greatest: u64) -> Option<u64> {
    text::number_within(word.as_bytes(), least, greatest)
}

/// The answer to a command, or why there is none.
fn answer(command: Command) -> Result<Answer, Answer> {
    Ok(match command {
        Command::Expect => Answer::good(expect::expect_text(&script()?)),
        Command::Run => Answer::ended(report::run_text(&script()?)),
        Command::Replay => Answer::ended(replayed(&input()?)?),
        Command::Check => match check::check_text(&tables::read(&input()?)?) {
            Ok(ranks) => Answer::good(ranks),
            Err(why) => {
                Answer { out: (why + "\n").into_bytes(), ..Answer::refused(8, "autonet: tables refused") }
            }
        },
        Command::Flow(room) => Answer::good(flow::flow_text(&script()?, room)),
        Command::Flood => Answer::good(flood::flood_text(&script()?)),
        Command::Gen(seed, count) => Answer::good(generate::gen_text(seed, count)),
        Command::Wild(seed) => {
            let script = script()?;
            let events = wild::run(&script, seed);
            Answer::good(journal::journal_text(&script, &events))
        }
        Command::Moments(plant) => {
            let data = input()?;
            let (script, events) = divided(&data)?;
            let (holds, text) = moments::moments_text(&script, &events, plant)?;
            Answer { status: u8::from(!holds), out: text.into_bytes(), err: None }
        }
    })
}

fn script() -> Result<Script, Answer> {
    Ok(script::read(&input()?)?)
}

/// The report of the journal behind a script.
fn replayed(data: &[u8]) -> Result<(Vec<u8>, report::End), Answer> {
    let (script, events) = divided(data)?;
    Ok(report::report_text(&script, &events)?)
}

/// A script and the journal behind it.
fn divided(data: &[u8]) -> Result<(Script, Vec<script::Event>), Answer> {
    let (script, journal) = journal::divide(data);
    let script = script::read(script)?;
    let events = journal::read(&script, journal)?;
    Ok((script, events))
}

/// The whole of standard input.
fn input() -> Result<Vec<u8>, Answer> {
    let mut data = Vec::new();
    io::stdin()
        .lock()
        .take(INPUT_LIMIT as u64 + 1)
        .read_to_end(&mut data)
        .map_err(|_| Answer::refused(4, "autonet: read fault"))?;
    if data.len() > INPUT_LIMIT {
        let line = 1 + data[..INPUT_LIMIT].iter().filter(|&&byte| byte == b'\n').count();
        return Err(script::Fault { line, cause: Cause::TooMany }.into());
    }
    Ok(data)
}

/// Writes an answer, and gives the status.
fn write(answer: Answer) -> u8 {
    let Answer { mut status, out, mut err } = answer;
    let mut stdout = io::stdout().lock();
    if stdout.write_all(&out).and_then(|()| stdout.flush()).is_err() {
        (status, err) = (5, Some("autonet: write fault".to_string()));
    }
    if err.is_some_and(|line| writeln!(io::stderr(), "{line}").is_err()) {
        status = 5;
    }
    status
}
