//! The second program: the rules of the box written once more from the papers, to compare the first program with.

mod calls;
mod card;
mod cipher;
mod compare;
mod cryptogram;
mod derive;
mod desk;
mod desk_calls;
mod desk_generate;
mod desk_slips;
mod desk_tally;
mod forms;
mod generate;
mod hash;
mod hmac;
mod keys;
mod lent;
mod message;
mod octets;
mod peer;
mod pin;
#[cfg(test)]
mod published;
mod random;
mod refusal;
mod slips;
mod tally;
mod template_cases;
mod template_generate;
mod template_slips;
mod template_tally;
mod templates;
mod trace;
mod vectors;

use std::collections::BTreeMap;
use std::io::{self, BufRead, Write};
use std::process::ExitCode;
use std::time::Duration;

use crate::desk_tally::DeskCalls;
use crate::peer::Subject;
use crate::template_tally::Templates;

const USAGE: &str = "usage: second trace             a clerk's trace, standard input to standard output
       second vectors           published vectors as lines, standard input to standard output
       second generate SEED     a random trace, valid and damaged
       second tally FROM TO     how often a comparison on these seeds reaches each answer of each frame
       second compare FROM N COMMAND...
                                N traces from a seed on and long ones, answered by us and by another trace program;
                                a run that takes more than DEADLINE seconds (60) is ended
       second slip NAME         a clerk's trace on a wrong card, to try the comparison: NAMES
       second calls SEED N      N random calls of the library for C, with what must come of each
       second check             checks such lines, ours or a judge's, on standard input
       second template-cases SEED N
                                N random calls of the library's functions for script templates
       second template-answers [SLIP]
                                answers such lines, standard input to standard output; with a slip wrongly: TEMPLATE-SLIPS
       second templates SEED N COMMAND...
                                N such calls, answered by us and by another program
       second desk-cases SEED N
                                N random calls of the library's functions for the issuer's desk
       second desk-answers [SLIP]
                                answers such lines, standard input to standard output; with a slip wrongly: DESK-SLIPS
       second desk SEED N COMMAND...
                                N such calls, answered by us and by another program";

fn main() -> ExitCode {
    let words: Vec<String> = std::env::args().skip(1).collect();
    let words: Vec<&str> = words.iter().map(String::as_str).collect();
    let result = match words[..] {
        ["trace"] => run_trace(),
        ["vectors"] => run_vectors(),
        ["generate", seed] => io::stdout().write_all(&generate::trace(number(seed))).map(|()| ExitCode::SUCCESS),
        ["tally", from, to] => count_answers(number(from), number(to)),
        ["compare", from, count, ref command @ ..] if !command.is_empty() => run_compare(number(from), number(count), command),
        ["slip", name] => run_slip(name),
        ["calls", seed, count] => {
            let mut caller = calls::Caller::new(number(seed));
            write_lines((0..number(count) as usize).map(|i| caller.call(i)))
        }
        ["check"] => check_calls(),
        ["template-cases", seed, count] => write_cases::<Templates>(number(seed), number(count)),
        ["template-answers"] => answer_templates(None),
        ["template-answers", name] => {
            slips::named(&template_slips::SLIPS, name).map_or_else(|| Ok(no_slip(name)), |slip| answer_templates(Some(slip)))
        }
        ["templates", seed, count, ref command @ ..] if !command.is_empty() => compare_answers::<Templates>(number(seed), number(count), command),
        ["desk-cases", seed, count] => write_cases::<DeskCalls>(number(seed), number(count)),
        ["desk-answers"] => answer_desk(None),
        ["desk-answers", name] => slips::named(&desk_slips::SLIPS, name).map_or_else(|| Ok(no_slip(name)), |slip| answer_desk(Some(slip))),
        ["desk", seed, count, ref command @ ..] if !command.is_empty() => compare_answers::<DeskCalls>(number(seed), number(count), command),
        _ => {
            let usage =
                USAGE.replace("TEMPLATE-SLIPS", &slips::names(&template_slips::SLIPS)).replace("DESK-SLIPS", &slips::names(&desk_slips::SLIPS));
            eprintln!("{}", usage.replace("NAMES", &slips::names(&slips::SLIPS)));
            return ExitCode::from(2);
        }
    };
    result.unwrap_or_else(|error| {
        eprintln!("second: {error}");
        ExitCode::from(2)
    })
}

fn run_trace() -> io::Result<ExitCode> {
    let mut clerk = trace::Run::default();
    trace::run(io::stdin().lock(), io::stdout().lock(), |line| clerk.answer(line))?;
    Ok(ExitCode::SUCCESS)
}

fn run_slip(name: &str) -> io::Result<ExitCode> {
    let slip = match slips::named(&slips::SLIPS, name) {
        Some(slip) => slip,
        None => return Ok(no_slip(name)),
    };
    let mut clerk = slips::Slipping::new(slip);
    trace::run(slips::input(slip, io::stdin().lock()), io::stdout().lock(), |line| clerk.answer(line))?;
    Ok(ExitCode::SUCCESS)
}

fn no_slip(name: &str) -> ExitCode {
    eprintln!("second: no such slip: {name}");
    ExitCode::from(2)
}

fn run_compare(from: u64, count: u64, command: &[&str]) -> io::Result<ExitCode> {
    let deadline = std::env::var("DEADLINE").map_or(compare::DEADLINE, |word| Duration::from_secs(number(&word)));
    let agree = compare::compare(&compare::Peer { command, deadline }, from, count)?;
    Ok(if agree { ExitCode::SUCCESS } else { ExitCode::FAILURE })
}

fn run_vectors() -> io::Result<ExitCode> {
    let mut output = io::stdout().lock();
    for line in io::stdin().lock().lines() {
        writeln!(output, "{}", vectors::answer(&line?))?;
    }
    Ok(ExitCode::SUCCESS)
}

/// A number among the words.
fn number(word: &str) -> u64 {
    word.parse().unwrap_or_else(|_| {
        eprintln!("second: not a number: {word}");
        std::process::exit(2)
    })
}

fn write_lines(mut lines: impl Iterator<Item = String>) -> io::Result<ExitCode> {
    let mut output = io::BufWriter::new(io::stdout().lock());
    lines.try_for_each(|line| writeln!(output, "{line}"))?;
    output.flush()?;
    Ok(ExitCode::SUCCESS)
}

fn check_calls() -> io::Result<ExitCode> {
    let mut counts = BTreeMap::new();
    for line in io::stdin().lock().lines() {
        match calls::check(&line?) {
            Ok(name) => *counts.entry(name).or_insert(0) += 1,
            Err(difference) => {
                println!("second: a difference\n{difference}");
                return Ok(ExitCode::FAILURE);
            }
        }
    }
    let counts: Vec<String> = counts.iter().map(|(name, count)| format!("{name} {count}")).collect();
    println!("second agrees: {}", counts.join(", "));
    Ok(if counts.is_empty() { ExitCode::FAILURE } else { ExitCode::SUCCESS })
}

fn count_answers(from: u64, to: u64) -> io::Result<ExitCode> {
    Ok(if compare::tally(from, (to + 1).saturating_sub(from)).print() { ExitCode::SUCCESS } else { ExitCode::FAILURE })
}

fn write_cases<S: Subject>(seed: u64, count: u64) -> io::Result<ExitCode> {
    write_lines(S::cases(seed).take(count as usize).map(|case| S::line(&case)))
}

fn compare_answers<S: Subject>(seed: u64, count: u64, command: &[&str]) -> io::Result<ExitCode> {
    peer::compare::<S>(seed, count, command).map(|agree| if agree { ExitCode::SUCCESS } else { ExitCode::FAILURE })
}

/// Answers lines of standard input; some lines have no answer.
fn answer_lines(mut answer: impl FnMut(&str) -> Option<String>) -> io::Result<ExitCode> {
    let mut output = io::BufWriter::new(io::stdout().lock());
    for line in io::stdin().lock().lines() {
        if let Some(answer) = answer(&line?) {
            writeln!(output, "{answer}")?;
        }
    }
    output.flush()?;
    Ok(ExitCode::SUCCESS)
}

fn answer_templates(slip: Option<template_slips::Slip>) -> io::Result<ExitCode> {
    answer_lines(|line| Some(template_cases::Case::of_line(line).map_or_else(|| format!("cannot be read: {line}"), |case| case.answer(slip))))
}

fn answer_desk(slip: Option<desk_slips::Slip>) -> io::Result<ExitCode> {
    let mut desk = desk_calls::Answering::new(slip);
    answer_lines(|line| desk.line(line))
}
