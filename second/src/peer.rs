//! Another program that answers lines of cases (tests/templates.c and tests/desk-calls.c over the library for C) compared with ours.

use std::collections::BTreeMap;
use std::io::{self, BufRead, BufReader, BufWriter, Write};
use std::process::{Command, Stdio};
use std::sync::mpsc::channel;
use std::thread;

/// What is compared: its cases, our answers, and the causes of these.
pub trait Subject {
    const NAME: &'static str;
    /// Causes that must be reached.
    const CAUSES: &'static [&'static str];
    type Case: Send;
    type Cases: Iterator<Item = Self::Case> + Send;

    fn cases(seed: u64) -> Self::Cases;

    /// The line that the other program is given; it may be more than one, and is answered by one.
    fn line(case: &Self::Case) -> String;

    /// Our answer, and its causes.
    fn answer(case: &Self::Case) -> (String, Vec<String>);

    /// The case alone, in lines that lead to its answer.
    fn shown(case: &Self::Case) -> String {
        Self::line(case)
    }
}

/// How often each cause was reached.
#[derive(Default)]
struct Tally {
    causes: BTreeMap<String, usize>,
    cases: u64,
}

impl Tally {
    fn count(&mut self, causes: Vec<String>) {
        self.cases += 1;
        for cause in causes {
            *self.causes.entry(cause).or_default() += 1;
        }
    }

    /// Prints how often each cause was reached, and those never reached; false where there are such.
    fn print(&self, wanted: &[&str]) -> bool {
        self.causes.iter().for_each(|(cause, count)| println!("{count:>8}  {cause}"));
        let missing: Vec<&&str> = wanted.iter().filter(|cause| !self.causes.contains_key(**cause)).collect();
        missing.iter().for_each(|cause| println!("never reached: {cause}"));
        missing.is_empty()
    }
}

/// Whether the peer answers as we do; the first difference is shown with its case, and how often each answer was reached.
pub fn compare<S: Subject>(seed: u64, count: u64, command: &[&str]) -> io::Result<bool> {
    let mut peer = Command::new(command[0]).args(&command[1..]).stdin(Stdio::piped()).stdout(Stdio::piped()).spawn()?;
    let stdin = peer.stdin.take().expect("a pipe");
    let mut answers = BufReader::new(peer.stdout.take().expect("a pipe")).lines();
    let mut tally = Tally::default();
    // the peer takes no more than its pipe holds, so few cases wait here
    let (sender, receiver) = channel::<S::Case>();
    // what is taken by this closure ends with it: a peer that is still fed or still writes ends by its broken pipes
    let difference = thread::scope(|scope| {
        scope.spawn(move || {
            let mut stdin = BufWriter::new(stdin);
            for case in S::cases(seed).take(count as usize) {
                // a peer that ends early shows in its answers
                if writeln!(stdin, "{}", S::line(&case)).is_err() || sender.send(case).is_err() {
                    return;
                }
            }
            let _ = stdin.flush();
        });
        let mut next = move || answers.next().transpose();
        for (i, case) in receiver.into_iter().enumerate() {
            let theirs = next()?.unwrap_or_else(|| "no answer".to_string());
            let (ours, causes) = S::answer(&case);
            if theirs != ours {
                return Ok(Some(format!("at case {}\n{}\nthe program: {theirs}\nthe second:  {ours}", i + 1, S::shown(&case))));
            }
            tally.count(causes);
        }
        Ok::<_, io::Error>(next()?.map(|line| format!("after the last case\nthe program: {line}")))
    })?;
    let status = peer.wait()?;
    let ended = if status.success() && tally.cases == count { None } else { Some(format!("after {} answers: {status}", tally.cases)) };
    if let Some(difference) = difference.or(ended) {
        println!("{}: a DIFFERENCE of seed {seed} {difference}", S::NAME);
        return Ok(false);
    }
    let reached = tally.print(S::CAUSES);
    println!("{}: {count} cases of seed {seed}, answered alike", S::NAME);
    Ok(reached)
}
