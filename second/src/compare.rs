//! Another trace program compared with ours on generated traces, each difference shown by a trace as short as can be.
//!
//! Most runs take several traces one after the other, for a program may be slow to start; a frame 00 begins a new history. Others take a single
//! one, for what comes before a record. Input is given at once, in parts of any length, or line by line, each after the answer to the one before.
//! At last come long traces from a file, which a program may read in large blocks.

use std::fs::{remove_file, File};
use std::io::{self, BufRead, BufReader, Read, Seek, Write};
use std::process::{Child, ChildStdin, Command, Stdio};
use std::sync::atomic::{AtomicBool, AtomicUsize, Ordering};
use std::sync::mpsc::{channel, Receiver, RecvTimeoutError};
use std::sync::Mutex;
use std::thread;
use std::time::{Duration, Instant};

use crate::generate;
use crate::random::Random;
use crate::tally::Tally;
use crate::trace::answers;

/// Traces in one run, and which of them has a run of its own too. It is not the last one, which may end torn in the common run as well.
const TOGETHER: usize = 10;
const ALONE: usize = 3;
/// How long an answer may take, a run where nothing else is said, and how long a difference is made shorter.
const PATIENCE: Duration = Duration::from_secs(20);
pub const DEADLINE: Duration = Duration::from_secs(60);
const SHORTENING: Duration = Duration::from_secs(120);
/// The last line of a run that did not end by itself.
const LATE: &[u8] = b"no end in time\n";

#[derive(Clone, Copy, Debug, PartialEq)]
enum Feed {
    Whole,
    Parts(u64),
    LineByLine,
    File,
}

/// One run of the peer: the traces of some seeds.
struct Job {
    seeds: Vec<u64>,
    feed: Feed,
}

impl Job {
    /// The traces one after the other. Only the last one may be torn at its end.
    fn input(&self) -> Vec<u8> {
        let mut input = vec![];
        for &seed in &self.seeds {
            if !input.is_empty() && input.last() != Some(&b'\n') {
                input.push(b'\n');
            }
            input.extend(generate::trace(seed));
        }
        input
    }
}

fn jobs(from: u64, count: u64) -> Vec<Job> {
    let seeds: Vec<u64> = (from..from + count).collect();
    let together = seeds.chunks(TOGETHER).enumerate().map(|(i, seeds)| {
        let feed = if i % 2 == 0 { Feed::Whole } else { Feed::Parts(seeds[0]) };
        Job { seeds: seeds.to_vec(), feed }
    });
    let alone = seeds.iter().skip(ALONE).step_by(TOGETHER).enumerate().map(|(i, &seed)| {
        let feed = match i % 4 {
            0 => Feed::Whole,
            1 => Feed::LineByLine,
            _ => Feed::Parts(seed),
        };
        Job { seeds: vec![seed], feed }
    });
    together.chain(alone).collect()
}

/// How often each answer is reached by what is fed in these runs.
fn tallied(jobs: &[Job]) -> Tally {
    let mut tally = Tally::default();
    jobs.iter().for_each(|job| tally.count(&job.input()));
    tally
}

/// The same for the runs that a comparison on so many seeds makes.
pub fn tally(from: u64, count: u64) -> Tally {
    tallied(&jobs(from, count))
}

/// The program to compare with, how it is started, and how long a run may take.
pub struct Peer<'a> {
    pub command: &'a [&'a str],
    pub deadline: Duration,
}

impl Peer<'_> {
    /// In a process group of its own, so that all of it can be ended. setsid becomes the program, so the group has the child's number.
    fn start(&self, stdin: Stdio) -> io::Result<Child> {
        Command::new("setsid").args(self.command).stdin(stdin).stdout(Stdio::piped()).spawn()
    }

    /// What the peer answers; a status other than 0 is one more line, and so is an end that did not come in time.
    fn answers(&self, input: &[u8], feed: Feed) -> io::Result<Vec<u8>> {
        let mut child = self.start(if feed == Feed::File { file_of(input)?.into() } else { Stdio::piped() })?;
        let group = child.id();
        let (ending, ended) = channel::<()>();
        thread::scope(|scope| {
            let watch = scope.spawn(move || {
                let late = ended.recv_timeout(self.deadline) == Err(RecvTimeoutError::Timeout);
                if late {
                    end_group(group);
                }
                late
            });
            let mut output = exchange(&mut child, input, feed)?;
            let status = child.wait()?;
            drop(ending);
            if watch.join().expect("no panic") {
                output.extend(LATE);
            } else if !status.success() {
                output.extend(format!("{status}\n").bytes());
            }
            Ok(output)
        })
    }

    fn differs(&self, input: &[u8], feed: Feed) -> io::Result<bool> {
        Ok(self.answers(input, feed)? != answers(input))
    }
}

/// The shell has the signal for a whole group.
fn end_group(group: u32) {
    let _ = Command::new("sh").args(["-c", &format!("kill -KILL -{group}")]).status();
}

/// A file that holds the input and has no name.
fn file_of(input: &[u8]) -> io::Result<File> {
    let path = std::env::temp_dir().join(format!("compare-{}-{:?}", std::process::id(), thread::current().id()));
    let mut file = File::options().read(true).write(true).create_new(true).open(&path)?;
    remove_file(&path)?;
    file.write_all(input)?;
    file.rewind()?;
    Ok(file)
}

/// Gives the input and takes the answers.
fn exchange(child: &mut Child, input: &[u8], feed: Feed) -> io::Result<Vec<u8>> {
    let stdout = child.stdout.take().expect("a pipe");
    match (child.stdin.take(), feed) {
        (None, _) => Progress::default().read_all(stdout),
        (Some(stdin), Feed::LineByLine) => Ok(line_by_line(input, stdin, read_lines(stdout))),
        (Some(stdin), _) => at_its_pace(input, feed, stdin, stdout),
    }
}

/// What has come back so far.
#[derive(Default)]
struct Progress {
    answers: AtomicUsize,
    ended: AtomicBool,
}

impl Progress {
    /// Waits for so many answers; false where they do not come.
    fn reach(&self, answers: usize) -> bool {
        let until = Instant::now() + PATIENCE / 4;
        while self.answers.load(Ordering::SeqCst) < answers {
            if self.ended.load(Ordering::SeqCst) || Instant::now() > until {
                return false;
            }
            thread::sleep(Duration::from_micros(100));
        }
        true
    }

    fn read_all(&self, mut stdout: impl Read) -> io::Result<Vec<u8>> {
        let mut output = vec![];
        let mut part = [0; 65536];
        loop {
            let count = stdout.read(&mut part)?;
            if count == 0 {
                self.ended.store(true, Ordering::SeqCst);
                return Ok(output);
            }
            self.answers.fetch_add(line_feeds(&part[..count]), Ordering::SeqCst);
            output.extend(&part[..count]);
        }
    }
}

fn line_feeds(bytes: &[u8]) -> usize {
    bytes.iter().filter(|&&byte| byte == b'\n').count()
}

/// Writes on one thread and reads on this one, so that neither waits for the other.
fn at_its_pace(input: &[u8], feed: Feed, stdin: ChildStdin, stdout: impl Read) -> io::Result<Vec<u8>> {
    let progress = &Progress::default();
    thread::scope(|scope| {
        scope.spawn(move || match feed {
            Feed::Parts(seed) => in_parts(input, stdin, seed, progress),
            _ => at_once(input, stdin),
        });
        progress.read_all(stdout)
    })
}

/// A peer that ends early shows in its answers.
fn at_once(input: &[u8], mut stdin: ChildStdin) {
    let _ = stdin.write_all(input);
}

/// Short parts. The first one is a line, whose answer shows that the peer has started; then each of the next ones waits for the answers to
/// what came before, so that the peer waits for it too and reads it as it is.
fn in_parts(mut input: &[u8], mut stdin: ChildStdin, seed: u64, progress: &Progress) {
    let mut random = Random::new(seed);
    let mut length = input.iter().position(|&byte| byte == b'\n').map_or(input.len(), |end| end + 1);
    let mut lines = 0;
    let mut waits = 80;
    while !input.is_empty() {
        let (part, rest) = input.split_at(length.min(input.len()));
        if stdin.write_all(part).and_then(|()| stdin.flush()).is_err() {
            return;
        }
        input = rest;
        length = random.choose(&[1, 1, 2, 3, 16, 50, 139, 280, 281, 538, 539, 1000, 4096, 5000]);
        lines += line_feeds(part);
        if waits > 0 {
            waits = if progress.reach(lines) { waits - 1 } else { 0 };
            thread::sleep(Duration::from_micros(100));
        }
    }
}

fn read_lines(stdout: impl Read + Send + 'static) -> Receiver<Vec<u8>> {
    let (sender, receiver) = channel();
    thread::spawn(move || {
        let mut reader = BufReader::new(stdout);
        loop {
            let mut line = vec![];
            match reader.read_until(b'\n', &mut line) {
                Ok(count) if count > 0 && sender.send(line).is_ok() => {}
                _ => return,
            }
        }
    });
    receiver
}

/// A line is given when the one before it is answered; the torn last one is answered when the input ends.
fn line_by_line(input: &[u8], mut stdin: ChildStdin, answers: Receiver<Vec<u8>>) -> Vec<u8> {
    let mut output = vec![];
    for line in input.split_inclusive(|&byte| byte == b'\n') {
        if stdin.write_all(line).and_then(|()| stdin.flush()).is_err() {
            break;
        }
        if line.ends_with(b"\n") {
            match answers.recv_timeout(PATIENCE) {
                Ok(answer) => output.extend(answer),
                Err(_) => {
                    output.extend(b"no answer in time\n");
                    break;
                }
            }
        }
    }
    drop(stdin);
    while let Ok(answer) = answers.recv_timeout(PATIENCE) {
        output.extend(answer);
    }
    output
}

/// Runs all jobs on up to two threads; the first job that shows a difference, if any.
fn first_difference(peer: &Peer, jobs: &[Job]) -> io::Result<Option<usize>> {
    let next = AtomicUsize::new(0);
    let found = Mutex::new(None::<usize>);
    let work = || -> io::Result<()> {
        loop {
            let i = next.fetch_add(1, Ordering::SeqCst);
            let job = match jobs.get(i) {
                Some(job) => job,
                None => return Ok(()),
            };
            if found.lock().expect("no panic").is_some() {
                return Ok(());
            }
            if peer.differs(&job.input(), job.feed)? {
                let mut first = found.lock().expect("no panic");
                *first = Some(first.map_or(i, |other| other.min(i)));
            }
        }
    };
    thread::scope(|scope| {
        let other = scope.spawn(work);
        work()?;
        other.join().expect("no panic")
    })?;
    Ok(found.into_inner().expect("no panic"))
}

/// Makes an input shorter while it still shows a difference.
struct Shortening<'a> {
    peer: &'a Peer<'a>,
    feed: Feed,
    until: Instant,
}

impl Shortening<'_> {
    fn shows(&self, input: &[u8]) -> bool {
        Instant::now() < self.until && self.peer.differs(input, self.feed).unwrap_or(false)
    }

    /// Leaves out runs of pieces, long ones first, as long as the rest still shows the difference.
    fn shorter<T: Clone>(&self, pieces: Vec<T>, step: usize, joined: impl Fn(&[T]) -> Vec<u8>) -> Vec<T> {
        let mut kept = pieces;
        let mut length = kept.len().next_power_of_two();
        while length >= step {
            let mut start = 0;
            while start < kept.len() {
                let end = (start + length).min(kept.len());
                let rest = [&kept[..start], &kept[end..]].concat();
                if self.shows(&joined(&rest)) {
                    kept = rest;
                } else {
                    start = end;
                }
            }
            length /= 2;
        }
        kept
    }

    fn lines(&self, input: &[u8]) -> Vec<Vec<u8>> {
        let lines: Vec<Vec<u8>> = input.split_inclusive(|&byte| byte == b'\n').map(<[u8]>::to_vec).collect();
        self.shorter(lines, 1, |lines| lines.concat())
    }

    /// Digits go by pairs first, then one by one.
    fn digits(&self, mut lines: Vec<Vec<u8>>) -> Vec<Vec<u8>> {
        for i in 0..lines.len() {
            for step in [2, 1] {
                let shorter = self.shorter(lines[i].clone(), step, |line| {
                    let mut all = lines.clone();
                    all[i] = line.to_vec();
                    all.concat()
                });
                lines[i] = shorter;
            }
        }
        lines
    }
}

/// Up to the first answer that differs: the input, and which of the job's seeds it has come to.
fn prefix(peer: &Peer, job: &Job) -> io::Result<(Vec<u8>, u64)> {
    let input = job.input();
    let (theirs, ours) = (peer.answers(&input, job.feed)?, answers(&input));
    let same = ours.split(|&b| b == b'\n').zip(theirs.split(|&b| b == b'\n')).take_while(|(a, b)| a == b).count();
    let lines: Vec<&[u8]> = input.split_inclusive(|&byte| byte == b'\n').take(same + 1).collect();
    let mut left = same as i64;
    for &seed in &job.seeds {
        left -= generate::trace(seed).split_inclusive(|&byte| byte == b'\n').count() as i64;
        if left < 0 {
            return Ok((lines.concat(), seed));
        }
    }
    Ok((lines.concat(), *job.seeds.last().expect("a seed")))
}

/// The input that is made shorter: the trace of the seed alone where that shows the difference, at once where that does. One that does not end
/// stays as it is, for every step would take as long as a run may.
fn shortest(peer: &Peer, job: &Job) -> io::Result<(Vec<u8>, u64, Feed)> {
    let (start, seed) = prefix(peer, job)?;
    let alone = generate::trace(seed);
    let candidates = [(alone.clone(), Feed::Whole), (start.clone(), Feed::Whole), (alone, job.feed), (start, job.feed)];
    for (input, feed) in candidates {
        let theirs = peer.answers(&input, feed)?;
        if theirs.ends_with(LATE) {
            return Ok((input, seed, feed));
        }
        if theirs != answers(&input) {
            let shortening = Shortening { peer, feed, until: Instant::now() + SHORTENING };
            let lines = shortening.digits(shortening.lines(&input));
            return Ok((lines.concat(), seed, feed));
        }
    }
    Ok((job.input(), seed, job.feed))
}

fn show(bytes: &[u8]) -> String {
    bytes.escape_ascii().to_string().replace("\\n", "\n")
}

fn explain(peer: &Peer, job: &Job) -> io::Result<()> {
    let (input, seed, feed) = shortest(peer, job)?;
    println!("compare: a DIFFERENCE at seed {seed} (run of seeds {} to {}, {:?})", job.seeds[0], job.seeds[job.seeds.len() - 1], job.feed);
    println!("the shortest trace found that shows it, fed {feed:?}:\n{}", show(&input));
    println!("the second program answers:\n{}", show(&answers(&input)));
    println!("the other answers:\n{}", show(&peer.answers(&input, feed)?));
    Ok(())
}

/// Compares on a long trace from a file; false where there is a difference, which is shown by its line.
fn agrees_on(peer: &Peer, name: &str, input: &[u8]) -> io::Result<bool> {
    let (theirs, ours) = (peer.answers(input, Feed::File)?, answers(input));
    let kilobytes = ours.len() / 1000;
    if theirs == ours {
        println!("compare: the long trace of {name}: {} lines, {kilobytes} KB of answers, no difference", line_feeds(&ours));
        return Ok(true);
    }
    let (mut theirs, mut ours) = (theirs.split(|&b| b == b'\n'), ours.split(|&b| b == b'\n'));
    let mut line = 1;
    loop {
        let (other, own) = (theirs.next(), ours.next());
        if other != own {
            println!("compare: a DIFFERENCE in the long trace of {name}, at line {line}");
            println!("the second program answers: {}", show(own.unwrap_or(b"nothing more")));
            println!("the other answers: {}", show(other.unwrap_or(b"nothing more")));
            return Ok(false);
        }
        line += 1;
    }
}

/// Compares on the traces of so many seeds, then on the long ones; true where all agree and everything named was reached.
pub fn compare(peer: &Peer, from: u64, count: u64) -> io::Result<bool> {
    let begun = Instant::now();
    let jobs = jobs(from, count);
    if let Some(i) = first_difference(peer, &jobs)? {
        explain(peer, &jobs[i])?;
        return Ok(false);
    }
    for (name, input) in [("short lines", generate::short_lines()), ("long answers", generate::long_answers())] {
        if !agrees_on(peer, name, &input)? {
            return Ok(false);
        }
    }
    let took = begun.elapsed();
    let tally = tallied(&jobs);
    let all_reached = tally.print();
    let in_parts = jobs.iter().filter(|job| matches!(job.feed, Feed::Parts(_))).count();
    let by_line = jobs.iter().filter(|job| job.feed == Feed::LineByLine).count();
    println!(
        "compare: {count} traces, {} lines in {} runs ({in_parts} in parts, {by_line} line by line), no difference, {} s",
        tally.lines,
        jobs.len(),
        took.as_secs()
    );
    Ok(all_reached)
}

#[cfg(test)]
mod tests {
    use super::*;

    #[test]
    fn a_peer_that_never_ends_is_ended() {
        let peer = Peer { command: &["sh", "-c", "sleep 1000 | sleep 1000"], deadline: Duration::from_millis(200) };
        for feed in [Feed::Whole, Feed::Parts(1), Feed::File] {
            assert_eq!(peer.answers(b"05\n", feed).unwrap(), LATE);
        }
        assert!(peer.answers(b"05\n", Feed::LineByLine).unwrap().ends_with(LATE));
    }

    #[test]
    fn a_block_of_a_long_trace_has_more_answers_than_a_block() {
        for trace in [generate::short_lines(), generate::long_answers()] {
            assert!(trace.len() > 65536 && trace.len() < 500_000);
            assert!(answers(&trace[..65536]).len() > 3 * 65536 - 65536 / 2);
            assert!(answers(&trace).len() > 200_000);
        }
    }

    #[test]
    fn the_runs_reach_everything() {
        assert_eq!(tally(1, 300).missing(), Vec::<String>::new());
    }

    #[test]
    fn other_traces_end_torn_alone_than_together() {
        let (together, alone): (Vec<Job>, Vec<Job>) = jobs(1, 100).into_iter().partition(|job| job.seeds.len() > 1);
        let last: Vec<u64> = together.iter().map(|job| job.seeds[TOGETHER - 1]).collect();
        assert_eq!((last.len(), alone.len()), (10, 10));
        assert!(alone.iter().all(|job| !last.contains(&job.seeds[0])));
    }
}
