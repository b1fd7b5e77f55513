//! Plays request lines over connections to 127.0.0.1, or over its own two pipes, and says on
//! standard error how long they took. Its lines are made before the clock starts.
//!
//! usage: load cycles WHERE CLIENTS ROWS FIRST CYCLES SECONDS burst|turn [echo]
//!        load takes WHERE COUNT SECONDS
//!        load curve PORT PROCESS ROWS STEP STEPS MOST
//!        load empty PORT PROCESS COUNT
//!
//! WHERE is a port, or `pipes`: then replies come on standard input, and requests go to standard
//! output. A cycle is an append of so many rows, a heartbeat, a drain and a take. It goes in one
//! burst, or line by line, each after the reply to the one before. FIRST cycles of each client come
//! before the clock starts.

use std::env;
use std::error::Error;
use std::fs;
use std::fs::File;
use std::io::{self, BufRead, BufReader, Read, Write};
use std::net::TcpStream;
use std::os::fd::AsFd;
use std::process;
use std::sync::{Arc, Barrier};
use std::thread;
use std::time::{Duration, Instant};

type Outcome<T> = Result<T, Box<dyn Error + Send + Sync>>;

/// Rows of an instant.
const INSTANT_ROWS: usize = 8;
/// The most answers of a take.
const TAKE: usize = 4_096;
/// Answers of each take that `takes` measures.
const ANSWERS: usize = 1_024;
/// Bytes of request lines that `curve` sends before it reads replies: a quarter of what a
/// connection holds, so that neither side waits for the other for good.
const HELD: usize = 32_768;
/// How long answers may stay away after the last drain.
const PATIENCE: Duration = Duration::from_secs(60);

/// Where requests go and replies come from.
struct Link {
    input: BufReader<Box<dyn Read + Send>>,
    output: Box<dyn Write + Send>,
    line: Vec<u8>,
    /// Whether each reply has to be `ok`.
    is_engine: bool,
}

impl Link {
    fn open(place: &str, is_engine: bool) -> Outcome<Link> {
        let (input, output): (Box<dyn Read + Send>, Box<dyn Write + Send>) = if place == "pipes" {
            let input = File::from(io::stdin().as_fd().try_clone_to_owned()?);
            let output = File::from(io::stdout().as_fd().try_clone_to_owned()?);
            (Box::new(input), Box::new(output))
        } else {
            let stream = TcpStream::connect(("127.0.0.1", place.parse()?))?;
            stream.set_nodelay(true)?;
            (Box::new(stream.try_clone()?), Box::new(stream))
        };
        let input = BufReader::with_capacity(65_536, input);
        Ok(Link { input, output, line: Vec::new(), is_engine })
    }

    /// Reads a reply, and returns how many answers it has.
    fn reply(&mut self) -> Outcome<usize> {
        self.line.clear();
        self.input.read_until(b'\n', &mut self.line)?;
        if !self.line.ends_with(b"\n") {
            return Err("no reply came".into());
        }
        if !self.is_engine {
            return Ok(0);
        }
        if !self.line.starts_with(b"{\"ok\":true") {
            return Err(String::from_utf8_lossy(&self.line).trim_end().into());
        }
        let lists = self.line.iter().filter(|byte| **byte == b'[').count();
        Ok(lists.saturating_sub(1))
    }

    fn replies(&mut self, count: usize) -> Outcome<usize> {
        let mut answers = 0;
        for _ in 0..count {
            answers += self.reply()?;
        }
        Ok(answers)
    }

    fn ask(&mut self, line: &str) -> Outcome<usize> {
        self.output.write_all(line.as_bytes())?;
        self.reply()
    }

    fn declare(&mut self, client: usize, text: &str) -> Outcome<()> {
        self.ask(&format!(
            "{{\"op\":\"stream\",\"name\":\"S{client}\",\"columns\":[\"k\",\"v\"],\"from\":0}}\n"
        ))?;
        self.ask(&format!(
            "{{\"op\":\"query\",\"name\":\"q{client}\",\"text\":\"{text}\"}}\n"
        ))?;
        Ok(())
    }

    /// Drains and takes until so many answers came.
    fn catch_up(&mut self, client: usize, mut left: usize) -> Outcome<()> {
        let begun = Instant::now();
        while left > 0 {
            self.ask("{\"op\":\"drain\"}\n")?;
            left -= self.ask(&take_line(client, TAKE))?;
            if begun.elapsed() > PATIENCE {
                return Err(format!("{left} answers stayed away").into());
            }
        }
        Ok(())
    }
}

fn take_line(client: usize, limit: usize) -> String {
    format!("{{\"op\":\"take\",\"query\":\"q{client}\",\"limit\":{limit}}}\n")
}

fn filter(client: usize) -> String {
    format!("Select Rstream(k, v) From S{client} [Now] Where v > 500")
}

/// The lines of a cycle.
struct Cycle {
    client: usize,
    text: Vec<u8>,
    /// Where each line ends.
    ends: Vec<usize>,
    /// How many of its rows pass the filter.
    passing: usize,
}

/// Makes the cycles of a client, by rising instants.
struct Cycles {
    client: usize,
    rows: usize,
    at: usize,
    draw: u64,
}

impl Cycles {
    fn new(client: usize, rows: usize) -> Cycles {
        Cycles { client, rows, at: 0, draw: 0x9e37_79b9_7f4a_7c15 + client as u64 }
    }

    fn draw(&mut self, below: u64) -> i64 {
        self.draw ^= self.draw << 13;
        self.draw ^= self.draw >> 7;
        self.draw ^= self.draw << 17;
        ((self.draw >> 16) % below) as i64
    }
}

impl Iterator for Cycles {
    type Item = Cycle;

    fn next(&mut self) -> Option<Cycle> {
        let client = self.client;
        let mut passing = 0;
        let mut rows = Vec::with_capacity(self.rows);
        for row in 0..self.rows {
            let (key, value) = (self.draw(64), self.draw(2_000) - 1_000);
            passing += usize::from(value > 500);
            rows.push(format!("[{},{key},{value}]", self.at + row / INSTANT_ROWS));
        }
        self.at += self.rows.div_ceil(INSTANT_ROWS);
        let lines = [
            format!(
                "{{\"op\":\"append\",\"stream\":\"S{client}\",\"rows\":[{}]}}\n",
                rows.join(",")
            ),
            format!(
                "{{\"op\":\"heartbeat\",\"stream\":\"S{client}\",\"at\":{}}}\n",
                self.at - 1
            ),
            "{\"op\":\"drain\"}\n".to_string(),
            take_line(client, TAKE),
        ];
        let mut text = Vec::new();
        let mut ends = Vec::new();
        for line in lines {
            text.extend_from_slice(line.as_bytes());
            ends.push(text.len());
        }
        Some(Cycle { client, text, ends, passing })
    }
}

/// What one link played.
#[derive(Default)]
struct Played {
    cycles: usize,
    /// Nanoseconds of each burst or line.
    trips: Vec<u64>,
}

fn play(link: &mut Link, cycles: &[Cycle], until: Instant, in_bursts: bool) -> Outcome<Played> {
    let mut played = Played { cycles: 0, trips: Vec::with_capacity(cycles.len() * 4) };
    let clients = cycles.iter().map(|cycle| cycle.client + 1).max().unwrap_or(0);
    let mut left = vec![0_i64; clients];
    for cycle in cycles {
        let mut answers = 0;
        let mut start = 0;
        let mut begun = Instant::now();
        if begun > until {
            break;
        }
        if in_bursts {
            link.output.write_all(&cycle.text)?;
            answers += link.replies(cycle.ends.len())?;
            played.trips.push(begun.elapsed().as_nanos() as u64);
        } else {
            for end in &cycle.ends {
                link.output.write_all(&cycle.text[start..*end])?;
                answers += link.reply()?;
                played.trips.push(begun.elapsed().as_nanos() as u64);
                start = *end;
                begun = Instant::now();
            }
        }
        left[cycle.client] += cycle.passing as i64 - answers as i64;
        played.cycles += 1;
    }
    if link.is_engine {
        for (client, left) in left.into_iter().enumerate().filter(|(_, left)| *left != 0) {
            link.catch_up(client, usize::try_from(left)?)?;
        }
    }
    Ok(played)
}

fn percentile(sorted: &[u64], share: f64) -> f64 {
    let place = ((sorted.len() as f64 * share) as usize).min(sorted.len() - 1);
    sorted[place] as f64 / 1e9
}

fn say(trips: &mut [u64], seconds: f64, count: usize) {
    trips.sort_unstable();
    eprintln!("seconds {seconds}");
    eprintln!("count {count}");
    eprintln!("p50 {}", percentile(trips, 0.50));
    eprintln!("p99 {}", percentile(trips, 0.99));
}

fn cycles(words: &[String]) -> Outcome<()> {
    let [place, clients, rows, first, count, limit, how, rest @ ..] = words else {
        return Err("bad words".into());
    };
    let (clients, rows): (usize, usize) = (clients.parse()?, rows.parse()?);
    let (first, count): (usize, usize) = (first.parse()?, count.parse()?);
    let limit = Duration::from_secs_f64(limit.parse()?);
    let in_bursts = how == "burst";
    let is_engine = rest.is_empty();
    let made = |client| -> Vec<Cycle> { Cycles::new(client, rows).take(first + count).collect() };
    let mut parts: Vec<(Link, Vec<Cycle>)> = Vec::new();
    if place == "pipes" {
        // one link, over which the clients take turns
        let mut link = Link::open(place, is_engine)?;
        let mut all: Vec<_> = Vec::new();
        for client in 0..clients {
            link.declare(client, &filter(client))?;
            all.push(made(client).into_iter());
        }
        let mut cycles = Vec::new();
        for _ in 0..first + count {
            cycles.extend(all.iter_mut().filter_map(Iterator::next));
        }
        parts.push((link, cycles));
    } else {
        for client in 0..clients {
            let mut link = Link::open(place, is_engine)?;
            link.declare(client, &filter(client))?;
            parts.push((link, made(client)));
        }
    }
    let start = Arc::new(Barrier::new(parts.len() + 1));
    let untimed = first * clients / parts.len();
    let threads: Vec<_> = parts
        .into_iter()
        .map(|(mut link, cycles)| {
            let start = Arc::clone(&start);
            thread::spawn(move || {
                let (first, rest) = cycles.split_at(untimed);
                let filled = play(&mut link, first, Instant::now() + PATIENCE, in_bursts);
                start.wait();
                let untimed = filled?.cycles;
                let played = play(&mut link, rest, Instant::now() + limit, in_bursts)?;
                Ok::<_, Box<dyn Error + Send + Sync>>((untimed, played))
            })
        })
        .collect();
    start.wait();
    let begun = Instant::now();
    let (mut trips, mut done, mut all) = (Vec::new(), 0, 0);
    for thread in threads {
        let (untimed, played) = thread.join().map_err(|_| "a thread failed")??;
        trips.extend(played.trips);
        done += played.cycles;
        all += untimed + played.cycles;
    }
    say(&mut trips, begun.elapsed().as_secs_f64(), done);
    eprintln!("all {all}");
    Ok(())
}

/// Takes of 1,024 answers that wait, one at a time. A take that finds fewer is not counted.
fn takes(words: &[String]) -> Outcome<()> {
    let [place, count, limit] = words else {
        return Err("bad words".into());
    };
    let limit = Duration::from_secs_f64(limit.parse()?);
    let mut link = Link::open(place, true)?;
    link.declare(0, "Select Rstream(*) From S0 [Now]")?;
    let (mut trips, begun) = (Vec::new(), Instant::now());
    for at in 0..count.parse::<usize>()? {
        let rows: Vec<_> = (0..ANSWERS).map(|row| format!("[{at},{row},{at}]")).collect();
        link.ask(&format!(
            "{{\"op\":\"append\",\"stream\":\"S0\",\"rows\":[{}]}}\n",
            rows.join(",")
        ))?;
        link.ask(&format!("{{\"op\":\"heartbeat\",\"stream\":\"S0\",\"at\":{at}}}\n"))?;
        link.ask("{\"op\":\"drain\"}\n")?;
        // what another thread has out comes meanwhile
        thread::sleep(Duration::from_millis(2));
        let line = take_line(0, ANSWERS);
        let asked = Instant::now();
        let answers = link.ask(&line)?;
        let took = asked.elapsed().as_nanos() as u64;
        if answers == ANSWERS {
            trips.push(took);
        } else {
            link.catch_up(0, ANSWERS - answers)?;
        }
        if begun.elapsed() > limit {
            break;
        }
    }
    if trips.is_empty() {
        return Err("no take had all its answers".into());
    }
    let count = trips.len();
    say(&mut trips, begun.elapsed().as_secs_f64(), count);
    Ok(())
}

/// A line of a process's status, in KiB.
fn memory(process: &str, key: &str) -> Outcome<u64> {
    let text = fs::read_to_string(format!("/proc/{process}/status"))?;
    let line = text.lines().find_map(|line| line.strip_prefix(key)).ok_or("no such line")?;
    Ok(line.split_whitespace().nth(1).ok_or("no number")?.parse()?)
}

/// The peak of a server's memory after each step of so many rows. It ends early, and says so, where
/// the peak passes `MOST` KiB or a request is refused.
fn curve(words: &[String]) -> Outcome<()> {
    let [place, process, rows, step, steps, most, rest @ ..] = words else {
        return Err("bad words".into());
    };
    let (rows, step): (usize, usize) = (rows.parse()?, step.parse()?);
    let most: u64 = most.parse()?;
    let mut link = Link::open(place, true)?;
    // only the filter's answers are counted
    let is_counted = rest.is_empty();
    link.declare(0, &rest.first().cloned().unwrap_or_else(|| filter(0)))?;
    let mut cycles = Cycles::new(0, rows);
    let (mut done, mut left) = (0, 0);
    for number in 1..=steps.parse::<usize>()? {
        while done < number * step {
            let (mut burst, mut lines) = (Vec::new(), 0);
            while burst.len() < HELD && done < number * step {
                let cycle = cycles.next().ok_or("no cycle")?;
                burst.extend_from_slice(&cycle.text);
                lines += cycle.ends.len();
                left += if is_counted { cycle.passing } else { 0 };
                done += rows;
            }
            link.output.write_all(&burst)?;
            match link.replies(lines) {
                Ok(answers) => left -= if is_counted { answers } else { 0 },
                Err(error) => {
                    eprintln!("stopped {done} {error}");
                    return Ok(());
                }
            }
        }
        let peak = memory(process, "VmHWM")?;
        eprintln!("peak {peak}");
        if peak > most {
            eprintln!("stopped {done} over {most} KiB");
            return Ok(());
        }
    }
    link.catch_up(0, left)
}

/// The bytes that stay for each take that finds nothing, by the peaks of memory after so many takes
/// and after as many more. The server has to forget within the first ones.
fn empty(words: &[String]) -> Outcome<()> {
    let [place, process, count] = words else {
        return Err("bad words".into());
    };
    let count: usize = count.parse()?;
    let mut link = Link::open(place, true)?;
    link.declare(0, &filter(0))?;
    let burst = take_line(0, TAKE).repeat(100);
    let mut takes = |count: usize| -> Outcome<()> {
        for _ in 0..count / 100 {
            link.output.write_all(burst.as_bytes())?;
            link.replies(100)?;
        }
        Ok(())
    };
    takes(count)?;
    let before = memory(process, "VmHWM")?;
    takes(count)?;
    let more = memory(process, "VmHWM")?.saturating_sub(before) * 1_024;
    eprintln!("bytes {}", more as f64 / count as f64);
    Ok(())
}

fn main() {
    let words: Vec<String> = env::args().skip(1).collect();
    let outcome = match words.first().map(String::as_str) {
        Some("cycles") => cycles(&words[1..]),
        Some("takes") => takes(&words[1..]),
        Some("curve") => curve(&words[1..]),
        Some("empty") => empty(&words[1..]),
        _ => Err("bad words".into()),
    };
    if let Err(error) = outcome {
        eprintln!("failed {error}");
        process::exit(1);
    }
}
