//! Answers requests with the original Rust, built unchanged. README.md says how to use it.

use oracle::generate::Random;
use oracle::hex::{from_hex, hex, put_hex};
use oracle::{answer, cases, ends, generate, record};
use std::collections::BTreeMap;
use std::io::{self, BufRead, BufWriter, Write};
use std::process::ExitCode;

const USAGE: &str = "oracle                      document 01's cases
oracle answer               answers the requests of standard input
oracle generate SEED COUNT  makes requests
oracle live SEED COUNT      makes requests and answers them
oracle tally SEED COUNT     the same, counted by kind, class and answer
oracle sites                the panic sites that the requests of standard input reach
oracle record               the recorded list
oracle counts               every f32 at scale 1, written as a count
oracle ends                 where scaling and back loses a count";

fn main() -> ExitCode {
    answer::quiet_panics();
    let arguments: Vec<String> = std::env::args().skip(1).collect();
    let words: Vec<&str> = arguments.iter().map(String::as_str).collect();
    let number = |text: &str| text.parse::<u64>().ok();
    let done = match words[..] {
        [] => cases::run(),
        ["answer"] => answer_lines(),
        ["sites"] => sites(),
        ["record"] => write_lines(record::requests().into_iter(), true),
        ["counts"] => cases::counts(),
        ["ends"] => ends::run(),
        [verb @ ("generate" | "live" | "tally"), seed, count] => {
            let (Some(seed), Some(count)) = (number(seed), number(count)) else {
                return usage();
            };
            let mut random = Random(seed);
            let requests = (0..count).map(move |_| generate::request(&mut random));
            match verb {
                "tally" => tally(requests),
                _ => write_lines(requests.map(|one| (one.kind, one.octets)), verb == "live"),
            }
        }
        _ => return usage(),
    };
    match done {
        Ok(true) => ExitCode::SUCCESS,
        Ok(false) => ExitCode::from(1),
        Err(error) => {
            eprintln!("{error}");
            ExitCode::from(2)
        }
    }
}

fn usage() -> ExitCode {
    eprintln!("{USAGE}");
    ExitCode::from(2)
}

fn put_line(line: &mut Vec<u8>, kind: u8, request: &[u8], answered: bool) {
    line.clear();
    line.push(kind);
    line.push(b' ');
    put_hex(line, request);
    if answered {
        line.push(b' ');
        put_hex(line, &answer::answer(kind, request));
    }
    line.push(b'\n');
}

fn write_lines(requests: impl Iterator<Item = (u8, Vec<u8>)>, answered: bool) -> io::Result<bool> {
    let mut out = BufWriter::new(io::stdout().lock());
    let mut line = vec![];
    for (kind, request) in requests {
        put_line(&mut line, kind, &request, answered);
        out.write_all(&line)?;
    }
    out.flush()?;
    Ok(true)
}

/// A line of a request; an answer that stands after it is passed over.
fn parse(text: &str) -> io::Result<(u8, Vec<u8>)> {
    let mut words = text.split_ascii_whitespace();
    let parsed = match (words.next().map(str::as_bytes), words.next()) {
        (Some([kind]), Some(request)) => from_hex(request).map(|request| (*kind, request)),
        _ => None,
    };
    parsed.ok_or_else(|| io::Error::other(format!("not a request: {text}")))
}

fn answer_lines() -> io::Result<bool> {
    let mut out = BufWriter::new(io::stdout().lock());
    let mut line = vec![];
    for text in io::stdin().lock().lines() {
        let (kind, request) = parse(&text?)?;
        put_line(&mut line, kind, &request, true);
        out.write_all(&line)?;
    }
    out.flush()?;
    Ok(true)
}

/// Counts panics by site and kind of request, each with the shortest request that reaches it.
fn sites() -> io::Result<bool> {
    let mut sites: BTreeMap<(String, u8), (usize, Vec<u8>)> = BTreeMap::new();
    for text in io::stdin().lock().lines() {
        let (kind, request) = parse(&text?)?;
        if answer::answer(kind, &request)[0] == answer::PANICKED {
            let site = sites.entry((answer::last_site(), kind)).or_default();
            site.0 += 1;
            if site.0 == 1 || request.len() < site.1.len() {
                site.1 = request;
            }
        }
    }
    for ((site, kind), (count, request)) in &sites {
        println!("{site}; {count}; {} {}", *kind as char, hex(request));
    }
    Ok(true)
}

/// Counts answers by kind, class and status.
fn tally(requests: impl Iterator<Item = generate::Request>) -> io::Result<bool> {
    let mut classes: BTreeMap<(usize, &str), BTreeMap<String, usize>> = BTreeMap::new();
    for request in requests {
        let status = match answer::answer(request.kind, &request.octets)[..] {
            [answer::ACCEPTED, ..] => "answered".to_string(),
            [answer::REFUSED, number, ..] => format!("refused {number}"),
            [answer::PANICKED, kind] => format!("panicked {kind}"),
            _ => "not asked".to_string(),
        };
        let order = answer::KINDS.iter().position(|&kind| kind == request.kind);
        let class = (order.unwrap_or(0), request.class);
        *classes.entry(class).or_default().entry(status).or_default() += 1;
    }
    for ((order, class), counts) in &classes {
        let counts: Vec<String> =
            counts.iter().map(|(status, n)| format!("{status}: {n}")).collect();
        println!("{} {class}: {}", answer::KINDS[*order] as char, counts.join(", "));
    }
    Ok(true)
}
