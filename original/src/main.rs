//! The commands; `original help` tells them.
use model::request::{split_stream, with_length};
use original::{
    answerer::{Answerer, Program},
    beside::Beside,
    compare::{Difference, Tally, compare},
    fixed::fixed,
    generate::{self, Kind, exhaustive},
    histogram::Histogram,
    large, native,
};
use std::{
    env, fs,
    io::{self, BufWriter, Read, Write},
    iter,
    path::Path,
    process::exit,
    time::Instant,
};

const HELP: &str = "\
original generate SEED N [KIND]            requests to standard output
original answer                            requests from standard input, answers to standard output
original histogram SEED N [KIND]           model beside original on N cases: differences, then a table
original exhaustive [answer]               the short inputs: requests, or model beside original
original fixed FOLDER                      writes requests.bin and answers.txt of the fixed list
original compare SEED N [KIND] -- COMMAND  a program beside both: stops at the first difference
original native SEED N [KIND]              the same with the native host linked in
original native-exhaustive                 the native host on the short inputs
original native-stream FILE                the native host on the requests of a file
original native-short SEED N [KIND]        native, and every shorter memory for the text must be refused
original large [NAME]                      lists the named cases, or runs one (`all`: all) beside the original
original native-large [NAME]               the same with the native host
KIND is mixed (default), pairs, recoveries (pairs, half of them written again), caches, encoders, tables or small.
A call of not-yet.txt must be answered `not yet`, and is counted apart; of any other call `not yet` is a difference.
A difference is written to target/difference: request.bin, wanted.txt, given.txt.";

fn main() {
    let arguments: Vec<String> = env::args().skip(1).collect();
    let words: Vec<&str> = arguments.iter().map(String::as_str).collect();
    let good = match words[..] {
        ["generate", seed, count, ref rest @ ..] => write_requests(generated(seed, count, rest)),
        ["answer"] => answer(),
        ["histogram", seed, count, ref rest @ ..] => beside_all(generated(seed, count, rest)),
        ["exhaustive"] => write_requests(exhaustive::requests()),
        ["exhaustive", "answer"] => beside_all(exhaustive::requests()),
        ["fixed", folder] => write_fixed(Path::new(folder)),
        ["compare", seed, count, "--", ref command @ ..] if !command.is_empty() => {
            compare_all(generated(seed, count, &[]), &mut program(command))
        }
        ["compare", seed, count, name, "--", ref command @ ..] if !command.is_empty() => {
            compare_all(generated(seed, count, &[name]), &mut program(command))
        }
        ["native", seed, count, ref rest @ ..] => {
            compare_all(generated(seed, count, rest), &mut *native_host(false))
        }
        ["native-exhaustive"] => compare_all(exhaustive::requests(), &mut *native_host(false)),
        ["native-stream", file] => {
            let stream = fs::read(file).expect("a file of requests");
            compare_all(whole_requests(&stream).into_iter().map(<[u8]>::to_vec), &mut *native_host(false))
        }
        ["native-short", seed, count, ref rest @ ..] => {
            compare_all(generated(seed, count, rest), &mut *native_host(true))
        }
        ["large"] => list_large(),
        ["large", name] => run_large(name, None),
        ["native-large"] => run_large("all", Some(native_host(false))),
        ["native-large", name] => run_large(name, Some(native_host(false))),
        _ => usage(),
    };
    exit(if good { 0 } else { 1 });
}

fn usage() -> ! {
    eprintln!("{HELP}");
    exit(2);
}

fn number(text: &str) -> u64 {
    text.parse().unwrap_or_else(|_| usage())
}

fn kind(rest: &[&str]) -> Kind {
    match rest {
        [] => Kind::Mixed,
        [name] => Kind::named(name).unwrap_or_else(|| usage()),
        _ => usage(),
    }
}

fn native_host(short: bool) -> Box<dyn Answerer> {
    native::host(short).unwrap_or_else(|| {
        eprintln!("no native host: build with LAMBSPOOL_ARCHIVE naming the archive that has answer_request");
        exit(2);
    })
}

fn generated(seed: &str, count: &str, rest: &[&str]) -> impl Iterator<Item = Vec<u8>> + use<> {
    let (seed, kind) = (number(seed), kind(rest));
    (0..number(count)).map(move |index| generate::request(seed, index, kind))
}

fn write_requests(bodies: impl Iterator<Item = Vec<u8>>) -> bool {
    let mut output = BufWriter::new(io::stdout().lock());
    for body in bodies {
        output.write_all(&with_length(&body)).expect("standard output");
    }
    output.flush().is_ok()
}

fn answer() -> bool {
    let mut stream = Vec::new();
    io::stdin().lock().read_to_end(&mut stream).expect("standard input");
    let mut output = BufWriter::new(io::stdout().lock());
    let mut beside = Beside::new();
    let mut good = true;
    for (index, body) in whole_requests(&stream).into_iter().enumerate() {
        let answer = beside.answer(body);
        output.write_all(answer.reply.text().as_bytes()).expect("standard output");
        good &= no_findings(index as u64, body, &answer.findings);
    }
    output.flush().is_ok() && good
}

fn whole_requests(stream: &[u8]) -> Vec<&[u8]> {
    split_stream(stream).unwrap_or_else(|at| {
        eprintln!("the request at byte {at} is cut short");
        exit(2);
    })
}

/// Loud: a finding is a difference between document 01 as the model reads it and the original.
fn no_findings(index: u64, body: &[u8], findings: &[String]) -> bool {
    for finding in findings {
        let hex: String = body.iter().take(300).map(|byte| format!("{byte:02x}")).collect();
        eprintln!("FINDING in case {index}: {finding}\n  request ({} bytes) {hex}", body.len());
    }
    findings.is_empty()
}

fn beside_all(bodies: impl Iterator<Item = Vec<u8>>) -> bool {
    let begin = Instant::now();
    let mut beside = Beside::new();
    let mut histogram = Histogram::default();
    let mut different = 0u64;
    let mut count = 0;
    for body in bodies {
        let answer = beside.answer(&body);
        if !no_findings(count, &body, &answer.findings) {
            different += 1;
        }
        histogram.add(body.first().copied().unwrap_or(0), &answer.reply);
        count += 1;
    }
    print!("{}", histogram.table());
    println!(
        "{count} cases, {different} differ between model and original, {:.1} s",
        begin.elapsed().as_secs_f64()
    );
    different == 0
}

fn write_fixed(folder: &Path) -> bool {
    let fixed = fixed();
    fs::create_dir_all(folder).expect("a folder for the fixed list");
    fs::write(folder.join("requests.bin"), &fixed.requests).expect("requests.bin");
    fs::write(folder.join("answers.txt"), &fixed.answers).expect("answers.txt");
    print!("{}", fixed.histogram.table());
    let (requests, answers) = (fixed.requests.len(), fixed.answers.len());
    println!("{} cases, {requests} bytes of requests, {answers} of answers", fixed.count);
    true
}

fn program(command: &[&str]) -> Program {
    Program { command: command.iter().map(|word| word.to_string()).collect() }
}

fn compare_all(bodies: impl Iterator<Item = Vec<u8>>, other: &mut dyn Answerer) -> bool {
    report(compare(bodies, other).map_err(|difference| difference.shrunk(other)))
}

fn report(compared: Result<Tally, Difference>) -> bool {
    let difference = match compared {
        Ok(tally) => {
            print!("{}", tally.text());
            return true;
        }
        Err(difference) => difference,
    };
    let folder = Path::new("target/difference");
    difference.write_to(folder).expect("target/difference");
    println!(
        "case {} differs; a request of {} bytes shows it, see {}",
        difference.index,
        difference.body.len(),
        folder.display()
    );
    println!("{}", difference.text());
    false
}

fn list_large() -> bool {
    for case in large::cases() {
        println!("{}: {}", case.name, case.about);
    }
    true
}

/// Beside the original alone, or the native host beside both.
fn run_large(name: &str, mut host: Option<Box<dyn Answerer>>) -> bool {
    let mut good = true;
    let chosen: Vec<_> = large::cases().filter(|case| name == "all" || case.name == name).collect();
    if chosen.is_empty() {
        usage();
    }
    for case in chosen {
        let begin = Instant::now();
        let body = (case.build)();
        if let Some(host) = &mut host {
            good &= report(compare(iter::once(body), &mut **host));
            println!("{}: {:.1} s", case.name, begin.elapsed().as_secs_f64());
            continue;
        }
        let answer = Beside::new().answer(&body);
        good &= no_findings(0, &body, &answer.findings);
        let head = answer.reply.head();
        let as_told = head.starts_with(case.answer);
        good &= as_told;
        let seconds = begin.elapsed().as_secs_f64();
        let verdict = if as_told { "" } else { " NOT AS TOLD" };
        let text = answer.reply.text().len();
        println!("{}: {} bytes, answer {text}, {seconds:.1} s: {head}{verdict}", case.name, body.len());
    }
    good
}
