//! `podtool rewrite|fixate|show`: pods from standard input are rewritten, fixated or listed on standard output.
#![forbid(unsafe_code)]

use spa_pod_cli::parts::spa_pod_commands::answer::{Answer, Failure, report};
use spa_pod_cli::parts::spa_pod_commands::run::run;
use spa_pod_cli::streams::{Stdout, stdin, words};
use std::io;
use std::process::ExitCode;

fn main() -> ExitCode {
    let words = words();
    let words: Vec<&str> = words.iter().map(String::as_str).collect();
    let (Ok(mut input), Ok(mut output)) = (stdin(), Stdout::open()) else {
        let answer = Answer::Refused(Failure::OutOfMemory);
        let _ = report(&mut io::stderr(), &answer);
        return ExitCode::from(answer.status());
    };
    ExitCode::from(run(&words, &mut input, &mut output, &mut io::stderr()))
}
