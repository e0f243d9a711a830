//! `spav rewrite`: reads pods from standard input and writes their rewritings. `spav show`: writes a line for each pod and those inside it.
use spav::{Error, Pods};
use std::io::{self, Read, Write};
use std::process::ExitCode;

/// A line for each pod: depth, type, size.
fn show(input: &[u8], to: &mut impl Write) -> io::Result<()> {
    for (depth, pod) in spav::events(input) {
        writeln!(to, "{} {} {}", depth, pod.type_, pod.body.len())?;
    }
    Ok(())
}

fn main() -> ExitCode {
    assert!(spav::is_fitting(), "another interface is linked");
    let mut input = Vec::new();
    if io::stdin().read_to_end(&mut input).is_err() {
        return ExitCode::from(2);
    }
    let shown = std::env::args().nth(1).as_deref() == Some("show");
    let done = match Pods::new(&input) {
        _ if shown => show(&input, &mut io::BufWriter::new(io::stdout())),
        Ok(pods) => io::stdout().write_all(pods.as_bytes()),
        Err(error @ Error::Refused(_)) => {
            eprintln!("{}", error);
            return ExitCode::FAILURE;
        }
        Err(error) => {
            eprintln!("{}", error);
            return ExitCode::from(2);
        }
    };
    match done {
        Ok(()) => ExitCode::SUCCESS,
        Err(_) => ExitCode::from(2),
    }
}
