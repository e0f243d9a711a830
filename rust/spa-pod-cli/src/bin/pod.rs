//! `pod WORD [-o FILE] [FILE ..]`: pods are shown, printed as JSON, read from it, rewritten, fixated, checked, compared, or sought to agree.
#![forbid(unsafe_code)]

use spa_pod_cli::parts::pod_commands::answer::{Answer, Failure, report};
use spa_pod_cli::parts::pod_commands::files::SystemFiles;
use spa_pod_cli::parts::pod_commands::run::{Start, run};
use spa_pod_cli::parts::pod_commands::screen::Screen;
use spa_pod_cli::parts::spa_meet_commands::progress::Progress;
use spa_pod_cli::streams::{Stdout, stdin, words};
use std::io::{self, IsTerminal, Write};
use std::process::ExitCode;
use std::time::Instant;

/// What the version says behind the number: the proved program says the number alone.
const BUILD: &str = "built by cargo, of the text of the proved program";

fn main() -> ExitCode {
    let words = words();
    let words: Vec<&str> = words.iter().map(String::as_str).collect();
    let (Ok(mut input), Ok(output)) = (stdin(), Stdout::open()) else {
        let answer = Answer::Refused(Failure::Unread("-", "read failed"));
        let _ = report(&mut io::sink(), &mut io::stderr(), &answer);
        return ExitCode::from(answer.status());
    };
    let no_color = std::env::var_os("NO_COLOR").is_some_and(|value| !value.is_empty());
    let screen = Screen { is_terminal: output.is_terminal(), no_color };
    let mut progress = Told::new();
    let start = Start { words: &words, screen };
    let (answer, mut output) = run(start, &mut input, &mut SystemFiles {}, &mut progress, output);
    if !output.is_closed() {
        let _ = match &answer {
            Answer::Said(said) if said.is_version() => writeln!(output, "{} ({BUILD})", said.to_string().trim_end()),
            _ => report(&mut output, &mut io::stderr(), &answer),
        };
    }
    ExitCode::from(answer.status())
}

/// Standard error, which is told how far a search is where it is a terminal: by a line a second at most, the first after a second.
struct Told {
    /// When a line was written last, or the program began. None: no line is written.
    last: Option<Instant>,
    /// How many objects were told of.
    told: usize,
}

impl Told {
    /// Nothing is told so far.
    fn new() -> Told {
        Told { last: io::stderr().is_terminal().then(Instant::now), told: 0 }
    }
}

impl Progress for Told {
    fn tell(&mut self, objects: usize) {
        let tried = self.told;
        self.told = tried.saturating_add(1);
        if self.last.is_some_and(|last| last.elapsed().as_secs() >= 1) {
            let _ = writeln!(io::stderr(), "pod: {tried} of {objects} objects tried");
            self.last = Some(Instant::now());
        }
    }
}
