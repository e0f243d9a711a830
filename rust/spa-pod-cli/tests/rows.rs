//! The rows on which the proved program is tested: crates/pod_rows has the words, what is given, and what is answered. And the files of
//! crates/pod and crates/podtool, by the programs themselves.
use spa_pod_cli::parts::pod_commands::{answer::report, files::Files, run::{Start, run}, screen::Screen};
use spa_pod_cli::parts::spa_meet_commands::progress::Unwatched;
use std::io::{self, Cursor, ErrorKind, Read, Write};
use std::process::{Command, Stdio};

/// More bytes than any row writes.
const ROOM: usize = 4000;

/// The bytes that words spell: numbers of four bytes, bytes in hexadecimal behind an `x`, or behind a colon a text, in which `⏎` is a line feed.
fn bytes_of(spelt: &str) -> io::Result<Vec<u8>> {
    if let Some(text) = spelt.strip_prefix(':') {
        return Ok(text.replace('⏎', "\n").into_bytes());
    }
    let mut bytes = Vec::new();
    for word in spelt.split_whitespace() {
        match word.strip_prefix('x') {
            Some(digits) => bytes.extend((0..digits.len()).step_by(2).map(|at| u8::from_str_radix(&digits[at..at + 2], 16).unwrap())),
            None => bytes.extend(word.parse::<u32>().map_err(|_| io::Error::from(ErrorKind::NotFound))?.to_le_bytes()),
        }
    }
    Ok(bytes)
}

/// Bytes as words with a space before each, and those of no whole word in hexadecimal.
fn words_of(bytes: &[u8]) -> String {
    let words = bytes.chunks_exact(4);
    let rest = words.remainder();
    let mut text: String = words.map(|word| format!(" {}", u32::from_le_bytes(word.try_into().unwrap()))).collect();
    text += if rest.is_empty() { "" } else { " x" };
    rest.iter().fold(text, |text, byte| text + &format!("{byte:02x}"))
}

fn line_of(bytes: &[u8]) -> String {
    String::from_utf8(bytes.to_vec()).map_or("no UTF-8".into(), |text| text.replace('\n', "⏎"))
}

/// Files whose names spell their bytes, with commas between the words. What is written is kept, but to a name with a stroke.
#[derive(Default)]
struct Spelt {
    written: String,
}

impl Files for Spelt {
    type Opened = Cursor<Vec<u8>>;

    fn read_file(&self, name: &str) -> io::Result<Vec<u8>> {
        bytes_of(&name.replace(',', " "))
    }

    fn open_file(&self, name: &str) -> io::Result<Cursor<Vec<u8>>> {
        self.read_file(name).map(Cursor::new)
    }

    fn is_regular(&self, _name: &str) -> bool {
        true
    }

    fn write_file(&mut self, name: &str, bytes: &[u8]) -> io::Result<()> {
        if name.contains('/') {
            return Err(io::Error::from(ErrorKind::NotFound));
        }
        self.written += &format!(" | {name}:{}", words_of(bytes));
        Ok(())
    }
}

/// An input, which can't be read to its end where the row says so.
struct Input(Cursor<Vec<u8>>, bool);

impl Read for Input {
    fn read(&mut self, bytes: &mut [u8]) -> io::Result<usize> {
        match self.0.read(bytes)? {
            0 if self.1 => Err(io::Error::from(ErrorKind::UnexpectedEof)),
            count => Ok(count),
        }
    }
}

/// What a row with these parts answers.
fn answer_of(label: &str, words: &str, given: &str, room: usize) -> String {
    let words: Vec<&str> = words.split_whitespace().map(|word| if word == "\"\"" { "" } else { word }).collect();
    let mut input = Input(Cursor::new(bytes_of(given.trim_start_matches('%')).unwrap()), given.starts_with('%'));
    let screen = Screen { is_terminal: label.starts_with("terminal"), no_color: label.contains("NO_COLOR") };
    let (mut files, mut written, mut said) = (Spelt::default(), [0; ROOM], Vec::new());
    let start = Start { words: &words, screen };
    let (answer, mut left) = run(start, &mut input, &mut files, &mut Unwatched, &mut written[..room.min(ROOM)]);
    report(&mut left, &mut said, &answer).unwrap();
    let len = room.min(ROOM) - left.len();
    let are_pods = matches!(words.first(), Some(&("get" | "read" | "rewrite" | "fixate" | "meet" | "filter"))) && words.last() != Some(&"--help");
    let shown = if are_pods { words_of(&written[..len]) } else { line_of(&written[..len]) };
    format!("{label}: {} {} |{shown}{}", answer.status(), line_of(&said), files.written)
}

#[test]
fn rows_are_answered() {
    let mut wanted = include_str!("../../../crates/pod_rows/stdout").lines();
    for row in include_str!("../../../crates/pod_rows/stdin").lines() {
        let parts: Vec<&str> = row.split(" | ").collect();
        if let [label, words, more @ ..] = parts.as_slice() {
            let room = more.get(1).and_then(|room| room.parse().ok()).unwrap_or(ROOM);
            assert_eq!(Some(answer_of(label, words, more.first().unwrap_or(&""), room).as_str()), wanted.next());
        }
    }
    assert_eq!(wanted.next(), None);
}

/// The status, and what is written, of a program with these words.
fn ran(program: &str, words: &[&str], given: &[u8]) -> (Option<i32>, Vec<u8>) {
    let mut child = Command::new(program).args(words).stdin(Stdio::piped()).stdout(Stdio::piped()).spawn().unwrap();
    child.stdin.take().unwrap().write_all(given).unwrap();
    let done = child.wait_with_output().unwrap();
    (done.status.code(), done.stdout)
}

#[test]
fn programs_write_what_the_proved_ones_write() {
    let (pod, podtool) = (env!("CARGO_BIN_EXE_pod"), env!("CARGO_BIN_EXE_podtool"));
    let given = include_bytes!("../../../crates/pod/stdin");
    let status = include_str!("../../../crates/pod/status").trim().parse().ok();
    assert_eq!(ran(pod, &["show"], given), (status.or(Some(0)), include_bytes!("../../../crates/pod/stdout").to_vec()));
    let given = include_bytes!("../../../crates/podtool/stdin");
    assert_eq!(ran(podtool, &["rewrite"], given), (Some(0), include_bytes!("../../../crates/podtool/stdout").to_vec()));
}

#[test]
fn the_version_says_which_build_it_is() {
    let (status, text) = ran(env!("CARGO_BIN_EXE_pod"), &["--version"], b"");
    let number = concat!("pod ", env!("CARGO_PKG_VERSION"), " (built by cargo");
    assert_eq!((status, text.starts_with(number.as_bytes())), (Some(0), true));
}
