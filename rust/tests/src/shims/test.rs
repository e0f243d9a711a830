//! How the tests end.
use core::cell::{Cell, RefCell};
use core::fmt;
use std::io::{self, Write};

/// Any error that a test ends with.
pub struct Fail(String);

impl Fail {
    /// A failure in words.
    pub fn new(words: impl fmt::Display) -> Fail {
        Fail(words.to_string())
    }
}

impl<E: fmt::Debug> From<E> for Fail {
    fn from(error: E) -> Fail {
        Fail(std::format!("{error:?}"))
    }
}

/// Ends a test as its answer says.
pub fn run(answer: Result<(), Fail>) {
    if let Err(Fail(words)) = answer {
        panic!("{words}");
    }
}

std::thread_local! {
    static INPUT: Cell<&'static str> = const { Cell::new("") };
    static OUTPUT: RefCell<String> = const { RefCell::new(String::new()) };
}

/// The standard input of a program of rows.
pub fn stdin() -> &'static [u8] {
    INPUT.get().as_bytes()
}

/// Its standard output.
pub struct Stdout;

/// Its standard output.
pub fn stdout() -> Stdout {
    Stdout
}

impl Write for Stdout {
    fn write(&mut self, bytes: &[u8]) -> io::Result<usize> {
        let text = core::str::from_utf8(bytes).map_err(|_| io::Error::from(io::ErrorKind::InvalidData))?;
        OUTPUT.with_borrow_mut(|output| output.push_str(text));
        Ok(bytes.len())
    }

    fn flush(&mut self) -> io::Result<()> {
        Ok(())
    }
}

macro_rules! print {
    ($($words:tt)*) => { std::io::Write::write_all(&mut $crate::shims::test::stdout(), std::format!($($words)*).as_bytes()) };
}
macro_rules! println {
    ($($words:tt)*) => {
        std::io::Write::write_all(&mut $crate::shims::test::stdout(), (std::format!($($words)*) + "\n").as_bytes())
    };
}
#[allow(unused_imports)]
pub(crate) use {print, println};

/// Runs a program of rows, and compares what it prints with what is wanted, line by line.
#[allow(dead_code)]
pub fn answer_rows(input: &'static str, wanted: &str, program: fn() -> io::Result<()>) {
    INPUT.set(input);
    OUTPUT.take();
    program().expect("the rows are answered");
    let found = OUTPUT.take();
    for (line, (found, wanted)) in found.lines().zip(wanted.lines()).enumerate() {
        assert_eq!(found, wanted, "line {}", line + 1);
    }
    assert_eq!(found.len(), wanted.len());
}
