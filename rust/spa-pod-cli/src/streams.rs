//! The standard streams without buffers, and the words of a program.
use std::fs::File;
use std::io::{self, ErrorKind, IsTerminal, Write};
use std::os::fd::AsFd;

/// The standard input.
pub fn stdin() -> io::Result<File> {
    Ok(File::from(io::stdin().as_fd().try_clone_to_owned()?))
}

/// The standard output, and whether it is a pipe whose reader is gone, as `head` is after its lines.
pub struct Stdout {
    device: File,
    is_closed: bool,
}

impl Stdout {
    pub fn open() -> io::Result<Stdout> {
        Ok(Stdout { device: File::from(io::stdout().as_fd().try_clone_to_owned()?), is_closed: false })
    }

    pub fn is_terminal(&self) -> bool {
        self.device.is_terminal()
    }

    pub fn is_closed(&self) -> bool {
        self.is_closed
    }
}

impl Write for Stdout {
    fn write(&mut self, bytes: &[u8]) -> io::Result<usize> {
        let answer = self.device.write(bytes);
        if let Err(error) = &answer {
            self.is_closed = error.kind() == ErrorKind::BrokenPipe;
        }
        answer
    }

    fn flush(&mut self) -> io::Result<()> {
        Ok(())
    }
}

/// The words behind the program's name. Where one isn't UTF-8, there is one empty word, which is none of a program's.
pub fn words() -> Vec<String> {
    let words: Result<Vec<String>, _> = std::env::args_os().skip(1).map(|word| word.into_string()).collect();
    words.unwrap_or_else(|_| vec![String::new()])
}
