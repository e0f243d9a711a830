//! A command line of words with options and files: as much of it as the programs declare, and what is said of it.
use core::fmt;
use spa_pod::AllocError;

pub mod builder {
    /// What a value has to be.
    #[derive(Clone, Copy, Debug)]
    pub enum ValueParser {
        /// A number from the first to the second.
        Unsigned(u64, u64),
    }
}

pub mod error {
    /// What is asked for in place of work, or wrong.
    #[derive(Clone, Copy, Debug, PartialEq, Eq)]
    pub enum ErrorKind {
        DisplayHelp,
        DisplayVersion,
        Misuse,
        OutOfMemory,
    }
}
use error::ErrorKind;

/// Help, the version, or what is wrong with the words.
#[derive(Debug)]
pub struct Error {
    kind: ErrorKind,
    text: String,
}

impl Error {
    pub fn kind(&self) -> ErrorKind {
        self.kind
    }

    /// Whether the version is asked for.
    pub fn is_version(&self) -> bool {
        self.kind == ErrorKind::DisplayVersion
    }

    /// Whether it isn't what was asked for.
    pub fn use_stderr(&self) -> bool {
        matches!(self.kind, ErrorKind::Misuse | ErrorKind::OutOfMemory)
    }
}

impl fmt::Display for Error {
    fn fmt(&self, f: &mut fmt::Formatter<'_>) -> fmt::Result {
        f.write_str(&self.text)
    }
}

impl From<AllocError> for Error {
    fn from(_: AllocError) -> Error {
        Error { kind: ErrorKind::OutOfMemory, text: "error: out of memory\n".into() }
    }
}

/// A misuse: what is wrong, tips, and the usage where it helps.
fn misuse<T>(what: &str, tips: &[String], usage: Option<String>) -> Result<T, Error> {
    let mut text = format!("error: {what}\n\n");
    for tip in tips {
        text += &format!("  tip: {tip}\n");
    }
    text += if tips.is_empty() { "" } else { "\n" };
    text += &usage.map_or(String::new(), |usage| format!("Usage: {usage}\n\n"));
    text += "For more information, try '--help'.\n";
    Err(Error { kind: ErrorKind::Misuse, text })
}

/// Whether an argument is a list, a flag, or has one value.
#[derive(Clone, Copy, Debug, PartialEq, Eq)]
pub enum ArgAction {
    Append,
    SetTrue,
    Set,
}

/// An option, one word that is required, or the files.
#[derive(Clone, Debug)]
pub struct Arg<'a> {
    name: &'a str,
    short: Option<char>,
    long: Option<&'a str>,
    action: ArgAction,
    help: &'a str,
    value: &'a str,
    parser: Option<builder::ValueParser>,
    required: bool,
}

impl<'a> Arg<'a> {
    pub fn new(name: &'a str) -> Arg<'a> {
        Arg { name, short: None, long: None, action: ArgAction::Set, help: "", value: "", parser: None, required: false }
    }

    pub fn short(self, letter: char) -> Arg<'a> {
        Arg { short: Some(letter), ..self }
    }

    pub fn long(self, name: &'a str) -> Arg<'a> {
        Arg { long: Some(name), ..self }
    }

    pub fn action(self, action: ArgAction) -> Arg<'a> {
        Arg { action, ..self }
    }

    pub fn help(self, help: &'a str) -> Arg<'a> {
        Arg { help, ..self }
    }

    pub fn value_name(self, value: &'a str) -> Arg<'a> {
        Arg { value, ..self }
    }

    pub fn required(self, required: bool) -> Arg<'a> {
        Arg { required, ..self }
    }

    pub fn value_parser(self, parser: builder::ValueParser) -> Arg<'a> {
        Arg { parser: Some(parser), ..self }
    }

    /// The value, read as its parser says.
    fn check(&self, value: &str) -> Result<(), String> {
        let Some(builder::ValueParser::Unsigned(least, most)) = self.parser else {
            return Ok(());
        };
        let number: u64 = value.parse().map_err(|error: core::num::ParseIntError| error.to_string())?;
        if number < least || most < number { Err(format!("{number} is not in {least}..{most}")) } else { Ok(()) }
    }
}

impl fmt::Display for Arg<'_> {
    fn fmt(&self, f: &mut fmt::Formatter<'_>) -> fmt::Result {
        match (self.long, self.action) {
            (Some(long), ArgAction::SetTrue) => write!(f, "--{long}"),
            (Some(long), _) => write!(f, "--{long} <{}>", self.value),
            (None, ArgAction::Append) => write!(f, "[{}]...", self.name),
            (None, _) => write!(f, "<{}>", self.name),
        }
    }
}

/// The program, or one of its words.
#[derive(Debug)]
pub struct Command<'a> {
    name: &'a str,
    /// The words before its arguments.
    path: String,
    about: &'a str,
    behind: &'a str,
    version: Option<&'a str>,
    args: Vec<Arg<'a>>,
    words: Vec<Command<'a>>,
}

/// What the words say: the values of each argument, and the word with its own.
#[derive(Debug, Default)]
pub struct ArgMatches<'a> {
    values: Vec<(&'a str, Vec<&'a str>)>,
    word: Option<(&'a str, Box<ArgMatches<'a>>)>,
}

impl<'a> ArgMatches<'a> {
    pub fn subcommand(&self) -> Option<(&'a str, &ArgMatches<'a>)> {
        self.word.as_ref().map(|(name, given)| (*name, &**given))
    }

    pub fn get_str(&self, name: &str) -> Option<&'a str> {
        self.get_strs(name)?.first().copied()
    }

    pub fn get_strs(&self, name: &str) -> Option<&[&'a str]> {
        self.values.iter().find(|it| it.0 == name).map(|it| it.1.as_slice())
    }

    fn add(&mut self, name: &'a str, value: &'a str) {
        match self.values.iter_mut().find(|it| it.0 == name) {
            Some((_, values)) => values.push(value),
            None => self.values.push((name, vec![value])),
        }
    }
}

const HELP: &str = "help";
const HELP_ABOUT: &str = "Print this message or the help of the given subcommand(s)";

impl<'a> Command<'a> {
    pub fn new(name: &'a str) -> Command<'a> {
        Command { name, path: name.into(), about: "", behind: "", version: None, args: Vec::new(), words: Vec::new() }
    }

    pub fn about(self, about: &'a str) -> Command<'a> {
        Command { about, ..self }
    }

    pub fn after_help(self, behind: &'a str) -> Command<'a> {
        Command { behind, ..self }
    }

    pub fn version(self, version: &'a str) -> Command<'a> {
        Command { version: Some(version), ..self }
    }

    /// The words begin behind the program's name, as they do here.
    pub fn no_binary_name(self, _: bool) -> Command<'a> {
        self
    }

    /// A word is required, as it is here where there are any.
    pub fn subcommand_required(self, _: bool) -> Command<'a> {
        self
    }

    /// Help is given where nothing else is, as it is here where there are words.
    pub fn arg_required_else_help(self, _: bool) -> Command<'a> {
        self
    }

    pub fn bin_name(self, name: &str) -> Result<Command<'a>, AllocError> {
        Ok(Command { path: name.into(), ..self })
    }

    pub fn arg(mut self, arg: Arg<'a>) -> Result<Command<'a>, AllocError> {
        self.args.push(arg);
        Ok(self)
    }

    pub fn subcommand(mut self, word: Command<'a>) -> Result<Command<'a>, AllocError> {
        let path = format!("{} {}", self.path, word.name);
        self.words.push(Command { path, ..word });
        Ok(self)
    }

    /// The arguments without the files.
    fn options(&self) -> impl Iterator<Item = &Arg<'a>> {
        self.args.iter().filter(|arg| arg.long.is_some())
    }

    /// The arguments that aren't options: words that are required, and then the one that takes all files.
    fn places(&self) -> impl Iterator<Item = &Arg<'a>> {
        self.args.iter().filter(|arg| arg.long.is_none())
    }

    /// The first of them that takes another word.
    fn place(&self, given: &ArgMatches<'a>) -> Option<&Arg<'a>> {
        self.places().find(|arg| arg.action == ArgAction::Append || given.get_strs(arg.name).is_none())
    }

    fn files(&self) -> Option<&Arg<'a>> {
        self.places().last()
    }

    /// How it is called, with these options.
    fn usage(&self, used: &[String]) -> String {
        let mut text = self.path.clone();
        match used {
            [] if self.options().next().is_some() => text += " [OPTIONS]",
            _ => used.iter().for_each(|option| text += &format!(" {option}")),
        }
        self.places().for_each(|place| text += &format!(" {place}"));
        text + if self.words.is_empty() { "" } else { " <COMMAND>" }
    }

    /// Rows of two columns below a title.
    fn table(title: &str, rows: &[(String, &str)]) -> String {
        let width = rows.iter().map(|row| row.0.len()).max().unwrap_or(0);
        rows.iter().fold(format!("{title}:\n"), |text, (left, right)| text + &format!("  {left:width$}  {right}\n"))
    }

    fn help(&self) -> String {
        let mut options: Vec<_> = self.options().map(|it| (it.short.map_or("    ".into(), |short| format!("-{short}, ")) + &it.to_string(), it.help)).collect();
        options.push(("-h, --help".into(), "Print help"));
        if self.version.is_some() {
            options.push(("-V, --version".into(), "Print version"));
        }
        let mut words: Vec<_> = self.words.iter().map(|word| (word.name.to_string(), word.about)).collect();
        words.push((HELP.into(), HELP_ABOUT));
        let mut text = format!("{}\n\nUsage: {}\n\n", self.about, self.usage(&[]));
        if !self.words.is_empty() {
            text += &(Command::table("Commands", &words) + "\n");
        }
        let places: Vec<_> = self.places().map(|place| (place.to_string(), place.help)).collect();
        if !places.is_empty() {
            text += &(Command::table("Arguments", &places) + "\n");
        }
        text + &Command::table("Options", &options) + "\n" + self.behind + "\n"
    }

    /// What these words say.
    pub fn try_get_matches_from(self, words: &'a [&'a str]) -> Result<ArgMatches<'a>, Error> {
        let (Some((first, rest)), false) = (words.split_first(), words == ["--"]) else {
            return Err(Error { kind: ErrorKind::Misuse, text: self.help() });
        };
        match *first {
            "--" => return self.stray(rest[0]),
            HELP => return self.help_of(rest),
            _ if first.len() > 1 && first.starts_with('-') => return self.read(words),
            _ => {}
        }
        let Some(word) = self.words.iter().find(|word| word.name == *first) else {
            return self.unrecognized(first);
        };
        let given = word.read(rest)?;
        Ok(ArgMatches { values: Vec::new(), word: Some((word.name, Box::new(given))) })
    }

    /// A file where none is taken.
    fn stray<T>(&self, file: &str) -> Result<T, Error> {
        let is_word = file == HELP || self.words.iter().any(|word| word.name == file);
        let tip = is_word.then(|| format!("subcommand '{file}' exists; to use it, remove the '--' before it"));
        misuse(&format!("unexpected argument '{file}' found"), tip.as_slice(), Some(self.usage(&[])))
    }

    fn help_of<T>(&self, names: &[&str]) -> Result<T, Error> {
        let Some((name, rest)) = names.split_first() else {
            return Err(Error { kind: ErrorKind::DisplayHelp, text: self.help() });
        };
        match self.words.iter().find(|word| word.name == *name) {
            Some(word) => word.help_of(rest),
            None if *name == HELP && !self.words.is_empty() => {
                let usage = format!("{} help [COMMAND]...", self.path);
                let rows = Command::table("Arguments", &[("[COMMAND]...".into(), "Print help for the subcommand(s)")]);
                Err(Error { kind: ErrorKind::DisplayHelp, text: format!("{HELP_ABOUT}\n\nUsage: {usage}\n\n{rows}") })
            }
            None => misuse(&format!("unrecognized subcommand '{name}'"), &[], Some(self.usage(&[]))),
        }
    }

    fn unrecognized<T>(&self, name: &str) -> Result<T, Error> {
        let names = self.words.iter().map(|word| word.name).chain([HELP]);
        let near: Vec<_> = near_to(name, names).iter().map(|near| format!("'{near}'")).collect();
        let tip = match near.len() {
            0 => Vec::new(),
            1 => vec![format!("a similar subcommand exists: {}", near[0])],
            _ => vec![format!("some similar subcommands exist: {}", near.join(", "))],
        };
        misuse(&format!("unrecognized subcommand '{name}'"), &tip, Some(self.usage(&[])))
    }

    /// The options and files that these words are.
    fn read(&self, words: &[&'a str]) -> Result<ArgMatches<'a>, Error> {
        let mut given = ArgMatches::default();
        let (mut left, mut are_files) = (words, false);
        while let Some((word, behind)) = left.split_first() {
            left = behind;
            match word.strip_prefix('-').filter(|name| !are_files && !name.is_empty()) {
                Some("-") => are_files = true,
                Some(name) => match name.strip_prefix('-') {
                    Some(long) => self.read_long(long, &mut left, &mut given)?,
                    None => self.read_short(name, &mut left, &mut given)?,
                },
                None => match self.place(&given) {
                    Some(place) => given.add(place.name, word),
                    None => return self.stray(word),
                },
            }
        }
        match self.place(&given).filter(|place| place.required) {
            Some(place) => self.missing(place, &given),
            None => Ok(given),
        }
    }

    /// A word that is required isn't there.
    fn missing<T>(&self, place: &Arg<'a>, given: &ArgMatches<'a>) -> Result<T, Error> {
        let used = self.used(given).iter().fold(self.path.clone(), |text, option| text + " " + option);
        let usage = self.places().fold(used, |text, place| text + &format!(" {place}"));
        misuse(&format!("the following required arguments were not provided:\n  {place}"), &[], Some(usage))
    }

    fn read_long(&self, text: &'a str, left: &mut &[&'a str], given: &mut ArgMatches<'a>) -> Result<(), Error> {
        let (name, value) = text.split_once('=').map_or((text, None), |(name, value)| (name, Some(value)));
        if let Some(arg) = self.options().find(|arg| arg.long == Some(name)) {
            return self.take(arg, value, left, given);
        }
        self.answer(name)?;
        let what = format!("unexpected argument '--{name}' found");
        let longs = self.options().filter_map(|arg| arg.long).chain([HELP]).chain(self.version.map(|_| "version"));
        if let Some(near) = near_to(name, longs).last() {
            let mut used = self.used(given);
            let known = self.options().find(|arg| arg.long == Some(near));
            used.push(known.map_or(format!("--{near}"), Arg::to_string));
            return misuse(&what, &[format!("a similar argument exists: '--{near}'")], Some(self.usage(&used)));
        }
        let of_word = |word: &Command<'a>| {
            let near = near_to(name, word.options().filter_map(|arg| arg.long).chain([HELP])).pop()?;
            Some((left.iter().position(|it| *it == word.name)?, format!("'{} --{near}' exists", word.name)))
        };
        let mut tips: Vec<_> = self.words.iter().filter_map(of_word).min().map(|tip| tip.1).into_iter().collect();
        if self.files().is_some() {
            tips.push(format!("to pass '--{name}' as a value, use '-- --{name}'"));
        }
        misuse(&what, &tips, Some(self.usage(&self.used(given))))
    }

    fn read_short(&self, letters: &'a str, left: &mut &[&'a str], given: &mut ArgMatches<'a>) -> Result<(), Error> {
        let mut behind = letters;
        while let Some(letter) = behind.chars().next() {
            behind = &behind[letter.len_utf8()..];
            let Some(arg) = self.options().find(|arg| arg.short == Some(letter)) else {
                self.answer(&letter.to_string())?;
                let tip = self.files().map(|_| format!("to pass '-{letter}' as a value, use '-- -{letter}'"));
                return misuse(&format!("unexpected argument '-{letter}' found"), tip.as_slice(), Some(self.usage(&[])));
            };
            if arg.action != ArgAction::SetTrue {
                let value = (!behind.is_empty()).then(|| behind.strip_prefix('=').unwrap_or(behind));
                return self.take(arg, value, left, given);
            }
            self.take(arg, None, left, given)?;
        }
        Ok(())
    }

    /// Whether there is an option of this name.
    fn has_long(&self, text: &str) -> bool {
        let name = text.split_once('=').map_or(text, |it| it.0);
        self.answer(name).is_err() || self.options().any(|arg| arg.long == Some(name))
    }

    fn has_short(&self, letters: &str) -> bool {
        letters.chars().next().is_some_and(|letter| self.answer(&letter.to_string()).is_err() || self.options().any(|arg| arg.short == Some(letter)))
    }

    /// Gives help or the version, where that is asked for.
    fn answer(&self, name: &str) -> Result<(), Error> {
        match (name, self.version) {
            ("h" | HELP, _) => Err(Error { kind: ErrorKind::DisplayHelp, text: self.help() }),
            ("V" | "version", Some(version)) => Err(Error { kind: ErrorKind::DisplayVersion, text: format!("{} {version}\n", self.name) }),
            _ => Ok(()),
        }
    }

    /// The options that were given.
    fn used(&self, given: &ArgMatches<'a>) -> Vec<String> {
        self.options().filter(|arg| given.get_strs(arg.name).is_some()).map(Arg::to_string).collect()
    }

    /// Adds an option with its value: the one behind `=`, or the next word.
    fn take(&self, arg: &Arg<'a>, value: Option<&'a str>, left: &mut &[&'a str], given: &mut ArgMatches<'a>) -> Result<(), Error> {
        let value = match (arg.action, value) {
            (ArgAction::SetTrue, Some(value)) => {
                let what = format!("unexpected value '{value}' for '{arg}' found; no more were expected");
                given.add(arg.name, value);
                return misuse(&what, &[], Some(self.usage(&self.used(given))));
            }
            (ArgAction::SetTrue, None) => "true",
            (_, Some(value)) => value,
            (_, None) => match left.split_first() {
                Some((value, behind)) if *value == "-" || !value.starts_with('-') => {
                    *left = behind;
                    value
                }
                next => {
                    // Of two mistakes an option that there isn't is the one that is named.
                    match next.map_or("", |next| next.0).strip_prefix('-').map(|name| name.strip_prefix('-').ok_or(name)) {
                        Some(Ok(long)) if !long.is_empty() && !self.has_long(long) => self.read_long(long, left, given)?,
                        Some(Err(letters)) if !self.has_short(letters) => self.read_short(letters, left, given)?,
                        _ => {}
                    }
                    return misuse(&format!("a value is required for '{arg}' but none was supplied"), &[], None);
                }
            },
        };
        if given.get_strs(arg.name).is_some() {
            return misuse(&format!("the argument '{arg}' cannot be used multiple times"), &[], Some(self.usage(&[])));
        }
        if let Err(why) = arg.check(value) {
            return misuse(&format!("invalid value '{value}' for '{arg}': {why}"), &[], None);
        }
        given.add(arg.name, value);
        Ok(())
    }
}

/// The names that are like this one, the likest last.
fn near_to<'a>(name: &str, names: impl Iterator<Item = &'a str>) -> Vec<&'a str> {
    let mut near: Vec<_> = names.map(|it| (likeness(name, it), it)).filter(|it| it.0 > 0.7).collect();
    near.sort_by(|ours, theirs| ours.0.total_cmp(&theirs.0));
    near.into_iter().map(|it| it.1).collect()
}

/// Jaro's likeness of two texts, from 0 to 1.
fn likeness(ours: &str, theirs: &str) -> f64 {
    let (ours, theirs): (Vec<char>, Vec<char>) = (ours.chars().collect(), theirs.chars().collect());
    let reach = (ours.len().max(theirs.len()) / 2).saturating_sub(1);
    let mut is_met = vec![false; theirs.len()];
    let mut met = Vec::new();
    for (at, letter) in ours.iter().enumerate() {
        let within = at.saturating_sub(reach)..(at + reach + 1).min(theirs.len());
        if let Some(other) = within.into_iter().find(|other| !is_met[*other] && theirs[*other] == *letter) {
            is_met[other] = true;
            met.push(*letter);
        }
    }
    if met.is_empty() {
        return if ours.is_empty() && theirs.is_empty() { 1.0 } else { 0.0 };
    }
    let others = theirs.iter().zip(&is_met).filter(|it| *it.1).map(|it| it.0);
    let moved = met.iter().zip(others).filter(|it| it.0 != it.1).count() as f64 / 2.0;
    let count = met.len() as f64;
    (count / ours.len() as f64 + count / theirs.len() as f64 + (count - moved) / count) / 3.0
}
