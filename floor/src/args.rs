//! The words of a command line behind the command: flags, options with a value, and files.
use crate::failure::{words, Failure};

/// What a command takes: its usage, its flags, and its options that have a value.
pub struct Usage<'a> {
    pub line: &'a str,
    pub flags: &'a [&'a str],
    pub options: &'a [&'a str],
}

#[derive(Debug, Default)]
pub struct Args {
    pub files: Vec<String>,
    flags: Vec<String>,
    options: Vec<(String, String)>,
}

impl Args {
    /// An unknown option, or one without its value, is an error that shows the usage; so is a number of files outside these two.
    pub fn parse(args: &[String], usage: &Usage, fewest: usize, most: usize) -> Result<Args, Failure> {
        let wrong = |what: String| Err(words(format!("floor: {what}\nusage: {}", usage.line)));
        let (mut out, mut rest) = (Args::default(), args.iter());
        while let Some(arg) = rest.next() {
            if usage.flags.contains(&arg.as_str()) {
                out.flags.push(arg.clone());
            } else if usage.options.contains(&arg.as_str()) {
                match rest.next() {
                    Some(value) => out.options.push((arg.clone(), value.clone())),
                    None => return wrong(format!("{arg} has no value behind it")),
                }
            } else if arg.starts_with('-') && arg != "-" {
                return wrong(format!("no option {arg:?}"));
            } else {
                out.files.push(arg.clone());
            }
        }
        match out.files.len() {
            n if n < fewest => wrong("a file is missing".to_string()),
            n if n > most => wrong(format!("one word too many: {:?}", out.files[most])),
            _ => Ok(out),
        }
    }

    pub fn flag(&self, name: &str) -> bool {
        self.flags.iter().any(|f| f == name)
    }

    /// Every value that an option was given.
    pub fn all(&self, name: &str) -> Vec<&str> {
        self.options.iter().filter(|(option, _)| option == name).map(|(_, value)| value.as_str()).collect()
    }

    /// The value of an option that may be given once.
    pub fn one(&self, name: &str) -> Result<Option<&str>, Failure> {
        match self.all(name)[..] {
            [] => Ok(None),
            [value] => Ok(Some(value)),
            _ => Err(words(format!("floor: {name} is given twice"))),
        }
    }
}
