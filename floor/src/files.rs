//! Files read and written, and standard output.
use crate::failure::{files, words, Failure};
use std::io::{Read, Write};

/// The most bytes of a file.
const MOST: u64 = 64 << 20;

/// A file's bytes, of standard input where the name is `-`.
pub fn read(name: &str) -> Result<Vec<u8>, Failure> {
    let from: std::io::Result<Box<dyn Read>> = match name {
        "-" => Ok(Box::new(std::io::stdin())),
        _ => std::fs::File::open(name).map(|file| Box::new(file) as Box<dyn Read>),
    };
    let mut bytes = vec![];
    from.and_then(|from| from.take(MOST + 1).read_to_end(&mut bytes)).map_err(|why| files(called(name), why))?;
    if bytes.len() as u64 > MOST { Err(words(format!("{}: more than {} MiB", called(name), MOST >> 20))) } else { Ok(bytes) }
}

/// A file's text.
pub fn read_text(name: &str) -> Result<String, Failure> {
    String::from_utf8(read(name)?).map_err(|why| {
        let line = 1 + why.as_bytes()[..why.utf8_error().valid_up_to()].iter().filter(|b| **b == b'\n').count();
        words(format!("{}:{line}: not a text in UTF-8; save it as one", called(name)))
    })
}

/// How a file is called in what is printed.
pub fn called(name: &str) -> &str {
    if name == "-" { "standard input" } else { name }
}

/// All of it, to standard output.
pub fn print(text: &str) -> Result<(), Failure> {
    put(&mut std::io::stdout().lock(), text).map_err(|why| files("standard output", why))
}

/// All of it, to a file, or to standard output where the name is `-`.
pub fn write(name: &str, text: &str) -> Result<(), Failure> {
    if name == "-" {
        return print(text);
    }
    std::fs::File::create(name).and_then(|mut f| put(&mut f, text)).map_err(|why| files(name, why))
}

/// Whether two names are of one file that is there. Standard input and output are none.
pub fn same(one: &str, other: &str) -> bool {
    let path = |name: &str| std::fs::canonicalize(name).ok().filter(|path| path.is_file() && name != "-");
    path(one).is_some() && path(one) == path(other)
}

fn put(to: &mut dyn Write, text: &str) -> std::io::Result<()> {
    to.write_all(text.as_bytes())?;
    to.flush()
}
