//! The command line.

use std::ffi::OsString;
use std::path::PathBuf;

pub const HELP: &str = "\
explain says why a sheet was refused, and shows how an accepted booking is derived.

    explain/run [--till TEXT] [--all | --sheet N] [--page PAGE] [FILE]

FILE has sheets as tillrun reads them, parted by empty lines; without FILE, or with -, they come from standard
input. They are played from an empty till, and the last one is explained.

    --all         explains every sheet that is refused
    --sheet N     explains sheet N, counted from 1
    --page PAGE   writes the page of an accepted booking, an HTML file: of sheet N, or of the last one accepted
    --till TEXT   plays from the till whose text is in that file; a text that is refused is explained itself
    --numbers     prints the answers alone, as explain finds them, with that of opening the text first
    --help        prints this

The till's answer is the verdict; explain is not proved. What each number means is in docs/REFUSALS.md.
Status: 0 explained; 1 a file, a sheet or an accepted booking is not there; 2 not a command line as above.
";

/// Which sheets are explained.
#[derive(Clone, Copy, PartialEq, Eq)]
pub enum Which {
    Last,
    All,
    Sheet(usize),
    Numbers,
}

pub struct Options {
    pub which: Which,
    /// Sheets; none: standard input.
    pub file: Option<PathBuf>,
    pub till: Option<PathBuf>,
    pub page: Option<PathBuf>,
    pub help: bool,
}

impl Options {
    /// Reads the arguments, or says what is wrong with them.
    pub fn read(mut arguments: impl Iterator<Item = OsString>) -> Result<Options, String> {
        let mut options = Options { which: Which::Last, file: None, till: None, page: None, help: false };
        let (mut files, mut ended) = (Vec::new(), false);
        while let Some(argument) = arguments.next() {
            let name = argument.to_string_lossy().into_owned();
            let mut value = || arguments.next().ok_or(format!("{name} needs a value"));
            match name.as_str() {
                _ if ended => files.push(argument),
                "--" => ended = true,
                "--help" | "-h" => options.help = true,
                "--all" => options.choose(Which::All)?,
                "--numbers" => options.choose(Which::Numbers)?,
                "--sheet" => options.choose(Which::Sheet(count(value()?)?))?,
                "--till" => once(&mut options.till, value()?, &name)?,
                "--page" => once(&mut options.page, value()?, &name)?,
                "-" => files.push(argument),
                _ if name.starts_with('-') => return Err(format!("there is no option {name}")),
                _ => files.push(argument),
            }
        }
        options.take(files)
    }

    fn choose(&mut self, which: Which) -> Result<(), String> {
        if self.which != Which::Last {
            return Err("one of --all, --sheet and --numbers can be given, once".to_string());
        }
        self.which = which;
        Ok(())
    }

    fn take(mut self, mut files: Vec<OsString>) -> Result<Options, String> {
        if files.len() > 1 {
            return Err("one file of sheets can be given".to_string());
        }
        if self.page.is_some() && matches!(self.which, Which::All | Which::Numbers) {
            return Err("--page is of one booking: it goes with --sheet or alone".to_string());
        }
        self.file = files.pop().filter(|file| file != "-").map(PathBuf::from);
        Ok(self)
    }
}

fn once(place: &mut Option<PathBuf>, value: OsString, name: &str) -> Result<(), String> {
    match place.replace(PathBuf::from(value)) {
        Some(_) => Err(format!("{name} can be given once")),
        None => Ok(()),
    }
}

fn count(value: OsString) -> Result<usize, String> {
    let text = value.to_string_lossy();
    text.parse().ok().filter(|&number| number > 0).ok_or(format!("--sheet needs a number from 1 on, not {text}"))
}
