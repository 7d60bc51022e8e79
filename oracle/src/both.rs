//! A watch of ours and the plain Rust one that is to print the same, run on one input after another.

use std::fs;
use std::io;
use std::path::PathBuf;
use std::process::Command;

use crate::process::once;
use crate::sheet::Printed;
use crate::tally::Tally;

/// The stored cases of both watches, from the repository's folder.
const CASES: &str = "crates/watch_cases";

/// An input longer than this is not shown.
const SHOWN: usize = 2_000;

/// What kinds runs are of, by the input and by what the plain program prints.
pub trait Kinds {
    fn count(&mut self, input: &[u8], printed: &Printed);
}

type Plain = fn(&[u8], &mut Vec<u8>) -> io::Result<()>;

pub struct Both<'a, K> {
    pub tally: &'a mut Tally,
    pub kinds: K,
    ours: &'static str,
    plain: Plain,
    /// The file that ours reads.
    input: PathBuf,
}

fn shown(bytes: &[u8]) -> String {
    match bytes.len() {
        ..=SHOWN => bytes.escape_ascii().to_string(),
        n => format!("an input of {n} bytes"),
    }
}

fn lines(text: &[u8]) -> Vec<&[u8]> {
    text.split_inclusive(|&b| b == b'\n').collect()
}

/// The first lines in which they differ.
fn first_difference(ours: &[u8], rust: &[u8]) -> String {
    let (ours, rust) = (lines(ours), lines(rust));
    let at = ours.iter().zip(&rust).take_while(|(a, b)| a == b).count();
    let line = |lines: &[&[u8]]| match lines.get(at) {
        None => "no line".into(),
        Some(line) => line.escape_ascii().to_string(),
    };
    format!("ours {}, rust {}", line(&ours), line(&rust))
}

impl<'a, K: Kinds + Default> Both<'a, K> {
    /// Our program is `target/bin/` and its name.
    pub fn new(ours: &'static str, plain: Plain, tally: &'a mut Tally) -> Self {
        let own = std::env::current_exe().expect("this program's place");
        Both {
            tally,
            kinds: K::default(),
            ours,
            plain,
            input: own.with_file_name(format!("{ours}.input")),
        }
    }

    /// Compares what they print, and hands back what the plain one does.
    pub fn print(&mut self, what: &str, bytes: &[u8]) -> Vec<u8> {
        let mut rust = Vec::new();
        (self.plain)(bytes, &mut rust).expect("bytes read and written");
        fs::write(&self.input, bytes).expect("an input written");
        let program = format!("target/bin/{}", self.ours);
        let (ours, _) = once(Command::new(&program), &self.input).expect(&program);
        self.tally.compare(&(ours == rust), &true, || {
            let lines = first_difference(&ours, &rust);
            format!("{what}: {lines}, input {}", shown(bytes))
        });
        let printed = Printed::read(&rust).expect("a sheet");
        self.tally.compare(&printed.adds_up(), &true, || {
            format!(
                "{what}: the plain one's rows and {}: {}",
                printed.last,
                shown(bytes)
            )
        });
        self.kinds.count(bytes, &printed);
        rust
    }

    /// Compares, and looks whether the plain one's last line is this.
    pub fn print_last(&mut self, what: &str, bytes: &[u8], last: &str) {
        let rust = self.print(what, bytes);
        let line = lines(&rust).pop().unwrap_or_default();
        self.tally.compare(&(line == last.as_bytes()), &true, || {
            let input = shown(bytes);
            format!("{what}: the plain one does not end with {last:?}: {input}")
        });
    }

    /// The plain program prints what is stored for the cases whose inputs' names end so, and so does
    /// ours. A lead stands before each of the inputs, and as many lines as `unseen` are not stored.
    pub fn stored(&mut self, kind: &str, lead: &str, unseen: usize) {
        let names = fs::read_to_string(format!("{CASES}/stdin")).expect("a list of cases");
        let names: Vec<&str> = names.lines().collect();
        let mut found = 0;
        for names in names.chunks(2).filter(|names| names[0].ends_with(kind)) {
            let read = |name: &str| fs::read(format!("{CASES}/data/{name}")).expect(name);
            let input = [lead.as_bytes(), &read(names[0])].concat();
            let rust = self.print(names[0], &input);
            let seen = lines(&rust)[unseen..].concat();
            self.tally
                .compare(&(seen == read(names[1])), &true, || names[1].to_string());
            found += 1;
        }
        self.tally.owed("stored", &[(kind.to_string(), found)], 1);
    }
}
