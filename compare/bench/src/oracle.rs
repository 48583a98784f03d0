//! The oracles' programs, asked through pipes (docs/ORACLE.md).
use crate::alike::{Zeros, alike, zeros_of_rust};
use crate::folders::{Entry, Outcome};
use crate::records::limit;
use std::io::{BufRead, BufReader, Write};
use std::process::{Child, ChildStdin, ChildStdout, Command, Stdio};
use std::thread;

/// What folders are held to on an input.
#[derive(Clone, Debug)]
pub struct Held {
    fold: Said,
    swept: Said,
    pub yardstick: Yardstick,
}

impl Held {
    /// By an oracle's line.
    fn parse(line: &str, input: &[u8], yardstick: Yardstick) -> Held {
        let fields: Vec<&str> = line.trim_end().split(' ').collect();
        let said = |bytes: usize| Said::parse(&fields, bytes, input);
        Held {
            fold: said(3),
            swept: said(4),
            yardstick,
        }
    }

    /// What is said of an entry.
    pub fn said(&self, entry: Entry) -> &Said {
        match entry {
            Entry::Fold => &self.fold,
            Entry::FoldSwept => &self.swept,
        }
    }

    fn agrees(&self, other: &Held) -> bool {
        self.fold.agrees(&other.fold) && self.swept.agrees(&other.swept)
    }
}

/// What an oracle says of an entry on an input, for a buffer of any length.
#[derive(Clone, Debug)]
pub enum Said {
    Refused {
        number: u8,
        place: usize,
    },
    Answer {
        pops: usize,
        wires: u64,
        bytes: Vec<u8>,
        /// Whether no single run showed the order of the wires.
        bag: bool,
        zeros: Zeros,
    },
}

impl Said {
    /// Of the fields of a line, with the number of the one that has the bytes.
    fn parse(fields: &[&str], bytes: usize, input: &[u8]) -> Said {
        let number = |i: usize| fields[i].parse::<u64>().expect("a number");
        match fields[0] {
            "invalid" => Said::Refused {
                number: number(1) as u8,
                place: number(2) as usize,
            },
            "diverges" | "dangles" => Said::Refused {
                number: 9,
                place: number(2) as usize,
            },
            word @ ("answer" | "bag") => Said::Answer {
                pops: number(1) as usize,
                wires: number(2),
                bytes: unhex(fields[bytes]),
                bag: word == "bag",
                zeros: zeros_of_rust(input),
            },
            other => panic!("the oracle says {other}"),
        }
    }

    /// The outcome for a buffer of this length, and the answer's bytes.
    pub fn wanted(&self, buffer: usize) -> (Outcome, &[u8]) {
        match self {
            Said::Refused { number, place } => (Outcome::refused(*number, *place), &[]),
            Said::Answer { wires, bytes, .. }
                if *wires > limit::ANSWER_WIRES as u64 || bytes.len() > buffer =>
            {
                (Outcome::refused(10, 0), &[])
            }
            Said::Answer { pops, bytes, .. } => (Outcome::folded(bytes.len(), *pops), bytes),
        }
    }

    /// How long a buffer must be for the answer, where there is one.
    pub fn needed(&self) -> Option<usize> {
        match self {
            Said::Answer { wires, bytes, .. } if *wires <= limit::ANSWER_WIRES as u64 => {
                Some(bytes.len())
            }
            _ => None,
        }
    }

    /// Whether another oracle says the same for every length of buffer, but for what counts alike.
    fn agrees(&self, other: &Said) -> bool {
        let (outcome, bytes) = self.wanted(usize::MAX);
        let (other, other_bytes) = other.wanted(usize::MAX);
        outcome == other && alike(bytes, other_bytes, self.zeros())
    }

    pub fn is_bag(&self) -> bool {
        matches!(self, Said::Answer { bag: true, .. })
    }

    pub fn zeros(&self) -> Zeros {
        match self {
            Said::Answer { zeros, .. } => *zeros,
            Said::Refused { .. } => Zeros::Signed,
        }
    }

    /// The same answer with the zeros of these bytes, each with its sign.
    pub fn signed(&self, signed: Vec<u8>) -> Said {
        let mut said = self.clone();
        if let Said::Answer { bytes, zeros, .. } = &mut said {
            (*bytes, *zeros) = (signed, Zeros::Signed);
        }
        said
    }
}

fn unhex(digits: &str) -> Vec<u8> {
    let digit = |d: u8| (d as char).to_digit(16).expect("a hex digit") as u8;
    let pairs = digits.trim_start_matches('-').as_bytes().as_chunks::<2>().0;
    let bytes = pairs
        .iter()
        .map(|&[high, low]| 16 * digit(high) + digit(low));
    bytes.collect()
}

/// Which oracle folders are held to on an input.
#[derive(Clone, Copy, Debug, PartialEq, Eq)]
pub enum Yardstick {
    /// The Rust as it is.
    Original,
    /// The one in which every Int that some f64 equals becomes a float, where it says something else.
    Exact,
}

/// The original and the exact oracle, asked side by side.
pub struct Oracles {
    original: Oracle,
    exact: Oracle,
}

impl Oracles {
    /// Of the programs of both.
    pub fn start([original, exact]: &[String; 2]) -> Oracles {
        Oracles {
            original: Oracle::start(original),
            exact: Oracle::start(exact),
        }
    }

    /// What folders are held to on each input of a batch. Where an oracle ends before its time, the number of the input
    /// that it ends on.
    pub fn ask(&mut self, inputs: &[&[u8]]) -> Result<Vec<Held>, usize> {
        let mut batch = Vec::new();
        for input in inputs {
            batch.extend((input.len() as u32).to_le_bytes());
            batch.extend(*input);
        }
        let (original, exact) = self.lines(&batch, inputs.len())?;
        let lines = original.iter().zip(&exact);
        let held = inputs.iter().zip(lines);
        let held = held.map(|(input, (original, exact))| held_to(input, original, exact));
        Ok(held.collect())
    }

    /// The lines of both on a batch of so many inputs, or the first input that one ends on.
    fn lines(&mut self, batch: &[u8], count: usize) -> Result<(Vec<String>, Vec<String>), usize> {
        let Oracles { original, exact } = self;
        let both = thread::scope(|scope| {
            let exact = scope.spawn(|| exact.lines(batch, count));
            let original = original.lines(batch, count);
            (original, exact.join().expect("it does not panic"))
        });
        match both {
            (Ok(original), Ok(exact)) => Ok((original, exact)),
            (Err(at), Ok(_)) | (Ok(_), Err(at)) => Err(at),
            (Err(at), Err(other)) => Err(at.min(other)),
        }
    }

    pub fn ask_one(&mut self, input: &[u8]) -> Option<Held> {
        self.ask(&[input]).ok()?.pop()
    }
}

/// What folders are held to on an input, of both oracles' lines.
fn held_to(input: &[u8], original: &str, exact: &str) -> Held {
    let held = Held::parse(original, input, Yardstick::Original);
    if original == exact {
        return held;
    }
    let exact = Held::parse(exact, input, Yardstick::Exact);
    match held.agrees(&exact) {
        true => held,
        false => exact,
    }
}

/// The program of one oracle.
struct Oracle {
    child: Child,
    stdin: ChildStdin,
    stdout: BufReader<ChildStdout>,
}

impl Oracle {
    fn start(program: &str) -> Oracle {
        let mut child = Command::new(program)
            .stdin(Stdio::piped())
            .stdout(Stdio::piped())
            .spawn()
            .expect("the oracle runs");
        Oracle {
            stdin: child.stdin.take().expect("piped"),
            stdout: BufReader::new(child.stdout.take().expect("piped")),
            child,
        }
    }

    /// The lines on a batch of so many inputs. Where the oracle ends before its time, the number of the input that it
    /// ends on.
    fn lines(&mut self, batch: &[u8], count: usize) -> Result<Vec<String>, usize> {
        let (stdin, stdout) = (&mut self.stdin, &mut self.stdout);
        thread::scope(|scope| {
            // Where the oracle has ended, writing fails, and reading says so.
            scope.spawn(move || _ = stdin.write_all(batch).and_then(|()| stdin.flush()));
            let mut lines = Vec::with_capacity(count);
            while lines.len() < count {
                let mut line = String::new();
                match stdout.read_line(&mut line) {
                    Ok(1..) => lines.push(line),
                    _ => return Err(lines.len()),
                }
            }
            Ok(lines)
        })
    }
}

impl Drop for Oracle {
    fn drop(&mut self) {
        _ = self.child.kill();
        _ = self.child.wait();
    }
}
