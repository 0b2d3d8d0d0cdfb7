//! Times the C entry beside the reference program, both in this process, on the same sheets in turn.
//! `bench NAME=FILE[:WORD]..`: a file has sheets as `tillrun` reads them; those before a line `---` are played untimed, and
//! with a word only the sheets that begin with it are timed. Times are of the calls alone. In the place of a sheet `:close`
//! writes the till as text into a buffer, `:open` with a text after it opens that, and `:start` makes the till empty;
//! answers and buffers are compared.
//! `bench --once NAME=FILE[:WORD]` plays a list once on each side and prints how many sheets are timed; these go through
//! `timed_proved` and `timed_reference`, the other calls through `timed_proved_text` and `timed_reference_text`, where a
//! counter of instructions can be switched on.

#[path = "../tests/reference/till.rs"]
mod till;

use std::time::{Duration, Instant};
use till::saved::MAX_TEXT;
use till::{Answer, Till};

extern "C" {
    fn till_start(till: *mut u32);
    fn till_call(till: *mut u32, sheet: *const u8, length: usize, scratch: *mut u32, answer: *mut u32);
    fn till_close(till: *const u32, buffer: *mut u8, length: usize, answer: *mut u32);
    fn till_open(till: *mut u32, spare: *mut u32, text: *const u8, length: usize, answer: *mut u32);
}

/// The number of turns, of which each side's fastest counts.
const TURNS: usize = 21;
/// How long one turn of one side lasts, about.
const TURN: Duration = Duration::from_millis(10);
/// The buffer lent to closing: some bytes more than the longest text, which have to stay.
const BUFFER: usize = MAX_TEXT + 64;
const NUMBERS: usize = 45677; // TILL_NUMBERS
/// How a start, a closing, and an opening before its text, stand in a list.
const START: &[u8] = b":start\n";
const CLOSE: &[u8] = b":close\n";
const OPEN: &[u8] = b":open\n";

/// A list of sheets from an empty till, which of them are timed, and which are a start, a closing or an opening.
struct List {
    name: String,
    sheets: Vec<Vec<u8>>,
    timed: Vec<bool>,
    texts: Vec<bool>,
}

impl List {
    fn timed(&self) -> u64 {
        self.timed.iter().filter(|timed| **timed).count() as u64
    }

    /// The end of the calls from one on that are timed, and sheets or not, as that one is.
    fn alike(&self, at: usize) -> usize {
        let same = |&n: &usize| self.timed[n] == self.timed[at] && self.texts[n] == self.texts[at];
        at + (at..self.sheets.len()).take_while(same).count()
    }
}

/// One of the two programs, with its till and its buffer.
trait Side {
    /// An empty till, and a buffer of which no byte is written.
    fn start(&mut self);
    fn call(&mut self, sheet: &[u8]) -> [u32; 4];
    /// A start, a closing or an opening.
    fn text(&mut self, call: &[u8]) -> [u32; 4];
    /// The same calls, by another way, so that they can be told from those that are not timed.
    fn timed(&mut self, sheet: &[u8]) -> [u32; 4];
    fn timed_text(&mut self, call: &[u8]) -> [u32; 4];
}

struct Proved {
    block: [u32; NUMBERS],
    spare: [u32; NUMBERS],
    scratch: [u32; 2048],
    buffer: [u8; BUFFER],
}

impl Side for Proved {
    fn start(&mut self) {
        self.buffer.fill(0xA5);
        unsafe { till_start(self.block.as_mut_ptr()) }
    }

    fn call(&mut self, sheet: &[u8]) -> [u32; 4] {
        let (mut answer, at, length) = ([0; 4], sheet.as_ptr(), sheet.len());
        unsafe { till_call(self.block.as_mut_ptr(), at, length, self.scratch.as_mut_ptr(), answer.as_mut_ptr()) };
        answer
    }

    fn text(&mut self, call: &[u8]) -> [u32; 4] {
        let (mut answer, block) = ([0; 4], self.block.as_mut_ptr());
        if call == START {
            unsafe { till_start(block) };
        } else if call == CLOSE {
            unsafe { till_close(block, self.buffer.as_mut_ptr(), BUFFER, answer.as_mut_ptr()) };
        } else {
            let text = &call[OPEN.len()..];
            unsafe { till_open(block, self.spare.as_mut_ptr(), text.as_ptr(), text.len(), answer.as_mut_ptr()) };
        }
        answer
    }

    fn timed(&mut self, sheet: &[u8]) -> [u32; 4] {
        timed_proved(self, sheet)
    }

    fn timed_text(&mut self, call: &[u8]) -> [u32; 4] {
        timed_proved_text(self, call)
    }
}

struct Reference {
    till: Till,
    buffer: [u8; BUFFER],
}

impl Side for Reference {
    fn start(&mut self) {
        self.buffer.fill(0xA5);
        self.till = Till::new();
    }

    fn call(&mut self, sheet: &[u8]) -> [u32; 4] {
        match self.till.call(sheet) {
            Answer::Done(n) => [1, n, 0, 0],
            Answer::Counted(open, shut, placed) => [3, open, shut, placed],
            Answer::Refused(number, step) => [0, number, step, 0],
        }
    }

    fn text(&mut self, call: &[u8]) -> [u32; 4] {
        let done = if call == START {
            self.till = Till::new();
            return [0; 4];
        } else if call == CLOSE {
            self.till.close(&mut self.buffer)
        } else {
            self.till.reopen(&call[OPEN.len()..])
        };
        match done {
            Ok(length) => [1, length as u32, 0, 0],
            Err(number) => [0, number, 0, 0],
        }
    }

    fn timed(&mut self, sheet: &[u8]) -> [u32; 4] {
        timed_reference(self, sheet)
    }

    fn timed_text(&mut self, call: &[u8]) -> [u32; 4] {
        timed_reference_text(self, call)
    }
}

#[inline(never)]
#[no_mangle]
fn timed_proved(side: &mut Proved, sheet: &[u8]) -> [u32; 4] {
    side.call(sheet)
}

#[inline(never)]
#[no_mangle]
fn timed_reference(side: &mut Reference, sheet: &[u8]) -> [u32; 4] {
    side.call(sheet)
}

#[inline(never)]
#[no_mangle]
fn timed_proved_text(side: &mut Proved, call: &[u8]) -> [u32; 4] {
    side.text(call)
}

#[inline(never)]
#[no_mangle]
fn timed_reference_text(side: &mut Reference, call: &[u8]) -> [u32; 4] {
    side.text(call)
}

/// The sheets of an input, as the paper parts them, and how many stand before the line `---`.
fn sheets(input: &[u8]) -> (Vec<Vec<u8>>, usize) {
    let (mut all, mut sheet, mut before) = (vec![], vec![], 0);
    for line in input.split_inclusive(|&b| b == b'\n') {
        match line {
            b"---\n" => before = all.len(),
            b"\n" => all.push(std::mem::take(&mut sheet)),
            _ => sheet.extend_from_slice(line),
        }
    }
    if !sheet.is_empty() {
        all.push(sheet);
    }
    (all, before)
}

/// A list of the command line, `NAME=FILE[:WORD]`.
fn list(word: &str) -> List {
    let (name, rest) = word.split_once('=').expect("NAME=FILE[:WORD]");
    let (file, begins) = rest.split_once(':').unwrap_or((rest, ""));
    let (sheets, before) = sheets(&std::fs::read(file).expect("a file of sheets"));
    let timed = sheets.iter().enumerate().map(|(n, s)| n >= before && s.starts_with(begins.as_bytes())).collect();
    let texts = sheets.iter().map(|s| s == START || s == CLOSE || s.starts_with(OPEN)).collect();
    List { name: name.to_string(), sheets, timed, texts }
}

/// One play of a list: the nanoseconds of the timed calls, those in a row read from the clock together, and the answers.
fn play(list: &List, side: &mut impl Side, out: &mut Vec<[u32; 4]>) -> u64 {
    let (mut sum, mut at) = (0, 0);
    out.clear();
    out.reserve(list.sheets.len());
    side.start();
    while at < list.sheets.len() {
        let (timed, text, end) = (list.timed[at], list.texts[at], list.alike(at));
        let begin = Instant::now();
        if text {
            out.extend(list.sheets[at..end].iter().map(|s| if timed { side.timed_text(s) } else { side.text(s) }));
        } else {
            for sheet in &list.sheets[at..end] {
                out.push(if timed { side.timed(sheet) } else { side.call(sheet) });
            }
        }
        sum += if timed { begin.elapsed().as_nanos() as u64 } else { 0 };
        at = end;
    }
    sum
}

/// Nanoseconds of a timed call on either side, in turn, the least of each.
fn measure(list: &List, proved: &mut Proved, reference: &mut Reference) -> (f64, f64) {
    let (mut ours, mut theirs, mut best, mut best_theirs) = (vec![], vec![], u64::MAX, u64::MAX);
    let begin = Instant::now();
    play(list, reference, &mut theirs);
    let plays = 1 + (TURN.as_nanos() / (1 + begin.elapsed().as_nanos())) as u64;
    for _ in 0..TURNS {
        best = best.min((0..plays).map(|_| play(list, proved, &mut ours)).sum());
        best_theirs = best_theirs.min((0..plays).map(|_| play(list, reference, &mut theirs)).sum());
        assert!(ours == theirs, "{}: the answers differ", list.name);
        assert!(proved.buffer == reference.buffer, "{}: the texts differ", list.name);
    }
    let calls = (list.timed() * plays) as f64;
    (best as f64 / calls, best_theirs as f64 / calls)
}

fn line(name: &str, ours: f64, theirs: f64) -> String {
    format!("{name:20} {ours:9.0} ns {theirs:9.0} ns  ratio {:4.2}", ours / theirs)
}

/// Several lists as one line.
#[derive(Default)]
struct Together {
    ours: f64,
    theirs: f64,
}

impl Together {
    fn add(&mut self, ours: f64, theirs: f64) {
        self.ours += ours;
        self.theirs += theirs;
    }

    fn print(&self, name: &str) {
        if self.theirs > 0.0 {
            println!("{}", line(name, self.ours, self.theirs));
        }
    }
}

fn main() {
    let mut proved =
        Box::new(Proved { block: [0; NUMBERS], spare: [0; NUMBERS], scratch: [0; 2048], buffer: [0; BUFFER] });
    let mut reference = Box::new(Reference { till: Till::new(), buffer: [0; BUFFER] });
    let words: Vec<String> = std::env::args().skip(1).collect();
    if words[0] == "--once" {
        let list = list(&words[1]);
        play(&list, &mut *proved, &mut vec![]);
        play(&list, &mut *reference, &mut vec![]);
        println!("{}", list.timed());
        return;
    }
    let (mut mix, mut refused) = (Together::default(), Together::default());
    for word in words {
        let list = list(&word);
        let (ours, theirs) = measure(&list, &mut proved, &mut reference);
        if list.name.starts_with("mix") {
            let sheets = list.timed() as f64;
            mix.add(ours * sheets, theirs * sheets);
            continue;
        }
        println!("{}", line(&list.name, ours, theirs));
        if list.name.starts_with("refused") {
            refused.add(ours, theirs);
        }
    }
    refused.print("refused_each_once");
    mix.print("mix");
}
