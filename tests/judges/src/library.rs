//! The program that has the proved code (src/caller.c), its memory, and calls of its functions.
//!
//! Memory that a proved function is lent lies in that program, as columns: a test makes them, writes and reads
//! them. Around each column lie bytes that nothing may write, and `check_guards` sees that nothing has.
mod call;
mod column;

pub use call::Call;
pub use column::Column;

use std::io::{BufReader, BufWriter, Read, Write};
use std::process::{Child, ChildStdin, ChildStdout, Command, Stdio};

include!("functions.rs");

const ARGUMENTS: usize = 48;
const MOST_CALLS: usize = 4096;
const MOST_READS: usize = 256;
const ARENA: usize = 128 << 20;
const GUARD: usize = 64;
const GUARDED: u8 = 0xa5;

/// Kinds of questions.
const CALL: u64 = 1;
const READ: u64 = 2;
const WRITE: u64 = 3;
const KEEP_PARTS: u64 = 4;
const WRITE_PARTS: u64 = 5;
const READ_PARTS: u64 = 6;

pub struct Library {
    program: Child,
    input: BufWriter<ChildStdin>,
    output: BufReader<ChildStdout>,
    address: u64,
    used: usize,
    guards: Vec<usize>,
    /// Is there more in its memory than 0?
    used_before: bool,
}

/// Memory that columns can be read from: the program's, or what was read of it before.
pub trait Memory {
    fn read(&mut self, columns: &[Column]) -> Vec<Vec<u8>>;
}

impl Library {
    pub fn start() -> Library {
        let mut words = vec![env!("CALLER_LOADER"), "--library-path"];
        words.extend([env!("CALLER_LIBRARIES"), env!("CALLER")]);
        if !env!("CALLER_EMULATOR").is_empty() {
            words.insert(0, env!("CALLER_EMULATOR"));
        }
        // No variable of the environment reaches the emulator or the loader, so that none changes a run.
        let mut program = Command::new(words[0])
            .args(&words[1..])
            .env_clear()
            .stdin(Stdio::piped())
            .stdout(Stdio::piped())
            .spawn()
            .unwrap_or_else(|error| panic!("{} does not start: {error}", words[0]));
        let input = BufWriter::new(program.stdin.take().expect("its input is a pipe"));
        let output = BufReader::new(program.stdout.take().expect("its output is a pipe"));
        let mut library = Library {
            program,
            input,
            output,
            address: 0,
            used: 0,
            guards: Vec::new(),
            used_before: false,
        };
        library.address = library.answer();
        library
    }

    /// The same program without any columns, for the next who needs one: a new one has to translate all code anew.
    pub fn emptied(mut self) -> Library {
        self.check_guards();
        (self.used, self.used_before) = (0, true);
        self.guards.clear();
        self
    }

    /// A column of numbers, all 0.
    pub fn numbers(&mut self, len: usize) -> Column {
        self.column(len, 8)
    }

    /// A column of bytes, all 0.
    pub fn bytes(&mut self, len: usize) -> Column {
        self.column(len, 1)
    }

    fn column(&mut self, len: usize, size: usize) -> Column {
        let at = self.used + GUARD;
        let end = at + len * size;
        self.used = (end + GUARD).next_multiple_of(GUARD);
        assert!(self.used <= ARENA, "the arena of src/caller.c is too small");
        for guard in [at - GUARD, end] {
            self.put(guard, &[GUARDED; GUARD]);
            self.guards.push(guard);
        }
        if self.used_before {
            self.put(at, &vec![0; len * size]);
        }
        Column { at, len, size }
    }

    /// No function has written before or behind a column.
    pub fn check_guards(&mut self) {
        let guard = |at: &usize| Column {
            at: *at,
            len: GUARD,
            size: 1,
        };
        let guards: Vec<Column> = self.guards.iter().map(guard).collect();
        let kept = self.read(&guards).iter().all(|it| it == &[GUARDED; GUARD]);
        assert!(kept, "something was written outside what was lent");
    }

    pub fn read_bytes(&mut self, column: Column, from: usize, len: usize) -> Vec<u8> {
        assert_eq!(column.size, 1);
        assert!(
            from <= column.len && len <= column.len - from,
            "an answer points outside of its column: {len} bytes at {from}"
        );
        self.part(column.at + from, len)
    }

    pub fn read_numbers(&mut self, column: Column, len: usize) -> Vec<u64> {
        assert_eq!(column.size, 8);
        assert!(len <= column.len, "an answer is longer than its column");
        numbers(&self.part(column.at, len * 8))
    }

    pub fn write_bytes(&mut self, column: Column, bytes: &[u8]) {
        assert!(column.size == 1 && bytes.len() <= column.len);
        self.put(column.at, bytes);
    }

    /// These columns are the ones that `write_parts` and `ask_parts` mean, with all their bytes one after the other.
    pub fn keep_parts(&mut self, columns: &[Column]) {
        self.ask(&[KEEP_PARTS, columns.len() as u64]);
        for (from, to) in columns.iter().map(|column| column.span()) {
            self.ask(&[from as u64, (to - from) as u64]);
        }
    }

    pub fn write_parts(&mut self, parts: &[&[u8]]) {
        self.ask(&[WRITE_PARTS]);
        for bytes in parts {
            let sent = self.input.write_all(bytes);
            sent.expect("the program with the proved code has ended");
        }
    }

    /// Asks for the bytes of the parts, which `receive` takes.
    pub fn ask_parts(&mut self) {
        self.ask(&[READ_PARTS]);
    }

    /// The same byte everywhere in a column.
    pub fn fill(&mut self, column: Column, byte: u8) {
        self.put(column.at, &vec![byte; column.len * column.size]);
    }

    pub fn write_numbers(&mut self, column: Column, from: usize, numbers: &[u64]) {
        assert!(column.size == 8 && from + numbers.len() <= column.len);
        let bytes: Vec<u8> = numbers.iter().flat_map(|n| n.to_le_bytes()).collect();
        self.put(column.at + from * 8, &bytes);
    }

    /// Asks for the bytes of the columns, which `receive` takes in the same order.
    pub fn ask_for(&mut self, columns: &[Column]) {
        for column in columns {
            let len = column.len * column.size;
            self.ask(&[READ, column.at as u64, len as u64]);
        }
    }

    fn parts(&mut self, columns: &[Column]) -> Vec<Vec<u8>> {
        let part = |column: &Column| {
            let mut bytes = vec![0; column.len * column.size];
            self.receive(&mut bytes);
            bytes
        };
        columns.iter().map(part).collect()
    }

    fn part(&mut self, at: usize, len: usize) -> Vec<u8> {
        self.ask(&[READ, at as u64, len as u64]);
        self.flush();
        let mut bytes = vec![0; len];
        self.receive(&mut bytes);
        bytes
    }

    fn put(&mut self, at: usize, bytes: &[u8]) {
        self.ask(&[WRITE, at as u64, bytes.len() as u64]);
        let sent = self.input.write_all(bytes);
        sent.expect("the program with the proved code has ended");
    }

    /// The start of a call of that function of JUDGED.
    pub fn of(&self, function: &str) -> Call {
        self.start_of(0, JUDGED, function)
    }

    /// The start of a call of that function of BOUNDARY.
    pub fn of_boundary(&self, function: &str) -> Call {
        self.start_of(JUDGED.len(), BOUNDARY, function)
    }

    /// The function is one of those that stand from `first` on in the table.
    fn start_of(&self, first: usize, names: &[&str], function: &str) -> Call {
        let place = names.iter().position(|name| *name == function);
        let mut words = [0; 1 + ARGUMENTS];
        words[0] = (first + place.unwrap_or_else(|| panic!("no function {function}"))) as u64;
        Call {
            words,
            next: 1,
            address: self.address,
        }
    }

    pub fn call(&mut self, call: Call) -> u64 {
        self.calls(&[call])[0]
    }

    /// What a call answered, and the bytes of each of the columns after it, in one exchange.
    pub fn call_and_read(&mut self, call: Call, columns: &[Column]) -> (u64, Vec<Vec<u8>>) {
        self.ask_call(call);
        self.ask_for(columns);
        self.flush();
        let answer = self.answer();
        (answer, self.parts(columns))
    }

    /// Asks for a call, and leaves it to later to take its answer. What is asked and not taken has to fit the pipes.
    pub fn ask_call(&mut self, call: Call) {
        self.ask(&[CALL, 1]);
        self.ask(&call.words);
    }

    /// Calls in turn, and what each answered.
    pub fn calls(&mut self, calls: &[Call]) -> Vec<u64> {
        let mut answers = Vec::with_capacity(calls.len());
        for part in calls.chunks(MOST_CALLS) {
            self.ask(&[CALL, part.len() as u64]);
            for call in part {
                self.ask(&call.words);
            }
            self.flush();
            for _ in part {
                answers.push(self.answer());
            }
        }
        answers
    }

    fn ask(&mut self, words: &[u64]) {
        for word in words {
            let sent = self.input.write_all(&word.to_le_bytes());
            sent.expect("the program with the proved code has ended");
        }
    }

    pub fn flush(&mut self) {
        let sent = self.input.flush();
        sent.expect("the program with the proved code has ended");
    }

    pub fn answer(&mut self) -> u64 {
        let mut word = [0; 8];
        self.receive(&mut word);
        u64::from_le_bytes(word)
    }

    pub fn receive(&mut self, bytes: &mut [u8]) {
        let received = self.output.read_exact(bytes);
        received.expect("the program with the proved code has ended");
    }
}

impl Memory for Library {
    /// The bytes of each of the columns, in few exchanges. Of more questions than the pipe has room for the program
    /// would not read the last before its answers to the first are read.
    fn read(&mut self, columns: &[Column]) -> Vec<Vec<u8>> {
        let mut bytes = Vec::with_capacity(columns.len());
        for some in columns.chunks(MOST_READS) {
            self.ask_for(some);
            self.flush();
            bytes.extend(self.parts(some));
        }
        bytes
    }
}

impl Drop for Library {
    /// In the end nothing was written outside what was lent. Ends the program; that it has ended already, as after a
    /// failure, is no fault here.
    fn drop(&mut self) {
        if !std::thread::panicking() {
            self.check_guards();
        }
        let _ = self.program.kill();
        let _ = self.program.wait();
    }
}

/// The numbers that stand in bytes, the lowest byte first.
pub fn numbers(bytes: &[u8]) -> Vec<u64> {
    let words = bytes.chunks_exact(8);
    let number = |word: &[u8]| u64::from_le_bytes(word.try_into().expect("8 bytes"));
    words.map(number).collect()
}

/// An answer that is a bool: only its lowest byte is set.
pub fn truth(answer: u64) -> bool {
    match answer & 0xff {
        0 => false,
        1 => true,
        other => panic!("a bool is neither 0 nor 1 but {other}"),
    }
}
