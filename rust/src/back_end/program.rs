//! The program that has the proved code, for a machine that cannot run it itself: tests/judges/src/caller.c, which says
//! what it can be asked.
use std::io::{BufReader, BufWriter, Read, Result, Write};
use std::process::{Child, ChildStdin, ChildStdout, Command, Stdio};

/// The bytes of the program's arena, and the arguments of a call: numbers of the program's own.
pub const ARENA: usize = 128 << 20;
pub const ARGUMENTS: usize = 48;

/// Kinds of questions.
const CALL: u64 = 1;
const READ: u64 = 2;
const WRITE: u64 = 3;

pub struct Program {
    child: Child,
    input: BufWriter<ChildStdin>,
    output: BufReader<ChildStdout>,
    /// Where the arena starts.
    address: u64,
}

/// A call of a function, put together argument by argument.
pub struct Call {
    words: [u64; 1 + ARGUMENTS],
    next: usize,
    address: u64,
}

impl Program {
    pub fn start() -> Result<Program> {
        let mut words = env!("TAGSHARDS_PROGRAM").split('\t');
        let mut command = Command::new(words.next().unwrap_or_default());
        // No variable of the environment reaches the emulator or the loader, so that none changes a run.
        let command = command.args(words).env_clear();
        let command = command.stdin(Stdio::piped()).stdout(Stdio::piped());
        let mut child = command.spawn()?;
        let (Some(input), Some(output)) = (child.stdin.take(), child.stdout.take()) else {
            return Err(std::io::ErrorKind::BrokenPipe.into());
        };
        let mut program = Program {
            child,
            input: BufWriter::new(input),
            output: BufReader::new(output),
            address: 0,
        };
        program.address = program.word()?;
        Ok(program)
    }

    /// The start of a call of that function of build.rs's list.
    pub fn of(&self, function: u64) -> Call {
        let mut words = [0; 1 + ARGUMENTS];
        words[0] = function;
        Call {
            words,
            next: 1,
            address: self.address,
        }
    }

    pub fn write(&mut self, at: usize, bytes: &[u8]) -> Result<()> {
        self.ask(&[WRITE, at as u64, bytes.len() as u64])?;
        self.input.write_all(bytes)
    }

    /// Asks for a call. Its answer is the next `word`.
    pub fn call(&mut self, call: &Call) -> Result<()> {
        self.ask(&[CALL, 1])?;
        self.ask(&call.words)
    }

    /// Asks for bytes of the arena. They are the next that `take` takes.
    pub fn read(&mut self, at: usize, length: usize) -> Result<()> {
        self.ask(&[READ, at as u64, length as u64])
    }

    /// Sends off what was asked. Then the answers are to be taken, in order.
    pub fn flush(&mut self) -> Result<()> {
        self.input.flush()
    }

    pub fn take(&mut self, bytes: &mut [u8]) -> Result<()> {
        self.output.read_exact(bytes)
    }

    pub fn word(&mut self) -> Result<u64> {
        let mut word = [0; 8];
        self.take(&mut word)?;
        Ok(u64::from_le_bytes(word))
    }

    pub fn words(&mut self, words: &mut [u64]) -> Result<()> {
        for word in words {
            *word = self.word()?;
        }
        Ok(())
    }

    fn ask(&mut self, words: &[u64]) -> Result<()> {
        for word in words {
            self.input.write_all(&word.to_le_bytes())?;
        }
        Ok(())
    }
}

impl Program {
    /// Ends the program. That it has ended already is no fault here.
    pub fn end(&mut self) {
        let _ = self.child.kill();
        let _ = self.child.wait();
    }
}

impl Drop for Program {
    fn drop(&mut self) {
        self.end();
    }
}

impl Call {
    /// No function has more arguments than there is room for, so none is left out.
    pub fn number(mut self, number: u64) -> Call {
        if let Some(word) = self.words.get_mut(self.next) {
            *word = number;
            self.next += 1;
        }
        self
    }

    pub fn count(self, count: usize) -> Call {
        self.number(count as u64)
    }

    /// A slice: where it starts in the arena, and how many elements it has.
    pub fn slice(self, at: usize, length: usize) -> Call {
        let address = self.address.wrapping_add(at as u64);
        self.number(address).count(length)
    }
}
