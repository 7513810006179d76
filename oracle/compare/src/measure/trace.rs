//! The bytes that a piece of work stores, from valgrind's trace of its instructions, loads and stores.
use std::io::{self, BufRead, BufReader, Read, Write};
use std::ops::Range;
use std::process::{Command, Stdio};
use std::sync::OnceLock;
use std::sync::atomic::{AtomicU64, Ordering};
use std::{env, fs, thread};

/// What is stored to where a piece of work begins and where it ends.
static MARK: AtomicU64 = AtomicU64::new(0);

/// What a piece of work did.
#[derive(Clone, Copy, Default)]
pub struct Stored {
    /// Stretches of instructions outside the program that load what they store: calls of `memcpy` and
    /// `memmove`.
    pub copies: usize,
    /// The bytes that these stored.
    pub copied: usize,
    /// The bytes stored by all instructions, and by how many.
    pub stored: usize,
    pub instructions: usize,
}

// ---- the program that is traced

/// Tells the other program where the mark and the instructions are, and waits until it knows.
pub fn ready() -> Result<(), String> {
    let failed = |error: io::Error| format!("the trace: {error}");
    let Range { start, end } = text().map_err(failed)?;
    println!("{:x} {start:x} {end:x}", MARK.as_ptr().addr());
    io::stdin().read_exact(&mut [0]).map_err(failed)
}

/// Does a piece of work between marks.
pub fn marked(work: impl FnOnce()) {
    MARK.fetch_add(1, Ordering::SeqCst);
    work();
    MARK.fetch_add(1, Ordering::SeqCst);
}

/// Where this program's own instructions are.
fn text() -> io::Result<Range<u64>> {
    let own = env::current_exe()?;
    let maps = fs::read_to_string("/proc/self/maps")?;
    let own = maps.lines().filter(|line| line.ends_with(&*own.to_string_lossy()));
    let ends: Vec<u64> = own
        .flat_map(|line| line.split([' ', '-']).take(2))
        .filter_map(|word| u64::from_str_radix(word, 16).ok())
        .collect();
    let wrong = || io::Error::other("the program is not among its own maps");
    let (low, high) = (ends.iter().min().ok_or_else(wrong)?, ends.iter().max());
    Ok(*low..*high.ok_or_else(wrong)?)
}

// ---- the one that reads the trace

/// What the pieces of work did between marks in this program, started with these words; none where there is
/// no valgrind.
pub fn traced(words: &[&str]) -> Result<Option<Vec<Stored>>, String> {
    let failed = |error: io::Error| format!("the trace: {error}");
    let mut command = Command::new("valgrind");
    command.args(["--tool=lackey", "--trace-mem=yes"]).arg(env::current_exe().map_err(failed)?);
    command.args(words).stdin(Stdio::piped()).stdout(Stdio::piped()).stderr(Stdio::piped());
    let mut child = match command.spawn() {
        Err(error) if error.kind() == io::ErrorKind::NotFound => return Ok(None),
        child => child.map_err(failed)?,
    };
    let pipes = (child.stdin.take(), child.stdout.take(), child.stderr.take());
    let (Some(mut stdin), Some(stdout), Some(stderr)) = pipes else {
        return Err("the trace: no pipe".to_owned());
    };
    let told = OnceLock::new();
    let done = thread::scope(|scope| {
        scope.spawn(|| {
            let mut line = String::new();
            BufReader::new(stdout).read_line(&mut line)?;
            told.get_or_init(|| line);
            stdin.write_all(b"\n")
        });
        read(stderr, &told)
    });
    if !child.wait().map_err(failed)?.success() {
        return Err(format!("the trace: {} ended with a failure", words.join(" ")));
    }
    done.map(Some).map_err(failed)
}

/// Reads a trace to its end. What stands in it before the program has told is not looked at.
fn read(trace: impl Read, told: &OnceLock<String>) -> io::Result<Vec<Stored>> {
    let mut trace = BufReader::new(trace);
    let (mut line, mut reader) = (Vec::new(), None);
    while trace.read_until(b'\n', &mut line)? > 0 {
        if reader.is_none() {
            reader = told.get().and_then(|told| Reader::new(told));
        }
        if let Some(reader) = &mut reader {
            reader.take(&line);
        }
        line.clear();
    }
    Ok(reader.map_or_else(Vec::new, |reader| reader.done))
}

struct Reader {
    mark: u64,
    text: Range<u64>,
    /// Between marks, what was done so far.
    current: Option<Stored>,
    /// Outside the program, what is loaded and stored there.
    outside: Option<Outside>,
    done: Vec<Stored>,
}

#[derive(Default)]
struct Outside {
    loaded: usize,
    stored: Vec<Range<u64>>,
}

impl Outside {
    /// The bytes loaded, and the bytes stored, each of these counted once.
    fn bytes(mut self) -> (usize, usize) {
        self.stored.sort_by_key(|bytes| bytes.start);
        let mut end = 0;
        let new = |bytes: &Range<u64>| {
            let new = bytes.end.saturating_sub(bytes.start.max(end));
            end = end.max(bytes.end);
            new as usize
        };
        (self.loaded, self.stored.iter().map(new).sum())
    }
}

impl Reader {
    fn new(told: &str) -> Option<Self> {
        let mut numbers = told.split_whitespace().map(|word| u64::from_str_radix(word, 16).ok());
        let mut next = || numbers.next().flatten();
        let (mark, text) = (next()?, next()?..next()?);
        Some(Self { mark, text, current: None, outside: None, done: Vec::new() })
    }

    /// A line: `I  ADDRESS,SIZE` for an instruction, ` L`, ` S` or ` M` for what it loads, stores or both.
    fn take(&mut self, line: &[u8]) {
        let Some((kind, address, size)) = parsed(line) else { return };
        match kind {
            b'I' => self.instruction(address),
            b'L' => self.load(size),
            b'S' => self.store(address, size),
            _ if address == self.mark => self.marked(),
            _ => {
                self.load(size);
                self.store(address, size);
            }
        }
    }

    fn instruction(&mut self, address: u64) {
        let Some(current) = &mut self.current else { return };
        current.instructions += 1;
        if !self.text.contains(&address) {
            self.outside.get_or_insert_default();
            return;
        }
        if let Some((loaded, stored)) = self.outside.take().map(Outside::bytes)
            && (1..=loaded).contains(&stored)
        {
            current.copies += 1;
            current.copied += stored;
        }
    }

    fn load(&mut self, size: u64) {
        if let Some(outside) = &mut self.outside {
            outside.loaded += size as usize;
        }
    }

    fn store(&mut self, address: u64, size: u64) {
        let Some(current) = &mut self.current else { return };
        current.stored += size as usize;
        if let Some(outside) = &mut self.outside {
            outside.stored.push(address..address + size);
        }
    }

    fn marked(&mut self) {
        match self.current.take() {
            None => self.current = Some(Stored::default()),
            Some(stored) => self.done.push(stored),
        }
        self.outside = None;
    }
}

fn parsed(line: &[u8]) -> Option<(u8, u64, u64)> {
    let line = str::from_utf8(line).ok()?.trim();
    let (kind, rest) = line.split_at_checked(1)?;
    let kind = kind.bytes().next().filter(|kind| b"ILSM".contains(kind))?;
    let (address, size) = rest.trim_start().split_once(',')?;
    Some((kind, u64::from_str_radix(address, 16).ok()?, size.parse().ok()?))
}
