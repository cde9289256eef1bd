//! The boundary to other implementations: whoever implements one of these traits can be compared.

use crate::field::{self, Field, Reading};
use crate::replay;
use crate::store::{Answer, Buffers, Call, ManyAnswer, ManyReads, Part};
use std::io::{self, Read, Write};
use std::process::{Child, Command, Stdio};
use std::thread;

/// A replay: from input bytes to the text it prints.
pub trait Replayer {
    fn name(&self) -> String;
    fn replay(&mut self, input: &[u8]) -> io::Result<Vec<u8>>;
}

/// A store: one call, many reads in one, or a load, on lent buffers, which it changes in place. `Part` is a peek's part, and `Empty` for other calls.
/// The new table of a load must stay as it is.
pub trait Store {
    fn name(&self) -> String;
    fn call(&mut self, buffers: &mut Buffers, call: Call) -> (Answer, Part);
    fn read_many(&mut self, buffers: &mut Buffers, many: &mut ManyReads) -> ManyAnswer;
    fn load_caps(&mut self, buffers: &mut Buffers, new_caps: &mut [u32]) -> Answer;
}

/// A field reader and writer.
pub trait Fields {
    fn name(&self) -> String;
    fn read(&mut self, bytes: &[u8], place: usize) -> Reading;
    fn write(&mut self, target: &mut [u8], field: &Field) -> (u32, usize);
}

/// This library's own reading of document 01.
pub struct Reference;

impl Replayer for Reference {
    fn name(&self) -> String {
        "reference".to_string()
    }

    fn replay(&mut self, input: &[u8]) -> io::Result<Vec<u8>> {
        Ok(replay::replay(input))
    }
}

impl Store for Reference {
    fn name(&self) -> String {
        "reference".to_string()
    }

    fn call(&mut self, buffers: &mut Buffers, call: Call) -> (Answer, Part) {
        let answer = buffers.call(call);
        let part = match call {
            Call::Peek { session, cell } => located(buffers, buffers.peek(session, cell)),
            _ => Part::Empty,
        };
        (answer, part)
    }

    fn read_many(&mut self, buffers: &mut Buffers, many: &mut ManyReads) -> ManyAnswer {
        let cells = many.cells.clone();
        buffers.read_many(many.session, &cells, many.target())
    }

    fn load_caps(&mut self, buffers: &mut Buffers, new_caps: &mut [u32]) -> Answer {
        buffers.load_caps(new_caps)
    }
}

impl Fields for Reference {
    fn name(&self) -> String {
        "reference".to_string()
    }

    fn read(&mut self, bytes: &[u8], place: usize) -> Reading {
        field::read_field(bytes, place)
    }

    fn write(&mut self, target: &mut [u8], field: &Field) -> (u32, usize) {
        field::write_field(target, field)
    }
}

/// The buffer that a part is of, by its address; a part of another length or of no lent buffer is a fault.
pub fn located(buffers: &Buffers, part: &[u32]) -> Part {
    if part.is_empty() {
        return Part::Empty;
    }
    assert_eq!(part.len(), 1, "a peek's part is one word long");
    let index_in = |buffer: &[u32]| buffer.iter().position(|word| std::ptr::eq(word, &part[0]));
    match (index_in(&buffers.values), index_in(&buffers.logs)) {
        (Some(index), _) => Part::Value(index),
        (_, Some(index)) => Part::Log(index),
        _ => panic!("a peek's part is a part of a lent buffer"),
    }
}

/// A program run once for each input.
pub struct Spawned {
    pub path: String,
}

impl Replayer for Spawned {
    fn name(&self) -> String {
        self.path.clone()
    }

    fn replay(&mut self, input: &[u8]) -> io::Result<Vec<u8>> {
        let mut child = Command::new(&self.path).stdin(Stdio::piped()).stdout(Stdio::piped()).spawn()?;
        let mut stdin = child.stdin.take().expect("piped");
        let bytes = input.to_vec();
        // A program may stop reading an input that is too long: a broken pipe is no fault.
        let feeder = thread::spawn(move || match stdin.write_all(&bytes) {
            Err(fault) if fault.kind() != io::ErrorKind::BrokenPipe => Err(fault),
            _ => Ok(()),
        });
        let mut output = Vec::new();
        child.stdout.take().expect("piped").read_to_end(&mut output)?;
        feeder.join().expect("the feeding thread ends")?;
        let status = child.wait()?;
        if !status.success() {
            return Err(io::Error::new(io::ErrorKind::Other, format!("{}: {}", self.path, status)));
        }
        Ok(output)
    }
}

/// A program run once for all inputs: `PROGRAM --batch` takes, for each input, its length as four little-endian bytes and its
/// bytes, and returns its output in the same form before it reads on.
pub struct Batched {
    path: String,
    child: Child,
}

impl Batched {
    pub fn start(path: &str) -> io::Result<Batched> {
        let child = Command::new(path).arg("--batch").stdin(Stdio::piped()).stdout(Stdio::piped()).spawn()?;
        Ok(Batched { path: path.to_string(), child })
    }
}

impl Replayer for Batched {
    fn name(&self) -> String {
        format!("{} --batch", self.path)
    }

    fn replay(&mut self, input: &[u8]) -> io::Result<Vec<u8>> {
        let stdin = self.child.stdin.as_mut().expect("piped");
        let mut framed = (input.len() as u32).to_le_bytes().to_vec();
        framed.extend_from_slice(input);
        stdin.write_all(&framed)?;
        stdin.flush()?;
        let stdout = self.child.stdout.as_mut().expect("piped");
        read_frame(stdout)?.ok_or_else(|| io::Error::from(io::ErrorKind::UnexpectedEof))
    }
}

impl Drop for Batched {
    /// Closing its input ends the program.
    fn drop(&mut self) {
        drop(self.child.stdin.take());
        let _ = self.child.wait();
    }
}

/// One frame of the batch form; nothing at the end of the stream.
pub fn read_frame(stream: &mut impl Read) -> io::Result<Option<Vec<u8>>> {
    let mut length = [0; 4];
    if stream.read(&mut length[..1])? == 0 {
        return Ok(None);
    }
    stream.read_exact(&mut length[1..])?;
    let mut bytes = vec![0; u32::from_le_bytes(length) as usize];
    stream.read_exact(&mut bytes)?;
    Ok(Some(bytes))
}

/// One frame of the batch form, written.
pub fn write_frame(stream: &mut impl Write, bytes: &[u8]) -> io::Result<()> {
    stream.write_all(&(bytes.len() as u32).to_le_bytes())?;
    stream.write_all(bytes)?;
    stream.flush()
}
