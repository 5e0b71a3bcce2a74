//! The two programs that are asked.
use crate::call::*;
use std::io::{BufReader, Read, Write};
use std::process::{Child, ChildStdin, ChildStdout, Command, Stdio};

/// What a program can be asked by one frame, and what it answers by one.
pub trait Asked {
    type Answer;
    fn frame(&self) -> Vec<u8>;
    fn parse(&self, answer: &[u8]) -> Self::Answer;
    /// In the answer's place, where the program died.
    fn died(&self) -> Self::Answer;
}

impl Asked for Call {
    type Answer = Answer;
    fn frame(&self) -> Vec<u8> {
        self.frame()
    }
    fn parse(&self, answer: &[u8]) -> Answer {
        Answer::parse(answer)
    }
    fn died(&self) -> Answer {
        Answer::died()
    }
}

/// A program that answers frames, and how to start it.
pub struct Side {
    words: Vec<String>,
    child: Child,
    input: ChildStdin,
    output: BufReader<ChildStdout>,
}

fn spawn(words: &[String]) -> (Child, ChildStdin, BufReader<ChildStdout>) {
    let made = Command::new(&words[0]).args(&words[1..]).stdin(Stdio::piped()).stdout(Stdio::piped()).spawn();
    let mut child = made.unwrap_or_else(|e| {
        eprintln!("oracle/run: {} does not start: {e}", words[0]);
        std::process::exit(2)
    });
    let input = child.stdin.take().unwrap();
    let output = BufReader::with_capacity(1 << 20, child.stdout.take().unwrap());
    (child, input, output)
}

fn read_frame(from: &mut impl Read) -> std::io::Result<Vec<u8>> {
    let mut len = [0; 4];
    from.read_exact(&mut len)?;
    let mut frame = vec![0; u32::from_be_bytes(len) as usize];
    from.read_exact(&mut frame)?;
    Ok(frame)
}

/// Frames, each behind its length, and an empty one that asks to flush.
fn batch<'a>(frames: impl Iterator<Item = &'a [u8]>) -> Vec<u8> {
    let mut out = vec![];
    for f in frames {
        out.extend((f.len() as u32).to_be_bytes());
        out.extend(f);
    }
    out.extend([0; 4]);
    out
}

impl Side {
    pub fn start(words: &[String]) -> Self {
        let (child, input, output) = spawn(words);
        Self { words: words.to_vec(), child, input, output }
    }
    fn restart(&mut self) {
        let _ = self.child.kill();
        let _ = self.child.wait();
        (self.child, self.input, self.output) = spawn(&self.words.clone());
    }
    /// Which kinds it answers.
    pub fn kinds(&mut self) -> Vec<bool> {
        let asked = self.input.write_all(&batch([&[255u8] as &[u8]].into_iter())).and_then(|_| self.input.flush());
        match asked.and_then(|_| read_frame(&mut self.output)) {
            Ok(frame) => frame.iter().map(|b| *b == 1).collect(),
            Err(e) => {
                eprintln!("oracle/run: {} does not answer: {e}", self.words.join(" "));
                std::process::exit(2)
            }
        }
    }
    fn try_ask<A: Asked>(&mut self, asked: &[A]) -> std::io::Result<Vec<A::Answer>> {
        let frames: Vec<Vec<u8>> = asked.iter().map(A::frame).collect();
        let bytes = batch(frames.iter().map(Vec::as_slice));
        let (input, output) = (&mut self.input, &mut self.output);
        std::thread::scope(|scope| {
            scope.spawn(move || {
                let _ = input.write_all(&bytes);
                let _ = input.flush();
            });
            asked.iter().map(|a| Ok(a.parse(&read_frame(output)?))).collect()
        })
    }
    /// The answers, in order. Where the program dies, it is started again, and asked one by one.
    pub fn ask<A: Asked>(&mut self, asked: &[A]) -> Vec<A::Answer> {
        if let Ok(answers) = self.try_ask(asked) {
            return answers;
        }
        self.restart();
        let mut one = |a: &A| {
            let got = self.try_ask(std::slice::from_ref(a));
            got.map(|mut answers| answers.remove(0)).unwrap_or_else(|_| {
                self.restart();
                a.died()
            })
        };
        asked.iter().map(&mut one).collect()
    }
}

impl Drop for Side {
    fn drop(&mut self) {
        let _ = self.child.kill();
        let _ = self.child.wait();
    }
}
