//! Asks the proved program: requests of 32 bytes in, answers of 288 bytes out.

use std::io::{BufReader, BufWriter, Read, Write};
use std::process::{Child, ChildStdin, ChildStdout, Command, Stdio};

pub const ANSWER: usize = 288;

/// What is asked for, up to fifteen numbers, and a block.
#[derive(Clone, Copy)]
pub struct Request(pub [u8; 32]);

impl Request {
    pub fn new(what: u8, numbers: &[usize], block: [u8; 16]) -> Self {
        let mut bytes = [0; 32];
        bytes[0] = what;
        for (i, &n) in numbers.iter().enumerate() {
            bytes[1 + i] = u8::try_from(n).expect("a request's numbers are bytes");
        }
        bytes[16..].copy_from_slice(&block);
        Request(bytes)
    }

    pub fn block(&self) -> &[u8] {
        &self.0[16..]
    }

    pub fn number(&self, i: usize) -> usize {
        self.0[1 + i] as usize
    }
}

pub struct Asker {
    child: Child,
    requests: Option<BufWriter<ChildStdin>>,
    answers: BufReader<ChildStdout>,
}

impl Asker {
    pub fn start(program: &str, arguments: &[String]) -> Result<Self, String> {
        let mut child = Command::new(program)
            .args(arguments)
            .stdin(Stdio::piped())
            .stdout(Stdio::piped())
            .spawn()
            .map_err(|e| format!("{program} was not started: {e}"))?;
        let requests = Some(BufWriter::new(child.stdin.take().unwrap()));
        let answers = BufReader::new(child.stdout.take().unwrap());
        Ok(Asker {
            child,
            requests,
            answers,
        })
    }

    /// Sends all requests while it reads the answers, and hands each pair to `each`.
    pub fn ask(
        &mut self,
        requests: &[Request],
        mut each: impl FnMut(&Request, &[u8; ANSWER]),
    ) -> Result<(), String> {
        let mut sink = self.requests.take().unwrap();
        let answers = &mut self.answers;
        let sink = std::thread::scope(|scope| {
            let writer = scope.spawn(move || -> std::io::Result<BufWriter<ChildStdin>> {
                for r in requests {
                    sink.write_all(&r.0)?;
                }
                sink.flush()?;
                Ok(sink)
            });
            let mut answer = [0; ANSWER];
            for r in requests {
                answers
                    .read_exact(&mut answer)
                    .map_err(|e| format!("the program stopped answering: {e}"))?;
                each(r, &answer);
            }
            writer
                .join()
                .unwrap()
                .map_err(|e| format!("the program stopped reading: {e}"))
        })?;
        self.requests = Some(sink);
        Ok(())
    }
}

impl Drop for Asker {
    fn drop(&mut self) {
        drop(self.requests.take());
        let _ = self.child.wait();
    }
}
