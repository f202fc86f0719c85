//! One run of the program. Threads feed it and take what it writes, so that a program that hangs does not hang the
//! check: it is ended when the time is over.

use std::io::{Read, Write};
use std::process::{Child, ChildStdin, Command, ExitStatus, Stdio};
use std::sync::mpsc::{self, Receiver, RecvTimeoutError, Sender};
use std::thread;
use std::time::{Duration, Instant};

/// How long the program may take for what is due.
pub const LIMIT: Duration = Duration::from_secs(20);

/// The program under way.
pub struct Session {
    child: Child,
    pieces: Option<Sender<Vec<u8>>>,
    pub output: Flow,
    errors: Flow,
}

/// What the program left when it ended, or was ended.
pub struct Left {
    pub output: Vec<u8>,
    pub errors: Vec<u8>,
    pub status: ExitStatus,
    pub in_time: bool,
}

impl Session {
    /// Starts it. Its output, if it comes here, has a reader that takes at most `reads` bytes and then is gone.
    pub fn start(mut command: Command, reads: u64) -> Session {
        let started = command.stderr(Stdio::piped()).spawn();
        let mut child = started.unwrap_or_else(|error| panic!("{:?}: {error}", command.get_program()));
        let (sender, pieces) = mpsc::channel();
        if let Some(pipe) = child.stdin.take() {
            thread::spawn(move || feed(pipe, pieces));
        }
        let output = Flow::of(child.stdout.take().map(|pipe| pipe.take(reads)));
        let errors = Flow::of(child.stderr.take());
        Session { child, pieces: Some(sender), output, errors }
    }

    /// Hands a piece to its standard input, if that is a pipe from here.
    pub fn send(&self, piece: &[u8]) {
        if let Some(pieces) = &self.pieces {
            // A program that has ended takes no more.
            let _ = pieces.send(piece.to_vec());
        }
    }

    /// Ends its input and waits for its end.
    pub fn finish(mut self) -> Left {
        self.pieces = None;
        let in_time = self.output.reach_end() && self.errors.reach_end();
        let status = self.stop();
        let [output, errors] = [&mut self.output, &mut self.errors].map(|flow| std::mem::take(&mut flow.text));
        Left { output, errors, status, in_time }
    }

    /// How it ended; one that has closed all its pipes ends by itself, any other is ended here.
    fn stop(&mut self) -> ExitStatus {
        if !self.errors.ended {
            let _ = self.child.kill();
        }
        self.child.wait().expect("a status")
    }
}

impl Drop for Session {
    fn drop(&mut self) {
        self.stop();
    }
}

/// Writes each piece as it is sent, until the last or until the program takes no more.
fn feed(mut pipe: ChildStdin, pieces: Receiver<Vec<u8>>) {
    for piece in pieces {
        if pipe.write_all(&piece).is_err() {
            return;
        }
    }
}

/// What comes from one of the program's pipes.
pub struct Flow {
    pieces: Receiver<Vec<u8>>,
    pub text: Vec<u8>,
    ended: bool,
}

impl Flow {
    fn of(pipe: Option<impl Read + Send + 'static>) -> Flow {
        let (sender, pieces) = mpsc::channel();
        if let Some(pipe) = pipe {
            thread::spawn(move || carry(pipe, &sender));
        }
        Flow { pieces, text: Vec::new(), ended: false }
    }

    /// Waits until this length has come; false if the end or the time comes before.
    pub fn reach(&mut self, length: usize) -> bool {
        let end = Instant::now() + LIMIT;
        while self.text.len() < length && self.take(end) {}
        self.text.len() >= length
    }

    /// Waits until the pipe is at its end and let go; false if the time comes before.
    pub fn reach_end(&mut self) -> bool {
        let end = Instant::now() + LIMIT;
        while self.take(end) {}
        self.ended
    }

    /// Takes what comes next; false if nothing does.
    fn take(&mut self, end: Instant) -> bool {
        match self.pieces.recv_timeout(end.saturating_duration_since(Instant::now())) {
            Ok(piece) => self.text.extend(piece),
            Err(stopped) => {
                self.ended = stopped == RecvTimeoutError::Disconnected;
                return false;
            }
        }
        true
    }
}

/// Sends what comes from the pipe, to its end; then the pipe is let go.
fn carry(mut pipe: impl Read, sender: &Sender<Vec<u8>>) {
    let mut buffer = [0; 1 << 16];
    while let Ok(length @ 1..) = pipe.read(&mut buffer) {
        if sender.send(buffer[..length].to_vec()).is_err() {
            return;
        }
    }
}
