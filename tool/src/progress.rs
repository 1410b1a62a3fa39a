//! What is being done, on standard error, for work of more than a second and
//! only on a terminal.

use std::io::{self, IsTerminal, Write};
use std::sync::mpsc::{self, RecvTimeoutError, Sender};
use std::sync::{Arc, Mutex, PoisonError};
use std::thread::{self, JoinHandle};
use std::time::Duration;

const BEFORE_THE_FIRST: Duration = Duration::from_secs(1);
const BETWEEN: Duration = Duration::from_millis(200);

/// Shows what was said last until it is dropped; then its line is cleared.
pub struct Progress {
    stage: Arc<Mutex<String>>,
    /// None where nothing is shown.
    shown: Option<(Sender<()>, JoinHandle<()>)>,
}

impl Progress {
    pub fn start() -> Self {
        let stage = Arc::new(Mutex::new(String::new()));
        let shown = match io::stderr().is_terminal() {
            true => start_showing(&stage),
            false => None,
        };
        Progress { stage, shown }
    }

    /// Says what is being done now.
    pub fn say(&self, stage: String) {
        if self.shown.is_some() {
            *self.stage.lock().unwrap_or_else(PoisonError::into_inner) = stage;
        }
    }
}

impl Drop for Progress {
    fn drop(&mut self) {
        if let Some((sender, thread)) = self.shown.take() {
            drop(sender);
            let _ = thread.join();
        }
    }
}

/// Nothing is shown where there is no thread to be had.
fn start_showing(stage: &Arc<Mutex<String>>) -> Option<(Sender<()>, JoinHandle<()>)> {
    let (sender, receiver) = mpsc::channel();
    let stage = Arc::clone(stage);
    let wait = move |time| receiver.recv_timeout(time) == Err(RecvTimeoutError::Timeout);
    let thread = thread::Builder::new().spawn(move || show(&stage, wait));
    Some((sender, thread.ok()?))
}

/// `wait` tells whether the work still goes on after a time.
fn show(stage: &Mutex<String>, wait: impl Fn(Duration) -> bool) {
    let mut time = BEFORE_THE_FIRST;
    while wait(time) {
        let line = stage.lock().unwrap_or_else(PoisonError::into_inner).clone();
        put(&format!("\r\x1b[Kxcf: {line}"));
        time = BETWEEN;
    }
    if time == BETWEEN {
        put("\r\x1b[K");
    }
}

fn put(text: &str) {
    let mut stderr = io::stderr();
    let _ = stderr.write_all(text.as_bytes());
    let _ = stderr.flush();
}
