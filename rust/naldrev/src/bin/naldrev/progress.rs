//! Progress of long work, on standard error.

use std::io::{self, IsTerminal};
use std::sync::mpsc::{self, RecvTimeoutError, Sender};
use std::sync::{Arc, Mutex};
use std::thread::{self, JoinHandle};
use std::time::Duration;

use crate::output::say;

/// Work this short is not reported.
const FIRST: Duration = Duration::from_secs(3);
const EVERY: Duration = Duration::from_secs(1);

/// Says once a second what is being done, also while one try takes long. It ends when dropped.
pub struct Progress {
    now: Arc<Mutex<String>>,
    running: Option<(Sender<()>, JoinHandle<()>)>,
}

impl Progress {
    /// Reports if standard error is a terminal, or if it is asked for.
    pub fn start(asked: bool) -> Progress {
        let now = Arc::new(Mutex::new(String::new()));
        if !asked && !io::stderr().is_terminal() {
            return Progress { now, running: None };
        }
        let (sender, receiver) = mpsc::channel::<()>();
        let shown = Arc::clone(&now);
        let report = move || {
            let mut wait = FIRST;
            while receiver.recv_timeout(wait) == Err(RecvTimeoutError::Timeout) {
                if let Ok(text) = shown.lock() {
                    say(&*text);
                }
                wait = EVERY;
            }
        };
        // Where no thread can be started, the work is done without reports.
        let running = thread::Builder::new().spawn(report).ok().map(|thread| (sender, thread));
        Progress { now, running }
    }

    /// Notes what is being done.
    pub fn note(&self, what: impl FnOnce() -> String) {
        if self.running.is_some() {
            if let Ok(mut text) = self.now.lock() {
                *text = what();
            }
        }
    }
}

impl Drop for Progress {
    fn drop(&mut self) {
        if let Some((sender, thread)) = self.running.take() {
            drop(sender);
            // The thread has nothing to hand back.
            let _ = thread.join();
        }
    }
}
