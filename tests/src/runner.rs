//! Runs planners: an outside program, or a function in its place; two at a time.

use std::io::{Read, Write};
use std::process::{Child, Command, Stdio};
use std::sync::atomic::{AtomicUsize, Ordering};
use std::sync::{mpsc, Mutex};
use std::time::Duration;

const WORKERS: usize = 2;
const TIME_LIMIT: Duration = Duration::from_secs(120);
/// Well above the largest table's text, so that a planner that never stops writing is stopped.
const MOST_OUTPUT: u64 = 1_000_000;

pub trait Planner: Sync {
    fn plan(&self, text: &[u8]) -> Result<Vec<u8>, String>;
}

impl<F: Fn(&[u8]) -> Vec<u8> + Sync> Planner for F {
    fn plan(&self, text: &[u8]) -> Result<Vec<u8>, String> {
        Ok(self(text))
    }
}

/// The command that runs the built planner, with its arguments.
pub struct Program(pub Vec<String>);

impl Program {
    fn start(&self) -> Result<Child, String> {
        Command::new(&self.0[0])
            .args(&self.0[1..])
            .stdin(Stdio::piped())
            .stdout(Stdio::piped())
            .spawn()
            .map_err(|error| format!("{} does not start: {error}", self.0[0]))
    }
}

impl Planner for Program {
    /// The exit code is not judged, since document 01 names none; an end by a signal is.
    fn plan(&self, text: &[u8]) -> Result<Vec<u8>, String> {
        let mut child = self.start()?;
        let output = child.stdout.take().expect("stdout is piped");
        let received = receive(output);
        // A planner may end before it has read an over-long text: then this fails, rightly.
        // The texts fit a pipe's own room, so that this never waits.
        let _ = child.stdin.take().expect("stdin is piped").write_all(text);
        let Ok(bytes) = received.recv_timeout(TIME_LIMIT) else {
            let _ = child.kill();
            let _ = child.wait();
            return Err(format!("no end within {TIME_LIMIT:?}"));
        };
        let status = child.wait().map_err(|error| error.to_string())?;
        status.code().ok_or(format!("ended by a signal: {status}"))?;
        bytes
    }
}

/// Reads in a thread of its own, so that the reading can be given up.
fn receive(output: impl Read + Send + 'static) -> mpsc::Receiver<Result<Vec<u8>, String>> {
    let (sender, receiver) = mpsc::channel();
    std::thread::spawn(move || {
        let mut bytes = Vec::new();
        let read = output.take(MOST_OUTPUT).read_to_end(&mut bytes);
        // Nobody listens any more after the time limit.
        let _ = sender.send(read.map(|_| bytes).map_err(|error| error.to_string()));
    });
    receiver
}

/// The results of `work` over all items, in the items' order.
pub fn in_parallel<T: Sync, R: Send>(items: &[T], work: impl Fn(&T) -> R + Sync) -> Vec<R> {
    let (next, results) = (AtomicUsize::new(0), Mutex::new(Vec::new()));
    let worker = || {
        while let Some((place, item)) = {
            let place = next.fetch_add(1, Ordering::Relaxed);
            items.get(place).map(|item| (place, item))
        } {
            let result = work(item);
            results.lock().expect("no worker panics with the lock").push((place, result));
        }
    };
    std::thread::scope(|scope| {
        for _ in 0..WORKERS {
            scope.spawn(worker);
        }
    });
    let mut results = results.into_inner().expect("every worker has ended");
    results.sort_by_key(|&(place, _)| place);
    results.into_iter().map(|(_, result)| result).collect()
}

#[cfg(test)]
mod tests {
    use super::*;

    fn program(command: &[&str]) -> Program {
        Program(command.iter().map(|word| word.to_string()).collect())
    }

    #[test]
    fn a_program_gets_the_text_and_gives_its_output() {
        assert_eq!(program(&["cat"]).plan(b"frame=1\n"), Ok(b"frame=1\n".to_vec()));
    }

    #[test]
    fn a_program_may_end_before_it_has_read_all() {
        assert_eq!(program(&["true"]).plan(&[b'x'; 20_000]), Ok(vec![]));
    }

    #[test]
    fn an_end_by_a_signal_and_a_missing_program_are_told() {
        assert!(program(&["sh", "-c", "kill -9 $$"]).plan(b"").is_err());
        assert!(program(&["./no-such-program"]).plan(b"").is_err());
    }

    #[test]
    fn results_keep_the_order_of_the_items() {
        let items: Vec<u32> = (0..100).collect();
        assert_eq!(in_parallel(&items, |n| n * 2), (0..200).step_by(2).collect::<Vec<_>>());
    }
}
