//! gamma in a thread of its own, with a limit on time and a stack of its own. A run that is past the limit is given up, and
//! the next has a new thread.
use crate::ours::Pairs;
use crate::Rows;
use gamma::graph::DefaultGraph;
use gamma::matching::{maximum_matching, Pairing};
use gamma::steps::{self, End, Run};
use std::sync::mpsc::{channel, Receiver, RecvTimeoutError, Sender};
use std::thread;
use std::time::Duration;

/// The longest that one run may take.
const LIMIT: Duration = Duration::from_secs(20);

/// Steps of one run. A run that adds a pair with each step makes no more than half as many as there are routes.
const STEPS: usize = 10_000;

const STACK: usize = 64 << 20;

/// What gamma made of an input.
pub enum Answer {
    Run(Run),
    /// gamma's run made whole differs from the one made step by step.
    Unlike(Run, Pairs),
    TimeOut,
}

/// The thread.
pub struct Worker {
    inputs: Sender<(Rows, Pairs)>,
    answers: Receiver<Answer>,
}

impl Worker {
    pub fn new() -> Worker {
        let (inputs, asked) = channel();
        let (answer, answers) = channel();
        let work = move || {
            while let Ok((rows, start)) = asked.recv() {
                if answer.send(run(&rows, &start)).is_err() {
                    return;
                }
            }
        };
        thread::Builder::new().stack_size(STACK).spawn(work).expect("a thread for gamma");
        Worker { inputs, answers }
    }

    /// A run on sound rows, from these pairs.
    pub fn run(&mut self, rows: &Rows, start: Pairs) -> Answer {
        self.inputs.send((rows.clone(), start)).expect("the thread of gamma");
        match self.answers.recv_timeout(LIMIT) {
            Ok(answer) => answer,
            Err(RecvTimeoutError::Timeout) => {
                *self = Worker::new();
                Answer::TimeOut
            }
            Err(RecvTimeoutError::Disconnected) => panic!("the thread of gamma has ended"),
        }
    }
}

impl Default for Worker {
    fn default() -> Worker {
        Worker::new()
    }
}

/// The graph of these rows.
pub fn graph(rows: &Rows) -> DefaultGraph {
    let rows: Vec<Vec<usize>> = rows.iter().map(|row| row.iter().map(|&w| w as usize).collect()).collect();
    DefaultGraph::try_from(rows).expect("sound rows")
}

/// Step by step first. Where that ends, gamma is called once more and makes the run whole.
fn run(rows: &Rows, start: &Pairs) -> Answer {
    let graph = graph(rows);
    let run = steps::run(&graph, start, STEPS);
    if run.end != End::Finished {
        return Answer::Run(run);
    }
    let mut pairing = Pairing::new();
    start.iter().for_each(|&(v, w)| pairing.pair(v, w));
    maximum_matching(&graph, &mut pairing);
    let pairs = steps::edges(&pairing);
    if pairs != run.last() || pairing.order() != 2 * pairs.len() {
        return Answer::Unlike(run, pairs);
    }
    Answer::Run(run)
}
