//! A second implementation of `tas replay --local ADDRESS`, in plain Rust and without proofs. It is made to measure
//! with, so that the costs of the proved program have something to be held against, and to compare with: `bench/run`
//! does the first, `bench/compare_plain` the second.
//!
//! usage: plain ADDRESS < CAPTURE > REPORT
//!
//! It writes the report of the run in serial order, byte for byte (docs/ROUNDS.md, docs/REPORT.md), and keeps all
//! histories until the run has ended, as the proved program does. Its statuses are 0; 2, the words are no address; 3,
//! the input is no capture; 4, a stream failed.
//!
//! What it leaves out: all other words and options (`run` and `bulk`, `--cores`, `--pcap`, `--loose-sums`), so that it
//! runs on one thread and writes no captures; the limit of a capture's length; and want of memory, where it is aborted.
//!
//! Where it does less work than an endpoint that is live must:
//! - It keeps no ring for what it receives: those bytes stay where they are in the capture, to which a history points,
//!   and Recv copies nothing. In the same way segments that came are read again where they stand for the report.
//! - It keeps no ring for what it sends either: all bytes of a stream stay in one list until the run has ended, and a
//!   segment that goes is a place in it. No frames are made.
//! - Lines of the log, as of segments of no flow, are written at once.

mod capture;
mod endpoint;
mod flow;
mod history;
mod host;
mod output;
mod receive;
mod report;
mod script;
mod segment;

use capture::{Capture, Content, Frame, Item, NoCapture, Tuple};
use host::Host;
use output::Output;
use report::{Counts, Report};
use script::Starts;
use std::fs::File;
use std::io::{self, Read};
use std::net::Ipv4Addr;
use std::os::fd::AsFd;
use std::process::exit;

/// The most items that come in one tick.
const LONGEST_BATCH: usize = 64;

enum Failure {
    Words,
    Read,
    NoCapture(NoCapture),
    Write,
}

impl From<NoCapture> for Failure {
    fn from(fault: NoCapture) -> Self {
        Failure::NoCapture(fault)
    }
}

impl Failure {
    /// The status, and what standard error says.
    fn told(&self) -> (i32, Option<String>) {
        match self {
            Failure::Words => (2, Some("words".to_string())),
            Failure::NoCapture(NoCapture(record)) => (3, Some(format!("input record {record}"))),
            Failure::Read => (4, Some("input".to_string())),
            Failure::Write => (4, None),
        }
    }
}

fn main() {
    if let Err(failure) = run() {
        let (status, text) = failure.told();
        if let Some(text) = text {
            eprintln!("tas: {text}");
        }
        exit(status);
    }
}

fn run() -> Result<(), Failure> {
    let words: Vec<String> = std::env::args().collect();
    let [_, address] = &words[..] else { return Err(Failure::Words) };
    let local: Ipv4Addr = address.parse().map_err(|_| Failure::Words)?;
    let bytes = read_input().map_err(|_| Failure::Read)?;
    let capture = Capture::open(&bytes)?;
    replay(&capture, local.into())
}

/// All of standard input, into a list that grows to what it needs and no more where the input is a file.
fn read_input() -> io::Result<Vec<u8>> {
    let mut bytes = Vec::new();
    File::from(io::stdin().as_fd().try_clone_to_owned()?).read_to_end(&mut bytes)?;
    Ok(bytes)
}

/// The items of a tick, with the four-tuples of those that are segments.
struct Batch<'a> {
    items: Vec<Item<'a>>,
    tuples: Vec<Tuple>,
}

impl<'a> Batch<'a> {
    fn new() -> Self {
        Batch { items: Vec::with_capacity(LONGEST_BATCH), tuples: Vec::with_capacity(LONGEST_BATCH) }
    }

    /// Whether an item of this flow may join: a tick has no two segments of one flow.
    fn has_room_for(&self, tuple: Option<Tuple>) -> bool {
        self.items.len() < LONGEST_BATCH && !tuple.is_some_and(|tuple| self.tuples.contains(&tuple))
    }

    fn clear(&mut self) {
        self.items.clear();
        self.tuples.clear();
    }
}

/// Plays the host with this address, and writes the report.
fn replay(capture: &Capture, local: u32) -> Result<(), Failure> {
    // all records are looked at before anything is written, so that nothing is where one is at fault
    let (starts, records) = Starts::in_capture(capture, local)?;
    let output = Output::stdout().map_err(|_| Failure::Write)?;
    let mut host = Host::new(starts, Report::begin(output, capture.bytes, local));
    let mut counts = Counts { records, frames: 0, refused: 0 };
    let mut batch = Batch::new();
    let mut ticks = 0;
    for record in capture.records() {
        let record = record?;
        let Some(packet) = record.packet else { continue };
        let frame = Frame { record: record.number, at: packet.start };
        let Some(content) = Content::of(&capture.bytes[packet], local) else { continue };
        let tuple = content.tuple();
        if !batch.has_room_for(tuple) {
            host.play(ticks, &batch.items).map_err(|_| Failure::Write)?;
            ticks += 1;
            batch.clear();
        }
        match tuple {
            None => counts.refused += 1,
            Some(tuple) => {
                counts.frames += 1;
                batch.tuples.push(tuple);
            }
        }
        batch.items.push(Item { frame, content });
    }
    if !batch.items.is_empty() {
        host.play(ticks, &batch.items).map_err(|_| Failure::Write)?;
        ticks += 1;
    }
    write_flows(host, counts, ticks).map_err(|_| Failure::Write)
}

/// Writes what is left of the report once the run has ended.
fn write_flows(host: Host, counts: Counts, ticks: u32) -> io::Result<()> {
    let (flows, mut report) = host.end();
    for (number, flow) in flows.iter().flatten().enumerate() {
        report.flow(number, flow)?;
    }
    report.end(counts, ticks)
}
