//! The report of a run (docs/REPORT.md).

use crate::capture::Tuple;
use crate::endpoint::MSS;
use crate::flow::{FinishedFlow, Opening};
use crate::history::{Call, Entry, Phase, Timeout};
use crate::output::Output;
use crate::segment::{End, Header, Packet, Rule, Segment, ACK, RST, SYN};
use std::io;
use std::num::NonZeroU32;
use std::slice;

pub struct Report<'a> {
    output: Output,
    capture: &'a [u8],
    local: u32,
}

/// How many records a capture has, how many of them are segments that concern the host, and how many were refused.
pub struct Counts {
    pub records: u32,
    pub frames: u32,
    pub refused: u32,
}

/// The lines before and behind those of flows.
impl<'a> Report<'a> {
    /// Begins the report of the host with this address.
    pub fn begin(mut output: Output, capture: &'a [u8], local: u32) -> Self {
        output.text(b"tas replay\nhost local ");
        output.address(local);
        output.text(b"\n");
        Report { output, capture, local }
    }

    /// Ends the report of so many ticks.
    pub fn end(mut self, counts: Counts, ticks: u32) -> io::Result<()> {
        let Counts { records, frames, refused } = counts;
        let output = &mut self.output;
        output.begin()?;
        output.text(b"records ");
        output.number(records);
        output.text(b" frames ");
        output.number(frames);
        output.text(b" passed ");
        output.number(records - frames - refused);
        output.text(b" refused ");
        output.number(refused);
        output.text(b"\nend ");
        output.number(ticks);
        output.text(b" ticks\n");
        output.flush()
    }
}

/// The lines of the log.
impl Report<'_> {
    /// A connect for which no slot was free.
    pub fn connect_refused(&mut self, tick: u32, tuple: Tuple) -> io::Result<()> {
        self.output.begin()?;
        self.output.number(tick);
        self.output.text(b" p0 connect ");
        self.output.end(tuple.remote());
        self.output.text(b" = noflowslot\n");
        Ok(())
    }

    /// A segment of no flow.
    pub fn stray(&mut self, tick: u32, record: NonZeroU32, segment: &Segment) -> io::Result<()> {
        self.event(tick, b" stray r:", record)?;
        self.output.text(b" ");
        self.output.segment(segment)?;
        self.output.text(b" = ");
        // the host listens on all ports, and so has no answer to what has neither ACK nor SYN (RFC 9293, 3.10.7.2)
        if segment.has(RST) || !segment.has(ACK) {
            self.output.text(b"none");
        } else {
            self.output.header(Header::reset(segment.header.ack));
        }
        self.output.text(b"\n");
        Ok(())
    }

    /// A SYN for which no slot was free.
    pub fn dropped(&mut self, tick: u32, record: NonZeroU32) -> io::Result<()> {
        self.event(tick, b" dropped r:", record)?;
        self.output.text(b" = noflowslot\n");
        Ok(())
    }

    /// A packet that breaks a rule of reading.
    #[inline]
    pub fn refused(&mut self, tick: u32, record: NonZeroU32, rule: Rule) -> io::Result<()> {
        self.event(tick, b" refused r:", record)?;
        self.output.text(b" = ");
        self.output.number(rule as u32);
        self.output.text(b"\n");
        Ok(())
    }

    #[inline]
    fn event<const N: usize>(&mut self, tick: u32, text: &[u8; N], record: NonZeroU32) -> io::Result<()> {
        self.output.begin()?;
        self.output.number(tick);
        self.output.text(text);
        self.output.number(record.get());
        Ok(())
    }
}

/// The lines of flows.
impl<'a> Report<'a> {
    /// A flow before which so many were opened.
    pub fn flow(&mut self, number: usize, flow: &FinishedFlow<'a>) -> io::Result<()> {
        self.opening(number, &flow.opening)?;
        let mut lines = Entries {
            output: &mut self.output,
            capture: self.capture,
            scale: flow.opening.scale,
            sent: &flow.sent,
            pieces: flow.pieces.iter(),
            piece: &[],
            tick: flow.opening.tick,
            by_slow_path: flow.opening.syn.is_some() as u32,
            by_core: 0,
            by_application: flow.opening.syn.is_none() as u32,
            taken: 0,
            read: 0,
        };
        for entry in &flow.entries {
            lines.entry(entry)?;
        }
        let read = lines.read;
        self.state(flow.phase)?;
        self.read(read, &flow.pieces)
    }

    /// Who the flow is, and the entry that opened it.
    fn opening(&mut self, number: usize, opening: &Opening) -> io::Result<()> {
        let output = &mut self.output;
        output.begin()?;
        output.text(b"flow ");
        output.number(number as u32);
        output.text(b" slot ");
        output.number(opening.slot as u32);
        output.text(b".");
        output.number(opening.generation);
        output.text(b" ");
        output.end(End { address: self.local, port: opening.tuple.local_port() });
        output.text(b" ");
        output.end(opening.tuple.remote());
        output.text(b"\n");
        output.number(opening.tick);
        if let Some(syn) = opening.syn {
            output.text(b" s.0 passive r:");
            output.number(syn.record.get());
            output.text(b" iss ");
            output.number(opening.iss);
            output.text(b" ");
            output.segment(&segment_at(self.capture, syn.at))?;
        } else {
            output.text(b" p0.0 connect iss ");
            output.number(opening.iss);
        }
        output.text(b" = ok\n");
        Ok(())
    }

    fn state(&mut self, phase: Phase) -> io::Result<()> {
        self.output.begin()?;
        self.output.text(b"state ");
        self.output.string(phase_text(phase));
        if let Phase::Closed(reason) = phase {
            self.output.text(b" ");
            self.output.reason(reason);
        }
        self.output.text(b"\n");
        Ok(())
    }

    /// All bytes that were read, which are the first of those received.
    fn read(&mut self, count: u64, pieces: &[&[u8]]) -> io::Result<()> {
        self.output.text(b"read ");
        self.output.string(&count.to_string());
        self.output.string(if count == 0 { " -" } else { " " });
        let mut left = count;
        for piece in pieces {
            let shown = left.min(piece.len() as u64);
            self.output.hex(&piece[..shown as usize])?;
            left -= shown;
        }
        self.output.text(b"\n");
        Ok(())
    }
}

/// Writes the entries of a flow, of each of which the tick and the number follow from those before it.
struct Entries<'o, 'a> {
    output: &'o mut Output,
    capture: &'a [u8],
    /// The shift in the flow's SYN, and the bytes that it sent.
    scale: Option<u8>,
    sent: &'o [u8],
    /// The pieces of what it received that no entry showed yet, and what is left of the one before them.
    pieces: slice::Iter<'o, &'a [u8]>,
    piece: &'a [u8],
    tick: u32,
    /// How many entries each caller made so far.
    by_slow_path: u32,
    by_core: u32,
    by_application: u32,
    /// How many bytes were taken by Sends, and how many were read, so far.
    taken: usize,
    read: u64,
}

impl Entries<'_, '_> {
    fn entry(&mut self, entry: &Entry) -> io::Result<()> {
        match *entry {
            Entry::Quiet(ticks) => return self.quiet(ticks),
            Entry::Timeout(timeout) => self.timeout(timeout)?,
            Entry::Unanswered { by_core, record, at } => {
                self.arrival(by_core, record, at)?;
                self.output.text(b"none");
            }
            Entry::Acknowledged { record, at, seq, ack, window } => {
                self.arrival(true, record, at)?;
                self.output.header(Header { flags: ACK, seq, ack, window });
            }
            Entry::Answered { record, at, flags, seq, ack, window } => {
                self.arrival(false, record, at)?;
                self.output.header(Header { flags, seq, ack, window });
            }
            Entry::Emit { flags, seq, ack, window, at, length } => {
                self.emission(Header { flags, seq, ack, window }, at, length as usize)?;
            }
            Entry::Call(ref call) => self.call(call)?,
        }
        self.output.text(b"\n");
        Ok(())
    }

    /// An entry of the application.
    fn call(&mut self, call: &Call) -> io::Result<()> {
        self.begin_call()?;
        match *call {
            Call::Accept => self.output.text(b" accept = ok"),
            Call::Send { offered, reply } => {
                self.send(offered);
                self.output.reply(reply);
            }
            Call::Took { offered, taken } => {
                self.send(offered);
                self.took(taken)?;
            }
            Call::Shut(reply) => {
                self.output.text(b" shut = ");
                self.output.reply(reply);
            }
            Call::Abort(reply) => {
                self.output.text(b" abort = ");
                self.output.reply(reply);
            }
            Call::AbortByReset { seq } => {
                self.output.text(b" abort = ");
                self.output.header(Header::reset(seq));
            }
            Call::Recv(reply) => {
                self.output.text(b" recv 65535 = ");
                self.output.reply(reply);
            }
            Call::Got(length) => self.got(length)?,
            Call::GotThen { length, seq, ack, window } => {
                self.got(length)?;
                self.output.text(b" then ");
                self.output.header(Header { flags: ACK, seq, ack, window });
            }
        }
        Ok(())
    }
    fn begin_call(&mut self) -> io::Result<()> {
        self.output.begin()?;
        self.output.number(self.tick);
        self.output.text(b" p0.");
        self.output.number(self.by_application);
        self.by_application += 1;
        Ok(())
    }

    fn send(&mut self, offered: u32) {
        self.output.text(b" send ");
        self.output.number(offered);
        self.output.text(b" = ");
    }

    fn took(&mut self, taken: u32) -> io::Result<()> {
        self.output.text(b"took ");
        let end = self.taken + taken as usize;
        self.output.hex(&self.sent[self.taken..end])?;
        self.taken = end;
        Ok(())
    }

    fn got(&mut self, length: u32) -> io::Result<()> {
        self.output.text(b" recv 65535 = got ");
        self.read += length as u64;
        let mut left = length as usize;
        while left > 0 {
            if self.piece.is_empty() {
                self.piece = self.pieces.next().expect("what was read was received");
            }
            let (shown, rest) = self.piece.split_at(left.min(self.piece.len()));
            self.output.hex(shown)?;
            self.piece = rest;
            left -= shown.len();
        }
        Ok(())
    }

    /// So many quiet ticks in a row. They are most lines of a report with idle flows, and so have a loop of their own.
    fn quiet(&mut self, ticks: u32) -> io::Result<()> {
        let output = &mut *self.output;
        for passed in 0..ticks {
            output.begin()?;
            output.number(self.tick + 1 + passed);
            output.text(b" s.");
            output.number(self.by_slow_path + passed);
            output.text(b" tick = quiet\n");
        }
        self.tick += ticks;
        self.by_slow_path += ticks;
        Ok(())
    }

    fn timeout(&mut self, timeout: Timeout) -> io::Result<()> {
        self.tick += 1;
        let output = &mut *self.output;
        output.begin()?;
        output.number(self.tick);
        output.text(b" s.");
        output.number(self.by_slow_path);
        output.text(b" tick = ");
        output.string(match timeout {
            Timeout::Resend => "resend",
            Timeout::Probe => "probe",
            Timeout::WaitIsOver => "done",
            Timeout::GivenUp => "timedout",
        });
        self.by_slow_path += 1;
        Ok(())
    }

    /// A segment that came, up to its answer.
    fn arrival(&mut self, by_core: bool, record: NonZeroU32, at: usize) -> io::Result<()> {
        let output = &mut *self.output;
        output.begin()?;
        output.number(self.tick);
        let number = if by_core {
            output.text(b" c0.");
            &mut self.by_core
        } else {
            output.text(b" s.");
            &mut self.by_slow_path
        };
        output.number(*number);
        *number += 1;
        output.text(b" rx r:");
        output.number(record.get());
        output.text(b" ");
        output.segment(&segment_at(self.capture, at))?;
        output.text(b" = ");
        Ok(())
    }

    fn emission(&mut self, header: Header, at: usize, length: usize) -> io::Result<()> {
        let output = &mut *self.output;
        output.begin()?;
        output.number(self.tick);
        output.text(b" c0.");
        output.number(self.by_core);
        output.text(b" emit = ");
        self.by_core += 1;
        output.header(header);
        if header.flags & SYN != 0 {
            output.options(Some(MSS as u16), self.scale);
        }
        // of a SYN or a FIN the place is none of the stream's bytes
        if length > 0 {
            output.payload(&self.sent[at..at + length])
        } else {
            Ok(())
        }
    }
}

/// The segment of a packet at this place of the capture, which was read before.
fn segment_at(capture: &[u8], at: usize) -> Segment<'_> {
    match Packet::read(&capture[at..]) {
        Ok(packet) => packet.segment,
        Err(_) => unreachable!("it was read before"),
    }
}

fn phase_text(phase: Phase) -> &'static str {
    match phase {
        Phase::SynSent => "SYN-SENT",
        Phase::SynReceived => "SYN-RECEIVED",
        Phase::Established => "ESTABLISHED",
        Phase::FinWait1 => "FIN-WAIT-1",
        Phase::FinWait2 => "FIN-WAIT-2",
        Phase::CloseWait => "CLOSE-WAIT",
        Phase::Closing => "CLOSING",
        Phase::LastAck => "LAST-ACK",
        Phase::TimeWait => "TIME-WAIT",
        Phase::Closed(_) => "CLOSED",
    }
}
