//! What the local application does: what the capture's own segments of the host show (docs/ROUNDS.md, "A tick").

use crate::capture::{Capture, Content, NoCapture, Tuple, TupleMap};
use crate::endpoint::Endpoint;
use crate::flow::Flow;
use crate::history::Call;
use crate::receive::raised_place;
use crate::segment::{self, Segment, FIN, SYN};
use std::collections::HashSet;

/// The most bytes that wait for a Send.
const MOST_PENDING: usize = u32::MAX as usize;

#[derive(Default)]
pub struct Application {
    /// Whether it has the flow's socket.
    pub holds: bool,
    /// What the capture showed of the stream that it sends, to which no Send added but in order: first the bytes that
    /// were accepted, and then those that are pending.
    pub shown: Vec<u8>,
    /// Whether the local FIN was seen, and whether Shut was called for it.
    has_seen_fin: bool,
    has_shut: bool,
}

impl Application {
    pub fn new(holds: bool) -> Self {
        Application { holds, ..Application::default() }
    }

    /// Sees a local segment. It shows its bytes from the first place neither pending nor sent on; one that has no byte
    /// at that place shows none.
    pub fn see(&mut self, endpoint: &Endpoint, segment: &Segment) {
        let next = 1 + self.shown.len() as u64;
        let wanted = next + (1 << 32);
        let number = segment.header.seq.wrapping_sub(endpoint.iss);
        let first = raised_place(next, number) + segment.has(SYN) as u64;
        if first <= wanted && wanted - first < segment.payload.len() as u64 {
            let fresh = &segment.payload[(wanted - first) as usize..];
            let room = MOST_PENDING - self.pending(endpoint);
            self.shown.extend_from_slice(&fresh[..fresh.len().min(room)]);
        }
        self.has_seen_fin |= segment.has(FIN);
    }

    fn pending(&self, endpoint: &Endpoint) -> usize {
        self.shown.len() - endpoint.accepted as usize
    }
}

/// What the record for which a script is served adds to its calls.
#[derive(Clone, Copy, PartialEq)]
pub enum Cue {
    /// It came to the host.
    Remote,
    /// The host sent it, as a reset or not.
    Local,
    LocalReset,
}

impl Flow<'_> {
    /// Makes the calls of the script that are due, each of which sees what those before it did.
    pub fn serve(&mut self, cue: Cue) {
        let Flow { endpoint, application, history, .. } = self;
        if !application.holds && endpoint.reason.is_none() && !endpoint.is_opening() {
            history.add_call(Call::Accept);
            application.holds = true;
        }
        let is_served = application.holds && !endpoint.is_opening();
        if is_served {
            let pending = application.pending(endpoint);
            if pending > 0 {
                history.add_call(endpoint.send(pending as u32));
            }
            if application.has_seen_fin && !application.has_shut && application.pending(endpoint) == 0 {
                history.add_call(endpoint.shut());
                application.has_shut = true;
            }
        }
        if cue == Cue::LocalReset && (application.holds || endpoint.is_opening()) {
            history.add_call(endpoint.abort());
        }
        if cue == Cue::Remote && is_served {
            history.add_call(endpoint.recv());
        }
        if endpoint.reason.is_some() {
            application.holds = false;
        }
    }
}

/// What a flow gets at its opening: its first number, and a shift to scale its window by.
#[derive(Clone, Copy)]
pub struct Start {
    pub number: u32,
    pub scale: Option<u8>,
}

/// The shift is 10 at most.
const MOST_SHIFT: u8 = 10;

/// The different first numbers that the local SYNs of each four-tuple show, in their order, each with the shift of the
/// first SYN that has it.
#[derive(Default)]
pub struct Starts {
    tuples: TupleMap<Shown>,
}

#[derive(Default)]
struct Shown {
    shown: Vec<Start>,
    /// How many flows of the four-tuple were opened.
    opened: usize,
}

impl Starts {
    /// Looks through a whole capture, and says how many records it has.
    pub fn in_capture(capture: &Capture, local: u32) -> Result<(Self, u32), NoCapture> {
        let mut tuples = TupleMap::<Shown>::default();
        let mut seen = HashSet::new();
        let mut records = 0;
        for record in capture.records() {
            let record = record?;
            records = record.number.get();
            let Some(packet) = record.packet else { continue };
            let Some((tuple, start)) = local_syn(&capture.bytes[packet], local) else { continue };
            if seen.insert((tuple, start.number)) {
                tuples.entry(tuple).or_default().shown.push(start);
            }
        }
        Ok((Starts { tuples }, records))
    }

    /// What the next flow of a four-tuple gets, where the host opened so many flows before.
    pub fn take(&mut self, tuple: Tuple, flows: usize) -> Start {
        let fallback = Start { number: 64000u32.wrapping_mul(flows as u32), scale: None };
        let Some(starts) = self.tuples.get_mut(&tuple) else { return fallback };
        starts.opened += 1;
        starts.shown.get(starts.opened - 1).copied().unwrap_or(fallback)
    }
}

/// The four-tuple of a packet that is a local SYN, and what it shows. The address alone tells most packets apart, which
/// is cheaper than to read them all twice.
fn local_syn(packet: &[u8], local: u32) -> Option<(Tuple, Start)> {
    if packet.len() < 20 || segment::word(packet, 12) != local {
        return None;
    }
    match Content::of(packet, local)? {
        Content::Local(tuple, segment) if segment.has(SYN) => {
            let scale = segment.scale.map(|shift| shift.min(MOST_SHIFT));
            Some((tuple, Start { number: segment.header.seq, scale }))
        }
        _ => None,
    }
}
