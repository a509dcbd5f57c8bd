//! One end of a connection (docs/ENDPOINT.md): what it knows, an application's calls, what is sent next, and time.
//!
//! Places count from a direction's SYN, which is 0; byte i of a stream is at 1 + i, and the FIN behind the last byte.

use crate::history::{Call, Phase, Reason, Reply, Timeout};
use crate::receive::Island;
use crate::script::Start;
use crate::segment::{Header, Segment, ACK, FIN, PSH, SYN};

/// The bytes that a ring has room for each way, and where the host gave the flow a window scale.
const RING: u64 = 65535;
const SCALED_RING: u64 = 262144;
/// The most bytes that a window's field tells.
const MOST_FIELD: u64 = 65535;
/// The most bytes that a Recv asks for.
const MOST_READ: u64 = 65535;
/// The host's own MSS, in bytes.
pub const MSS: u32 = 1460;
/// The payload's limit for a peer whose SYN names no MSS, and the least of all, in bytes (RFC 9293, 3.7.1).
const DEFAULT_MSS: u32 = 536;
const LEAST_MSS: u32 = 64;
/// The retransmission timeout, in ticks. It is doubled for each try, up to 16 times (RFC 6298, 5.5).
const TIMEOUT: u32 = 100;
const MOST_DOUBLINGS: u8 = 4;
/// At the ninth time that the timer runs out in a row the peer is given up.
const LAST_TRY: u8 = 9;
/// How long TIME-WAIT lasts, in ticks.
const WAIT: u32 = 4 * TIMEOUT;
/// The congestion window, in bytes, which is fixed in a replay, and as deep as the bucket.
const CONGESTION_WINDOW: u64 = 65535;
/// What a tick fills into the bucket, in bytes: a quarter of the congestion window, which is more than any payload.
const FILL: u32 = 16383;

/// What an endpoint knows. Its phase is no field, but follows from the facts.
#[derive(Default)]
pub struct Endpoint<'a> {
    /// Its own first sequence number, and the peer's once its SYN was taken.
    pub iss: u32,
    pub peer: Option<u32>,
    /// The shift that it may scale its window by, where it has one, and whether both sides agreed to scale windows; then
    /// the peer's shift (RFC 7323, 2.3).
    own_shift: Option<u8>,
    is_scaled: bool,
    peer_shift: u8,
    /// Why it is closed, if it is.
    pub reason: Option<Reason>,

    /// How many bytes were accepted for sending, and whether the stream ends with them.
    pub accepted: u64,
    pub shut: bool,
    /// The first place that is not acknowledged, the next one to send, and one past the highest ever sent
    /// (SND.UNA and SND.NXT of RFC 9293, 3.3.1).
    pub una: u64,
    pub nxt: u64,
    pub max: u64,
    /// The peer's window, with the place and the acknowledgement of the segment that it is from (SND.WND, SND.WL1 and
    /// SND.WL2).
    pub window: u32,
    pub wl1: u64,
    pub wl2: u64,
    /// Duplicate acknowledgements, 3 at most (RFC 5681, 2).
    pub duplicates: u8,
    /// For how many ticks the timer runs, and how often it ran out in a row.
    pub age: u32,
    pub tries: u8,
    pub is_probe_due: bool,

    /// How many bytes were received in order, and how many of them were read.
    pub received: u64,
    pub read: u64,
    /// Where the received bytes stand, piece by piece: in the capture, so that there is no ring to keep them in.
    pub pieces: Vec<&'a [u8]>,
    pub island: Option<Box<Island<'a>>>,
    /// Whether the peer's FIN was taken, and whether that was before this side shut.
    pub peer_ended: bool,
    pub peer_ended_first: bool,
    /// The tick at which TIME-WAIT began.
    pub wait_began: u32,

    /// The most bytes of a payload, and how many may be sent now.
    payload_limit: u32,
    tokens: u32,
}

/// A segment that is sent, and where its payload stands among the accepted bytes.
pub struct Emission {
    pub header: Header,
    pub at: usize,
    pub length: u16,
}

impl<'a> Endpoint<'a> {
    /// The endpoint of an application's connect (RFC 9293, 3.10.1).
    pub fn connecting(start: Start) -> Self {
        Endpoint { iss: start.number, own_shift: start.scale, ..Endpoint::default() }
    }

    /// The endpoint that a SYN opens; nothing else of that segment is taken (RFC 9293, 3.10.7.2).
    pub fn accepting(start: Start, syn: &Segment) -> Self {
        let mut opened = Endpoint::connecting(start);
        opened.peer = Some(syn.header.seq);
        opened.window = syn.header.window as u32;
        opened.take_options(syn);
        opened
    }

    /// Takes the options of the peer's SYN.
    pub fn take_options(&mut self, syn: &Segment) {
        self.payload_limit = syn.mss.map_or(DEFAULT_MSS, u32::from).min(MSS).max(LEAST_MSS);
        self.tokens = CONGESTION_WINDOW as u32;
        if let (Some(_), Some(theirs)) = (self.own_shift, syn.scale) {
            self.is_scaled = true;
            self.peer_shift = theirs;
        }
    }

    /// The shift that its SYN bears: an answer bears one where the peer's SYN did (RFC 7323, 2.2).
    pub fn shift_in_syn(&self) -> Option<u8> {
        self.own_shift.filter(|_| self.peer.is_none() || self.is_scaled)
    }

    /// The shift of the windows that it shows.
    fn shift(&self) -> u8 {
        self.own_shift.filter(|_| self.is_scaled).unwrap_or(0)
    }

    /// The window that a segment of the peer offers, in bytes.
    pub fn offered(&self, segment: &Segment) -> u32 {
        let field = segment.header.window as u32;
        if segment.has(SYN) {
            field
        } else {
            field << self.peer_shift
        }
    }

    /// The bytes that its ring has room for each way.
    fn ring(&self) -> u64 {
        if self.own_shift.is_some() {
            SCALED_RING
        } else {
            RING
        }
    }

    /// SYN-SENT or SYN-RECEIVED.
    pub fn is_opening(&self) -> bool {
        self.reason.is_none() && (self.peer.is_none() || self.una == 0)
    }

    pub fn is_fin_acknowledged(&self) -> bool {
        self.una == self.accepted + 2
    }

    pub fn phase(&self) -> Phase {
        if let Some(reason) = self.reason {
            return Phase::Closed(reason);
        }
        if self.peer.is_none() {
            return Phase::SynSent;
        }
        if self.una == 0 {
            return Phase::SynReceived;
        }
        match (self.shut, self.peer_ended) {
            (false, false) => Phase::Established,
            (false, true) => Phase::CloseWait,
            (true, false) if self.is_fin_acknowledged() => Phase::FinWait2,
            (true, false) => Phase::FinWait1,
            (true, true) if self.peer_ended_first => Phase::LastAck,
            (true, true) if self.is_fin_acknowledged() => Phase::TimeWait,
            (true, true) => Phase::Closing,
        }
    }

    /// The room for what the peer sends, in bytes.
    fn free(&self) -> u64 {
        self.ring() - (self.received - self.read)
    }

    /// As much of it as a field can tell (RCV.WND).
    pub fn own_window(&self) -> u64 {
        self.free().min(MOST_FIELD << self.shift())
    }

    /// The place that is expected next of the peer (RCV.NXT).
    pub fn next_place(&self) -> u64 {
        1 + self.received + self.peer_ended as u64
    }

    /// How many accepted bytes are not acknowledged.
    fn unacknowledged(&self) -> u64 {
        self.accepted.saturating_sub(self.una.saturating_sub(1))
    }

    /// How many accepted bytes are at or behind the next place to send.
    pub fn waiting(&self) -> u64 {
        self.accepted.saturating_sub(self.nxt.saturating_sub(1))
    }

    fn header(&self, flags: u8, place: u64) -> Header {
        Header {
            flags,
            seq: self.iss.wrapping_add(place as u32),
            ack: self.peer.unwrap_or(0).wrapping_add(self.next_place() as u32),
            window: self.window_field(flags & SYN != 0),
        }
    }

    fn window_field(&self, is_of_syn: bool) -> u16 {
        if is_of_syn {
            self.free().min(MOST_FIELD) as u16
        } else {
            (self.own_window() >> self.shift()) as u16
        }
    }

    /// An ACK bears the highest place sent, so that sending that went back does not make it stale.
    pub fn ack(&self) -> Header {
        self.header(ACK, self.max)
    }
}

/// The application's calls.
impl Endpoint<'_> {
    /// Takes the first of so many bytes, as many as there is room for (RFC 9293, 3.10.2).
    pub fn send(&mut self, offered: u32) -> Call {
        let taken = (offered as u64).min(self.ring() - self.unacknowledged()) as u32;
        let reply = match self.reason {
            Some(reason) => Reply::Closed(reason),
            None if self.shut => Reply::Shut,
            None if taken == 0 => Reply::NotYet,
            None => {
                self.accepted += taken as u64;
                return Call::Took { offered, taken };
            }
        };
        Call::Send { offered, reply }
    }

    /// Gives the bytes that were not read, as many as a Recv asks for (RFC 9293, 3.10.3).
    pub fn recv(&mut self) -> Call {
        let unread = (self.received - self.read).min(MOST_READ);
        match self.reason {
            Some(reason) if reason != Reason::Done => Call::Recv(Reply::Closed(reason)),
            _ if unread > 0 => self.give(unread as u32),
            _ if self.peer_ended => Call::Recv(Reply::End),
            Some(reason) => Call::Recv(Reply::Closed(reason)),
            None => Call::Recv(Reply::NotYet),
        }
    }

    /// Gives so many bytes, and shows the window again where it is one segment wide now, or one unit of its field (RFC
    /// 9293, 3.8.6.2.2).
    fn give(&mut self, length: u32) -> Call {
        let before = self.free();
        self.read += length as u64;
        let needed = (MSS as u64).max(1 << self.shift());
        if self.peer_ended || before >= needed || self.free() < needed {
            return Call::Got(length);
        }
        let Header { seq, ack, window, .. } = self.ack();
        Call::GotThen { length, seq, ack, window }
    }

    /// Ends the stream behind what was accepted.
    pub fn shut(&mut self) -> Call {
        Call::Shut(match self.reason {
            Some(reason) => Reply::Closed(reason),
            None if self.shut => Reply::Shut,
            None => {
                self.shut = true;
                Reply::Ok
            }
        })
    }

    /// Closes at once; the peer is told where it has a connection that can still carry bytes (RFC 9293, 3.10.5).
    pub fn abort(&mut self) -> Call {
        use crate::history::Phase::*;
        let entry = match self.phase() {
            Closed(reason) => return Call::Abort(Reply::Closed(reason)),
            SynReceived | Established | FinWait1 | FinWait2 | CloseWait => {
                Call::AbortByReset { seq: self.iss.wrapping_add(self.max as u32) }
            }
            SynSent | Closing | LastAck | TimeWait => Call::Abort(Reply::Nothing),
        };
        self.reason = Some(Reason::Aborted);
        entry
    }
}

/// What is sent next.
impl Endpoint<'_> {
    /// Sends the next segment, if one may go.
    pub fn emit(&mut self) -> Option<Emission> {
        if self.reason.is_some() {
            return None;
        }
        if self.is_opening() {
            let flags = if self.peer.is_some() { SYN | ACK } else { SYN };
            return (self.nxt == 0).then(|| self.emit_flags(flags));
        }
        let waiting = self.waiting();
        let length = self.allowed(waiting);
        if length > 0 {
            self.tokens -= length as u32;
            let emission = self.emission(data_flags(length, waiting), length);
            self.advance(length);
            Some(emission)
        } else if self.is_probe_due && self.window == 0 && self.nxt == self.una && waiting > 0 {
            // the byte of a probe stays the next one to send (RFC 9293, 3.8.6.1)
            self.is_probe_due = false;
            let emission = self.emission(data_flags(1, waiting), 1);
            self.max = self.max.max(self.nxt + 1);
            Some(emission)
        } else if self.shut && self.nxt == 1 + self.accepted {
            Some(self.emit_flags(FIN | ACK))
        } else {
            None
        }
    }

    /// How many of the waiting bytes may go now: all limits are in bytes.
    fn allowed(&self, waiting: u64) -> u64 {
        let peer = (self.una + self.window as u64).saturating_sub(self.nxt);
        let congestion = (self.una + CONGESTION_WINDOW).saturating_sub(self.nxt);
        waiting.min(self.payload_limit as u64).min(peer).min(congestion).min(self.tokens as u64)
    }

    fn emission(&self, flags: u8, length: u64) -> Emission {
        let mut header = self.header(flags, self.nxt);
        if flags & ACK == 0 {
            header.ack = 0;
        }
        Emission { header, at: self.nxt.saturating_sub(1) as usize, length: length as u16 }
    }

    /// A segment of one place, the SYN's or the FIN's.
    fn emit_flags(&mut self, flags: u8) -> Emission {
        let emission = self.emission(flags, 0);
        self.advance(1);
        emission
    }

    fn advance(&mut self, places: u64) {
        self.nxt += places;
        self.max = self.max.max(self.nxt);
    }
}

/// The flags of a payload: PSH where it ends all that was accepted (RFC 9293, 3.9.1.2).
fn data_flags(length: u64, waiting: u64) -> u8 {
    if length == waiting {
        ACK | PSH
    } else {
        ACK
    }
}

/// Time.
impl Endpoint<'_> {
    /// A tick of an endpoint that is not closed; none where it is quiet.
    #[inline]
    pub fn pass_time(&mut self, tick: u32) -> Option<Timeout> {
        if self.peer.is_some() {
            self.tokens = (self.tokens + FILL).min(CONGESTION_WINDOW as u32);
        }
        // most flows have not ended, and these two facts are cheaper than the phase
        if self.peer_ended && self.shut && self.phase() == Phase::TimeWait {
            return self.wait(tick);
        }
        // the timer runs for what is not acknowledged, and for bytes that wait at a window of 0
        let is_blocked = self.window == 0 && self.waiting() > 0;
        if self.una >= self.max && !is_blocked {
            self.age = 0;
            return None;
        }
        self.age += 1;
        if self.age < TIMEOUT << self.tries.min(MOST_DOUBLINGS) {
            return None;
        }
        Some(self.run_out())
    }

    fn wait(&mut self, tick: u32) -> Option<Timeout> {
        if tick - self.wait_began < WAIT {
            return None;
        }
        self.reason = Some(Reason::Done);
        Some(Timeout::WaitIsOver)
    }

    /// The timer ran out (RFC 6298, 5.4 to 5.6).
    fn run_out(&mut self) -> Timeout {
        self.tries += 1;
        self.age = 0;
        if self.tries == LAST_TRY {
            self.reason = Some(Reason::TimedOut);
            return Timeout::GivenUp;
        }
        self.nxt = self.una;
        if self.window == 0 && !self.is_opening() && self.unacknowledged() > 0 {
            self.is_probe_due = true;
            return Timeout::Probe;
        }
        Timeout::Resend
    }
}
