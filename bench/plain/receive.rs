//! A segment arrives at an endpoint (RFC 9293, 3.10.7, with RFC 5961 for resets and SYNs in the window).

use crate::endpoint::Endpoint;
use crate::history::{Phase, Reason};
use crate::segment::{Header, Segment, ACK, FIN, RST, SYN};
use std::collections::VecDeque;

/// Bytes past a gap, the first of which is byte `at` of the stream.
pub struct Island<'a> {
    at: u64,
    length: u64,
    pieces: VecDeque<&'a [u8]>,
}

/// A segment that came where the peer's SYN is known, by places.
struct Arrival<'s, 'a> {
    segment: &'s Segment<'a>,
    tick: u32,
    /// The phase, the next place expected and the room before anything of the segment is taken.
    phase: Phase,
    expected: u64,
    room: u64,
    place: u64,
}

impl Arrival<'_, '_> {
    /// The four tests of RFC 9293, 3.10.7.4, by the room that there is.
    fn is_acceptable(&self) -> bool {
        let is_within = |place: u64| self.expected <= place && place < self.expected + self.room;
        match (self.segment.length(), self.room) {
            (0, 0) => self.place == self.expected,
            (0, _) => is_within(self.place),
            (length, _) => is_within(self.place) || is_within(self.place + length - 1),
        }
    }
}

/// 2^32 more than the place nearest to `near` that has this number modulo 2^32, as a place may be negative.
pub fn raised_place(near: u64, number: u32) -> u64 {
    let base = near + (1 << 31);
    base + number.wrapping_sub(base as u32) as u64
}

fn nearest_place(near: u64, number: u32) -> Option<u64> {
    raised_place(near, number).checked_sub(1 << 32)
}

impl<'a> Endpoint<'a> {
    /// Takes a segment, and gives what it is answered.
    pub fn arrives(&mut self, tick: u32, segment: &Segment<'a>) -> Option<Header> {
        match self.phase() {
            Phase::Closed(_) => segment.closed_reply(),
            Phase::SynSent => self.arrives_in_syn_sent(segment),
            phase => self.arrives_later(tick, phase, segment),
        }
    }

    /// RFC 9293, 3.10.7.3, without simultaneous open: a SYN without ACK is dropped.
    fn arrives_in_syn_sent(&mut self, segment: &Segment) -> Option<Header> {
        let is_of_syn = self.max >= 1 && self.place_of_ack(segment) == 1;
        if segment.has(ACK) && !is_of_syn {
            return if segment.has(RST) { None } else { Some(Header::reset(segment.header.ack)) };
        }
        if segment.has(RST) {
            if segment.has(ACK) {
                self.reason = Some(Reason::Refused);
            }
            return None;
        }
        if !segment.has(SYN) || !segment.has(ACK) {
            return None;
        }
        self.peer = Some(segment.header.seq);
        self.una = 1;
        self.nxt = self.nxt.max(1);
        self.window = segment.header.window as u32;
        self.wl1 = 0;
        self.wl2 = 1;
        self.age = 0;
        self.tries = 0;
        self.take_options(segment);
        Some(self.ack())
    }

    /// RFC 9293, 3.10.7.4.
    fn arrives_later(&mut self, tick: u32, phase: Phase, segment: &Segment<'a>) -> Option<Header> {
        let (expected, room) = (self.next_place(), self.own_window());
        let number = segment.header.seq.wrapping_sub(self.peer.unwrap_or(0));
        let Some(place) = nearest_place(expected, number) else {
            return self.refusal(segment);
        };
        let arrival = Arrival { segment, tick, phase, expected, room, place };
        if !arrival.is_acceptable() {
            return self.arrives_outside(&arrival);
        }
        if segment.has(RST) {
            if place != expected {
                return Some(self.ack());
            }
            self.reason = Some(Reason::Reset);
            return None;
        }
        if segment.has(SYN) {
            return Some(self.ack());
        }
        if !segment.has(ACK) {
            return None;
        }
        if let Err(answer) = self.take_ack(&arrival) {
            return Some(answer);
        }
        if segment.payload.is_empty() && !segment.has(FIN) {
            return None;
        }
        if !self.peer_ended {
            self.take_payload(&arrival);
            self.take_fin(&arrival);
        }
        Some(self.ack())
    }

    fn refusal(&self, segment: &Segment) -> Option<Header> {
        if segment.has(RST) {
            None
        } else {
            Some(self.ack())
        }
    }

    /// A segment that is not acceptable. Of one that a window of 0 has no room for the ACK is taken still, so that this
    /// side's own bytes may go on (RFC 9293, 3.10.7.4, on RCV.WND of 0).
    fn arrives_outside(&mut self, arrival: &Arrival<'_, 'a>) -> Option<Header> {
        let segment = arrival.segment;
        if arrival.room != 0 || arrival.place != arrival.expected || segment.has(RST | SYN) {
            return self.refusal(segment);
        }
        let refused = if segment.has(ACK) { self.take_ack(arrival).err() } else { None };
        Some(refused.unwrap_or_else(|| self.ack()))
    }

    /// The place that a segment acknowledges; one that would be negative counts as 0.
    fn place_of_ack(&self, segment: &Segment) -> u64 {
        nearest_place(self.max, segment.header.ack.wrapping_sub(self.iss)).unwrap_or(0)
    }

    /// Takes an acknowledgement, or gives the answer to one of what was never sent.
    fn take_ack(&mut self, arrival: &Arrival) -> Result<(), Header> {
        let segment = arrival.segment;
        let acknowledged = self.place_of_ack(segment);
        if self.una == 0 && (acknowledged < 1 || acknowledged > self.max) {
            return Err(Header::reset(segment.header.ack));
        }
        if acknowledged > self.max {
            return Err(self.ack());
        }
        let moves_window = self.moves_window(arrival.place, acknowledged);
        self.count_duplicate(segment, acknowledged);
        if acknowledged > self.una {
            self.una = acknowledged;
            self.nxt = self.nxt.max(acknowledged);
            self.duplicates = 0;
            self.age = 0;
            self.tries = 0;
        }
        if moves_window {
            self.take_window(self.offered(segment));
            self.wl1 = arrival.place;
            self.wl2 = acknowledged;
        }
        if self.is_fin_acknowledged() {
            match arrival.phase {
                Phase::LastAck => self.reason = Some(Reason::Done),
                Phase::Closing => self.wait_began = arrival.tick,
                _ => {}
            }
        }
        Ok(())
    }

    /// Whether a segment is as new as the one that the window is from; in SYN-RECEIVED each is.
    fn moves_window(&self, place: u64, acknowledged: u64) -> bool {
        let is_newer = self.wl1 < place || (self.wl1 == place && self.wl2 <= acknowledged);
        self.una == 0 || (acknowledged >= self.una && is_newer)
    }

    /// The third duplicate makes sending go back (RFC 5681, 2 and 3.2).
    fn count_duplicate(&mut self, segment: &Segment, acknowledged: u64) {
        let is_in_flight = self.una < self.max && self.window > 0;
        let is_same = acknowledged == self.una && self.offered(segment) == self.window;
        if !is_in_flight || !is_same || segment.length() != 0 {
            return;
        }
        if self.duplicates == 2 {
            self.nxt = self.una;
        }
        self.duplicates = (self.duplicates + 1).min(3);
    }

    fn take_window(&mut self, window: u32) {
        if self.window == 0 && window > 0 {
            self.age = 0;
            self.is_probe_due = false;
        }
        if window == 0 {
            // a peer that says so lives, and is not given up
            self.tries = 0;
        }
        self.window = window;
    }

    /// Takes what lies in the window of a payload, in order or past a gap.
    fn take_payload(&mut self, arrival: &Arrival<'_, 'a>) {
        let (place, expected, payload) = (arrival.place, arrival.expected, arrival.segment.payload);
        let first = place.max(expected);
        let known = payload.len().min(expected.saturating_sub(place) as usize);
        let most = (expected + arrival.room).saturating_sub(first);
        let fresh = &payload[known..];
        let fresh = &fresh[..fresh.len().min(most as usize)];
        if fresh.is_empty() {
            return;
        }
        if first != expected {
            return self.keep_apart(first - 1, fresh);
        }
        self.pieces.push(fresh);
        self.received += fresh.len() as u64;
        let received = self.received;
        if let Some(island) = self.island.take_if(|island| island.at <= received) {
            self.take_island(*island);
        }
    }

    /// Receives what is new of an island that has no gap before it any more.
    fn take_island(&mut self, island: Island<'a>) {
        let mut known = self.received - island.at;
        for piece in island.pieces {
            let skipped = known.min(piece.len() as u64);
            known -= skipped;
            let fresh = &piece[skipped as usize..];
            if !fresh.is_empty() {
                self.pieces.push(fresh);
                self.received += fresh.len() as u64;
            }
        }
    }

    /// Bytes past a gap become the island, or are joined to it where they meet; others are dropped.
    fn keep_apart(&mut self, at: u64, bytes: &'a [u8]) {
        let length = bytes.len() as u64;
        let Some(island) = &mut self.island else {
            self.island = Some(Box::new(Island { at, length, pieces: VecDeque::from([bytes]) }));
            return;
        };
        let end = island.at + island.length;
        if at > end || island.at > at + length {
            return;
        }
        if at + length > end {
            island.pieces.push_back(&bytes[(end - at) as usize..]);
            island.length = at + length - island.at;
        }
        if at < island.at {
            island.pieces.push_front(&bytes[..(island.at - at) as usize]);
            island.length += island.at - at;
            island.at = at;
        }
    }

    /// Takes a FIN that stands in order and in the window.
    fn take_fin(&mut self, arrival: &Arrival) {
        let end = arrival.place + arrival.segment.payload.len() as u64;
        let is_next = end == 1 + self.received && end <= arrival.expected + arrival.room;
        if !arrival.segment.has(FIN) || !is_next {
            return;
        }
        if self.phase() == Phase::FinWait2 {
            self.wait_began = arrival.tick;
        }
        self.peer_ended = true;
        self.peer_ended_first = !self.shut;
        self.island = None;
    }
}
