//! Classic pcap files, and what each of their records is to the host that is played.

use crate::segment::{self, End, Packet, Rule, Segment};
use std::collections::HashMap;
use std::hash::{BuildHasherDefault, Hasher};
use std::num::NonZeroU32;
use std::ops::Range;

const FILE_HEADER: usize = 24;
const RECORD_HEADER: usize = 16;
const ETHERNET_HEADER: usize = 14;
const LINK_ETHERNET: u32 = 1;
const LINK_RAW: u32 = 101;
/// The magic numbers of captures with microseconds and with nanoseconds.
const MAGIC: [u32; 2] = [0xa1b2c3d4, 0xa1b23c4d];
/// The most bytes of a record: a packet of 65,535 behind an Ethernet header.
const LONGEST: usize = 65535 + ETHERNET_HEADER;

/// What is no capture: the number of the record at fault, 0 for the file's header.
pub struct NoCapture(pub u32);

pub struct Capture<'a> {
    pub bytes: &'a [u8],
    is_big_endian: bool,
    is_ethernet: bool,
}

pub struct Record {
    /// Its number in the capture, from 1.
    pub number: NonZeroU32,
    /// Where its packet stands in the file; none where it was cut short, or is Ethernet without IPv4.
    pub packet: Option<Range<usize>>,
}

impl<'a> Capture<'a> {
    pub fn open(bytes: &'a [u8]) -> Result<Self, NoCapture> {
        if bytes.len() < FILE_HEADER {
            return Err(NoCapture(0));
        }
        let is_big_endian = MAGIC.contains(&segment::word(bytes, 0));
        let mut capture = Capture { bytes, is_big_endian, is_ethernet: false };
        let version = if is_big_endian { [0, 2, 0, 4] } else { [2, 0, 4, 0] };
        let link = capture.word(20);
        let is_known = MAGIC.contains(&capture.word(0)) && bytes[4..8] == version;
        if !is_known || (link != LINK_ETHERNET && link != LINK_RAW) {
            return Err(NoCapture(0));
        }
        capture.is_ethernet = link == LINK_ETHERNET;
        Ok(capture)
    }

    /// A number of the file's or of a record's header, in the byte order of the capture.
    #[inline]
    fn word(&self, at: usize) -> u32 {
        let word = segment::word(self.bytes, at);
        if self.is_big_endian {
            word
        } else {
            word.swap_bytes()
        }
    }

    /// Its records, up to the first one that is at fault.
    pub fn records(&self) -> Records<'_> {
        Records { capture: self, at: FILE_HEADER, number: NonZeroU32::MIN }
    }

    /// The packet of a record, whose bytes these are.
    fn packet_in(&self, data: Range<usize>) -> Option<Range<usize>> {
        if !self.is_ethernet {
            return Some(data);
        }
        let is_ipv4 = data.len() >= ETHERNET_HEADER && self.bytes[data.start + 12..data.start + 14] == [8, 0];
        is_ipv4.then_some(data.start + ETHERNET_HEADER..data.end)
    }
}

pub struct Records<'c> {
    capture: &'c Capture<'c>,
    at: usize,
    number: NonZeroU32,
}

impl Iterator for Records<'_> {
    type Item = Result<Record, NoCapture>;

    fn next(&mut self) -> Option<Self::Item> {
        let left = self.capture.bytes.len() - self.at;
        if left == 0 {
            return None;
        }
        let number = self.number;
        if left < RECORD_HEADER {
            return Some(Err(NoCapture(number.get())));
        }
        let captured = self.capture.word(self.at + 8) as usize;
        let original = self.capture.word(self.at + 12) as usize;
        if captured > LONGEST || left - RECORD_HEADER < captured {
            return Some(Err(NoCapture(number.get())));
        }
        let start = self.at + RECORD_HEADER;
        let data = start..start + captured;
        self.at = data.end;
        self.number = number.saturating_add(1);
        let packet = if captured < original { None } else { self.capture.packet_in(data) };
        Some(Ok(Record { number, packet }))
    }
}

/// The four-tuple of a flow in one number: its local port, its remote address and its remote port, from above. The
/// local address is the host's.
#[derive(Clone, Copy, PartialEq, Eq, Hash)]
pub struct Tuple(u64);

impl Tuple {
    fn of(local: End, remote: End) -> Tuple {
        Tuple((local.port as u64) << 48 | (remote.address as u64) << 16 | remote.port as u64)
    }

    pub fn local_port(self) -> u16 {
        (self.0 >> 48) as u16
    }

    pub fn remote(self) -> End {
        End { address: (self.0 >> 16) as u32, port: self.0 as u16 }
    }
}

/// Multiplies by the golden ratio: a four-tuple is one number, and needs no more than that.
#[derive(Default)]
pub struct TupleHasher(u64);

impl Hasher for TupleHasher {
    fn write(&mut self, _: &[u8]) {
        unreachable!("a four-tuple is one number")
    }

    fn write_u64(&mut self, number: u64) {
        let product = number.wrapping_mul(0x9e3779b97f4a7c15);
        self.0 = product ^ product >> 32;
    }

    fn finish(&self) -> u64 {
        self.0
    }
}

pub type TupleMap<V> = HashMap<Tuple, V, BuildHasherDefault<TupleHasher>>;

/// A packet of the capture: its record's number, and where it stands in the file, in bytes.
#[derive(Clone, Copy)]
pub struct Frame {
    pub record: NonZeroU32,
    pub at: usize,
}

#[derive(Clone, Copy)]
pub enum Content<'a> {
    /// It comes to the host and breaks this rule.
    Damaged(Rule),
    /// It comes to the host.
    Remote(Tuple, Segment<'a>),
    /// The local host sent it, which shows what its application did.
    Local(Tuple, Segment<'a>),
}

impl<'a> Content<'a> {
    /// What a packet is to the host with this address; none where it is passed over.
    #[inline]
    pub fn of(bytes: &'a [u8], local: u32) -> Option<Self> {
        let packet = match Packet::read(bytes) {
            Err(Rule::Version | Rule::Fragment | Rule::Protocol) => return None,
            // the seventh rule, which was not looked at, comes before the eighth
            Err(Rule::TcpHeader) if !segment::has_right_ip_sum(bytes) => {
                return Some(Content::Damaged(Rule::IpChecksum));
            }
            Err(rule) => return Some(Content::Damaged(rule)),
            Ok(packet) => packet,
        };
        if packet.source.address == local {
            return Some(Content::Local(Tuple::of(packet.source, packet.target), packet.segment));
        }
        if packet.target.address != local {
            return None;
        }
        if !segment::has_right_ip_sum(bytes) {
            return Some(Content::Damaged(Rule::IpChecksum));
        }
        if !packet.has_right_tcp_sum() {
            return Some(Content::Damaged(Rule::TcpChecksum));
        }
        Some(Content::Remote(Tuple::of(packet.target, packet.source), packet.segment))
    }

    /// The flow that it is of; none for a damaged packet.
    pub fn tuple(&self) -> Option<Tuple> {
        match *self {
            Content::Damaged(_) => None,
            Content::Remote(tuple, _) | Content::Local(tuple, _) => Some(tuple),
        }
    }
}

/// A record that is not passed over.
pub struct Item<'a> {
    pub frame: Frame,
    pub content: Content<'a>,
}
