//! Segments, and the IPv4 packets that carry them.

pub const FIN: u8 = 1;
pub const SYN: u8 = 2;
pub const RST: u8 = 4;
pub const PSH: u8 = 8;
pub const ACK: u8 = 16;
pub const URG: u8 = 32;

const PROTOCOL_TCP: u8 = 6;

/// What a segment says beside its options and its payload, as it stands on the wire (RFC 9293, 3.1).
#[derive(Clone, Copy)]
pub struct Header {
    pub flags: u8,
    pub seq: u32,
    pub ack: u32,
    pub window: u16,
}

impl Header {
    /// A reset without ACK, as one that answers an acknowledgement is (RFC 9293, 3.5.2).
    pub fn reset(seq: u32) -> Header {
        Header { flags: RST, seq, ack: 0, window: 0 }
    }
}

#[derive(Clone, Copy)]
pub struct Segment<'a> {
    pub header: Header,
    /// The MSS option, in bytes, and the shift of the option Window Scale; they are looked for in a SYN alone (RFC 9293,
    /// 3.7.1; RFC 7323, 2.2).
    pub mss: Option<u16>,
    pub scale: Option<u8>,
    pub payload: &'a [u8],
}

impl Segment<'_> {
    /// Whether one of these flags is set.
    pub fn has(&self, flags: u8) -> bool {
        self.header.flags & flags != 0
    }

    /// SEG.LEN: the bytes of the payload, and one for each of SYN and FIN (RFC 9293, 3.4).
    pub fn length(&self) -> u64 {
        self.payload.len() as u64 + self.has(SYN) as u64 + self.has(FIN) as u64
    }

    /// What it gets where there is no connection (RFC 9293, 3.10.7.1).
    pub fn closed_reply(&self) -> Option<Header> {
        if self.has(RST) {
            None
        } else if self.has(ACK) {
            Some(Header::reset(self.header.ack))
        } else {
            let ack = self.header.seq.wrapping_add(self.length() as u32);
            Some(Header { flags: RST | ACK, seq: 0, ack, window: 0 })
        }
    }
}

/// One end of a connection.
#[derive(Clone, Copy)]
pub struct End {
    pub address: u32,
    pub port: u16,
}

pub struct Packet<'a> {
    pub source: End,
    pub target: End,
    pub segment: Segment<'a>,
    bytes: &'a [u8],
    tcp: &'a [u8],
}

/// The rules of reading a packet, by the numbers that a report shows.
#[derive(Clone, Copy)]
pub enum Rule {
    /// It has the 20 bytes of a header without options.
    IpHeader = 1,
    /// It is IPv4.
    Version = 2,
    /// Its header is 20 bytes or more, and all there.
    HeaderLength = 3,
    /// All that its total length counts is there.
    TotalLength = 4,
    /// It is no fragment.
    Fragment = 5,
    /// It carries TCP.
    Protocol = 6,
    /// The checksum of its header is right.
    IpChecksum = 7,
    /// The segment's header is 20 bytes or more, and all there.
    TcpHeader = 8,
    /// The checksum of the segment is right.
    TcpChecksum = 9,
}

impl<'a> Packet<'a> {
    /// Reads a packet without its checksums, or says which rule it breaks first.
    pub fn read(bytes: &'a [u8]) -> Result<Self, Rule> {
        let tcp = tcp_in(bytes)?;
        if tcp.len() < 20 {
            return Err(Rule::TcpHeader);
        }
        let offset = 4 * (tcp[12] >> 4) as usize;
        if offset < 20 || tcp.len() < offset {
            return Err(Rule::TcpHeader);
        }
        let header = Header { flags: tcp[13], seq: word(tcp, 4), ack: word(tcp, 8), window: half_word(tcp, 14) };
        let (mss, scale) = if header.flags & SYN != 0 { options_in(&tcp[20..offset]) } else { (None, None) };
        Ok(Packet {
            source: End { address: word(bytes, 12), port: half_word(tcp, 0) },
            target: End { address: word(bytes, 16), port: half_word(tcp, 2) },
            segment: Segment { header, mss, scale, payload: &tcp[offset..] },
            bytes,
            tcp,
        })
    }

    /// Whether the checksum of the segment, with the pseudo header before it, is right (RFC 9293, 3.1).
    pub fn has_right_tcp_sum(&self) -> bool {
        let protocol = (PROTOCOL_TCP as u16).to_be() as u64;
        let length = (self.tcp.len() as u16).to_be() as u64;
        is_right(sum(&self.bytes[12..20]) + protocol + length + sum(self.tcp))
    }
}

/// The segment's bytes in an IPv4 packet (RFC 791, 3.1).
fn tcp_in(bytes: &[u8]) -> Result<&[u8], Rule> {
    if bytes.len() < 20 {
        return Err(Rule::IpHeader);
    }
    if bytes[0] >> 4 != 4 {
        return Err(Rule::Version);
    }
    let header = header_length(bytes);
    if header < 20 || bytes.len() < header {
        return Err(Rule::HeaderLength);
    }
    let total = half_word(bytes, 2) as usize;
    if total < header || bytes.len() < total {
        return Err(Rule::TotalLength);
    }
    // the flag of more fragments, and this one's offset
    if half_word(bytes, 6) & 0x3fff != 0 {
        return Err(Rule::Fragment);
    }
    if bytes[9] != PROTOCOL_TCP {
        return Err(Rule::Protocol);
    }
    Ok(&bytes[header..total])
}

fn header_length(bytes: &[u8]) -> usize {
    4 * (bytes[0] & 15) as usize
}

/// Whether the checksum of an IPv4 header is right, all of which is there.
pub fn has_right_ip_sum(bytes: &[u8]) -> bool {
    is_right(sum(&bytes[..header_length(bytes)]))
}

/// The first MSS and the first shift among a segment's options, up to the end of the list or one that is malformed
/// (RFC 9293, 3.2). A shift above 14 is read as 14 (RFC 7323, 2.3).
fn options_in(mut options: &[u8]) -> (Option<u16>, Option<u8>) {
    let (mut mss, mut scale) = (None, None);
    loop {
        match *options {
            [] | [0, ..] => break,
            [1, ..] => {
                options = &options[1..];
                continue;
            }
            [2, 4, high, low, ..] => mss = mss.or(Some(u16::from_be_bytes([high, low]))),
            [3, 3, shift, ..] => scale = scale.or(Some(shift.min(14))),
            _ => {}
        }
        match *options {
            [_, length, ..] if length >= 2 && length as usize <= options.len() => options = &options[length as usize..],
            _ => break,
        }
    }
    (mss, scale)
}

fn half_word(bytes: &[u8], at: usize) -> u16 {
    u16::from_be_bytes([bytes[at], bytes[at + 1]])
}

/// The 32 bits at this place, the most significant byte first.
pub fn word(bytes: &[u8], at: usize) -> u32 {
    u32::from_be_bytes([bytes[at], bytes[at + 1], bytes[at + 2], bytes[at + 3]])
}

/// A number with the remainder modulo 65,535 of the sum of all 16-bit words. They are added two at once and in the
/// machine's byte order, neither of which matters to whether a checksum is right (RFC 1071, 2).
fn sum(bytes: &[u8]) -> u64 {
    let (words, rest) = bytes.as_chunks::<4>();
    let mut last = [0; 4];
    last[..rest.len()].copy_from_slice(rest);
    words.iter().map(|word| u32::from_ne_bytes(*word) as u64).sum::<u64>() + u32::from_ne_bytes(last) as u64
}

/// With a right checksum the words sum to 65,535 in ones' complement, and so to a multiple of it that is not 0.
fn is_right(sum: u64) -> bool {
    sum != 0 && sum.is_multiple_of(65535)
}
