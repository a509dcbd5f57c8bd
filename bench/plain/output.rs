//! A buffered output with the texts that a report is made of.

use crate::history::{Reason, Reply};
use crate::segment::{End, Header, Segment};
use std::fs::File;
use std::io::{self, Write};
use std::os::fd::AsFd;

/// So many bytes of the buffer are filled before it is written. As much again is room for what `begin` precedes.
const FULL: usize = 64 << 10;

pub struct Output {
    file: File,
    buffer: Box<[u8]>,
    length: usize,
}

static PAIRS: [[u8; 2]; 100] = {
    let mut table = [[0; 2]; 100];
    let mut number = 0;
    while number < 100 {
        table[number] = [b'0' + (number / 10) as u8, b'0' + (number % 10) as u8];
        number += 1;
    }
    table
};

impl Output {
    /// Standard output as a file, without the buffer of `io::stdout`, which looks for the ends of lines.
    pub fn stdout() -> io::Result<Self> {
        let file = File::from(io::stdout().as_fd().try_clone_to_owned()?);
        Ok(Output { file, buffer: vec![0; 2 * FULL].into_boxed_slice(), length: 0 })
    }

    pub fn flush(&mut self) -> io::Result<()> {
        self.file.write_all(&self.buffer[..self.length])?;
        self.length = 0;
        Ok(())
    }

    /// Makes room for the texts and numbers of a line, or for what is left of one behind its bytes.
    #[inline]
    pub fn begin(&mut self) -> io::Result<()> {
        if self.length >= FULL {
            self.flush()
        } else {
            Ok(())
        }
    }

    /// A text whose length is known when this is compiled, so that it is copied by a move or two.
    #[inline]
    pub fn text<const N: usize>(&mut self, text: &[u8; N]) {
        self.buffer[self.length..self.length + N].copy_from_slice(text);
        self.length += N;
    }

    pub fn string(&mut self, text: &str) {
        self.buffer[self.length..self.length + text.len()].copy_from_slice(text.as_bytes());
        self.length += text.len();
    }

    #[inline]
    pub fn number(&mut self, mut number: u32) {
        let digits = number.checked_ilog10().unwrap_or(0) as usize + 1;
        let (first, pairs) = self.buffer[self.length..self.length + digits].as_rchunks_mut();
        self.length += digits;
        for pair in pairs.iter_mut().rev() {
            *pair = PAIRS[(number % 100) as usize];
            number /= 100;
        }
        if let [first] = first {
            *first = b'0' + number as u8;
        }
    }

    /// Two digits a byte. There may be more of them than the buffer has room for.
    pub fn hex(&mut self, bytes: &[u8]) -> io::Result<()> {
        let digit = |half: u8| half + if half < 10 { b'0' } else { b'a' - 10 };
        for part in bytes.chunks(FULL / 4) {
            self.begin()?;
            let (places, _) = self.buffer[self.length..self.length + 2 * part.len()].as_chunks_mut::<2>();
            for (place, byte) in places.iter_mut().zip(part) {
                *place = [digit(byte >> 4), digit(byte & 15)];
            }
            self.length += 2 * part.len();
        }
        self.begin()
    }

    pub fn address(&mut self, address: u32) {
        let [first, rest @ ..] = address.to_be_bytes();
        self.number(first as u32);
        for part in rest {
            self.text(b".");
            self.number(part as u32);
        }
    }

    pub fn end(&mut self, end: End) {
        self.address(end.address);
        self.text(b":");
        self.number(end.port as u32);
    }

    pub fn header(&mut self, header: Header) {
        if header.flags == 0 {
            self.text(b"-");
        }
        for (place, letter) in b"CEUAPRSF".iter().enumerate() {
            if header.flags & 0x80 >> place != 0 {
                self.text(&[*letter]);
            }
        }
        self.text(b" seq ");
        self.number(header.seq);
        self.text(b" ack ");
        self.number(header.ack);
        self.text(b" win ");
        self.number(header.window as u32);
    }

    pub fn payload(&mut self, bytes: &[u8]) -> io::Result<()> {
        if bytes.is_empty() {
            return Ok(());
        }
        self.text(b" data ");
        self.hex(bytes)
    }

    pub fn segment(&mut self, segment: &Segment) -> io::Result<()> {
        self.header(segment.header);
        self.options(segment.mss, segment.scale);
        self.payload(segment.payload)
    }

    pub fn options(&mut self, mss: Option<u16>, scale: Option<u8>) {
        if let Some(mss) = mss {
            self.text(b" mss ");
            self.number(mss as u32);
        }
        if let Some(shift) = scale {
            self.text(b" ws ");
            self.number(shift as u32);
        }
    }

    pub fn reply(&mut self, reply: Reply) {
        match reply {
            Reply::Ok => self.text(b"ok"),
            Reply::Nothing => self.text(b"none"),
            Reply::End => self.text(b"end"),
            Reply::NotYet => self.text(b"notyet"),
            Reply::Shut => self.text(b"shut"),
            Reply::Closed(reason) => {
                self.text(b"closed ");
                self.reason(reason);
            }
        }
    }

    pub fn reason(&mut self, reason: Reason) {
        self.string(match reason {
            Reason::Done => "done",
            Reason::Reset => "reset",
            Reason::Refused => "refused",
            Reason::TimedOut => "timedout",
            Reason::Aborted => "aborted",
        });
    }
}
