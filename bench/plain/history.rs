//! Histories of flows: what their endpoints were asked and what they answered, call by call.

use std::num::NonZeroU32;

/// Why a flow is closed.
#[derive(Clone, Copy, PartialEq)]
pub enum Reason {
    Done,
    Reset,
    Refused,
    TimedOut,
    Aborted,
}

/// The states of RFC 9293, 3.3.2, but for LISTEN.
#[derive(Clone, Copy, PartialEq)]
pub enum Phase {
    SynSent,
    SynReceived,
    Established,
    FinWait1,
    FinWait2,
    CloseWait,
    Closing,
    LastAck,
    TimeWait,
    Closed(Reason),
}

/// What an application's call is answered without bytes.
#[derive(Clone, Copy)]
pub enum Reply {
    Ok,
    Nothing,
    End,
    NotYet,
    Shut,
    Closed(Reason),
}

/// What a tick does that is not quiet.
#[derive(Clone, Copy)]
pub enum Timeout {
    /// Sending goes back to what is not acknowledged.
    Resend,
    /// A window of 0 is probed.
    Probe,
    /// TIME-WAIT is over.
    WaitIsOver,
    /// The last try was in vain.
    GivenUp,
}

/// A call of the application with its reply.
pub enum Call {
    Accept,
    /// A Send of so many bytes of which none was taken.
    Send {
        offered: u32,
        reply: Reply,
    },
    Took {
        offered: u32,
        taken: u32,
    },
    Shut(Reply),
    Abort(Reply),
    /// An Abort that tells the peer by a reset.
    AbortByReset {
        seq: u32,
    },
    /// A Recv that gave no bytes.
    Recv(Reply),
    /// A Recv of the next so many bytes that were received.
    Got(u32),
    /// A Recv that shows the peer by an ACK that the window is open again.
    GotThen {
        length: u32,
        seq: u32,
        ack: u32,
        window: u16,
    },
}

/// An entry of a flow's history. Its tick and its number follow from the entries before it: in each tick after its
/// opening a flow has one tick, until it is closed. A segment that came is named by its record and by where its packet
/// stands in the capture, in bytes, and is read there again for the report; one that was sent, by where its bytes
/// stand among those that were accepted.
///
/// The numbers of headers and frames stand here side by side, as most of the memory of a run is its entries.
pub enum Entry {
    /// So many quiet ticks in a row.
    Quiet(u32),
    Timeout(Timeout),
    /// A segment came and was answered by nothing; core 0 took it, or else the slow path.
    Unanswered {
        by_core: bool,
        record: NonZeroU32,
        at: usize,
    },
    /// Core 0 took a segment and answered by an ACK.
    Acknowledged {
        record: NonZeroU32,
        at: usize,
        seq: u32,
        ack: u32,
        window: u16,
    },
    /// The slow path took a segment and answered.
    Answered {
        record: NonZeroU32,
        at: usize,
        flags: u8,
        seq: u32,
        ack: u32,
        window: u16,
    },
    Emit {
        flags: u8,
        seq: u32,
        ack: u32,
        window: u16,
        at: usize,
        length: u16,
    },
    Call(Call),
}

const _: () = assert!(size_of::<Entry>() == 24);

#[derive(Default)]
pub struct History {
    entries: Vec<Entry>,
    /// How many quiet ticks came behind the last entry.
    quiet: u32,
}

impl History {
    pub fn add(&mut self, entry: Entry) {
        self.end_quiet();
        self.entries.push(entry);
    }

    pub fn add_call(&mut self, call: Call) {
        self.add(Entry::Call(call));
    }

    pub fn add_quiet_tick(&mut self) {
        self.quiet += 1;
    }

    pub fn into_entries(mut self) -> Box<[Entry]> {
        self.end_quiet();
        self.entries.into_boxed_slice()
    }

    fn end_quiet(&mut self) {
        if self.quiet > 0 {
            self.entries.push(Entry::Quiet(self.quiet));
            self.quiet = 0;
        }
    }
}
