//! A flow: an endpoint with its history, and how an application used it.

use crate::capture::{Frame, Tuple};
use crate::endpoint::Endpoint;
use crate::history::{Entry, History, Phase};
use crate::script::Application;
use crate::segment::{Header, Segment, ACK, FIN, RST, SYN, URG};

/// What a report says of a flow's opening.
#[derive(Clone, Copy)]
pub struct Opening {
    pub tuple: Tuple,
    pub slot: u16,
    pub generation: u32,
    pub tick: u32,
    pub iss: u32,
    /// The shift that its SYN bears, if it bears one.
    pub scale: Option<u8>,
    /// The SYN that opened it; none where an application's connect did.
    pub syn: Option<Frame>,
}

pub struct Flow<'a> {
    /// How many flows were opened before it.
    pub number: usize,
    pub opening: Opening,
    pub endpoint: Endpoint<'a>,
    pub application: Application,
    pub history: History,
}

/// A flow that is over, as a report shows it. What was read of it is told by its entries.
pub struct FinishedFlow<'a> {
    pub opening: Opening,
    pub phase: Phase,
    pub entries: Box<[Entry]>,
    /// The bytes that were received in order, piece by piece, and those that were accepted for sending.
    pub pieces: Box<[&'a [u8]]>,
    pub sent: Box<[u8]>,
}

const _: () = assert!(size_of::<FinishedFlow>() == 96);

impl<'a> Flow<'a> {
    pub fn new(number: usize, opening: Opening, endpoint: Endpoint<'a>) -> Self {
        // who connects has the socket at once
        let application = Application::new(opening.syn.is_none());
        Flow { number, opening, endpoint, application, history: History::default() }
    }

    pub fn is_closed(&self) -> bool {
        self.endpoint.reason.is_some()
    }

    pub fn finish(self) -> FinishedFlow<'a> {
        FinishedFlow {
            opening: self.opening,
            phase: self.endpoint.phase(),
            entries: self.history.into_entries(),
            pieces: self.endpoint.pieces.into_boxed_slice(),
            sent: self.application.shown.into_boxed_slice(),
        }
    }

    /// A segment comes, of this frame.
    pub fn arrives(&mut self, tick: u32, frame: Frame, segment: &Segment<'a>) {
        let Frame { record, at } = frame;
        let by_core = is_for_core(self.endpoint.phase(), segment);
        self.history.add(match self.endpoint.arrives(tick, segment) {
            None => Entry::Unanswered { by_core, record, at },
            Some(Header { seq, ack, window, .. }) if by_core => Entry::Acknowledged { record, at, seq, ack, window },
            Some(Header { flags, seq, ack, window }) => Entry::Answered { record, at, flags, seq, ack, window },
        });
    }

    /// A tick passes of a flow that is not closed. Says whether there may be something to send.
    #[inline]
    pub fn pass_time(&mut self, tick: u32) -> bool {
        match self.endpoint.pass_time(tick) {
            None => {
                self.history.add_quiet_tick();
                self.endpoint.waiting() > 0
            }
            Some(timeout) => {
                self.history.add(Entry::Timeout(timeout));
                true
            }
        }
    }

    /// Sends all that may go.
    pub fn emit_all(&mut self) {
        while let Some(emission) = self.endpoint.emit() {
            let Header { flags, seq, ack, window } = emission.header;
            let (at, length) = (emission.at, emission.length);
            self.history.add(Entry::Emit { flags, seq, ack, window, at, length });
        }
    }
}

/// Whether the fast path of a core takes a segment, and not the slow path.
fn is_for_core(phase: Phase, segment: &Segment) -> bool {
    use crate::history::Phase::*;
    let is_plain = segment.has(ACK) && !segment.has(SYN | FIN | RST | URG);
    is_plain && matches!(phase, Established | FinWait1 | FinWait2 | CloseWait)
}
