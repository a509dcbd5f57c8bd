//! The host that is played: its slots, its index, and what it does in a tick (docs/ROUNDS.md, in serial order).

use crate::capture::{Content, Frame, Item, Tuple, TupleMap};
use crate::endpoint::Endpoint;
use crate::flow::{FinishedFlow, Flow, Opening};
use crate::report::Report;
use crate::script::{Cue, Starts};
use crate::segment::{Segment, ACK, RST, SYN};
use std::io;

const SLOTS: usize = 1024;

pub struct Host<'a> {
    starts: Starts,
    /// The lines of the log are the first ones of the host in the report, and go there at once.
    report: Report<'a>,
    /// The slot of each four-tuple's flow.
    index: TupleMap<u16>,
    slots: Vec<Option<Flow<'a>>>,
    /// A bit for each slot that is free.
    free: [u64; SLOTS / 64],
    generations: [u32; SLOTS],
    /// All flows in the order of their opening; those that are not over yet are in the slots.
    flows: Vec<Option<FinishedFlow<'a>>>,
    /// The slots of the flows that may have something to send in this tick.
    sending: Vec<u16>,
}

impl<'a> Host<'a> {
    pub fn new(starts: Starts, report: Report<'a>) -> Self {
        Host {
            starts,
            report,
            index: TupleMap::default(),
            slots: Vec::new(),
            free: [u64::MAX; SLOTS / 64],
            generations: [0; SLOTS],
            flows: Vec::new(),
            sending: Vec::new(),
        }
    }

    /// Plays a tick, in which these items come.
    pub fn play(&mut self, tick: u32, batch: &[Item<'a>]) -> io::Result<()> {
        self.pass_time(tick);
        for item in batch {
            match &item.content {
                &Content::Damaged(rule) => self.report.refused(tick, item.frame.record, rule)?,
                Content::Remote(tuple, segment) => self.deliver(tick, item.frame, *tuple, segment)?,
                Content::Local(..) => {}
            }
        }
        for item in batch {
            match &item.content {
                Content::Damaged(_) => {}
                &Content::Remote(tuple, _) => {
                    if let Some(flow) = self.flow_served(tuple) {
                        flow.serve(Cue::Remote);
                    }
                }
                Content::Local(tuple, segment) => self.serve_local(tick, *tuple, segment)?,
            }
        }
        for &slot in &self.sending {
            if let Some(flow) = &mut self.slots[slot as usize] {
                flow.emit_all();
            }
        }
        self.sending.clear();
        Ok(())
    }

    /// Ends the run: all flows in the order of their opening, and the report, whose lines of the log are written.
    pub fn end(self) -> (Vec<Option<FinishedFlow<'a>>>, Report<'a>) {
        let mut flows = self.flows;
        for flow in self.slots.into_iter().flatten() {
            let number = flow.number;
            flows[number] = Some(flow.finish());
        }
        (flows, self.report)
    }

    /// Closed flows leave the index, and their slots where no application holds them; for others time passes.
    fn pass_time(&mut self, tick: u32) {
        for (slot, place) in self.slots.iter_mut().enumerate() {
            if let Some(flow) = place.take_if(|flow| flow.is_closed()) {
                self.index.remove(&flow.opening.tuple);
                if !flow.application.holds {
                    self.free[slot / 64] |= 1 << (slot % 64);
                }
                let number = flow.number;
                self.flows[number] = Some(flow.finish());
            } else if place.as_mut().is_some_and(|flow| flow.pass_time(tick)) {
                self.sending.push(slot as u16);
            }
        }
    }

    /// A frame comes to its flow; or to none, and then a SYN opens one.
    fn deliver(&mut self, tick: u32, frame: Frame, tuple: Tuple, segment: &Segment<'a>) -> io::Result<()> {
        if let Some(&slot) = self.index.get(&tuple) {
            if let Some(flow) = &mut self.slots[slot as usize] {
                flow.arrives(tick, frame, segment);
            }
            return Ok(());
        }
        if !segment.has(SYN) || segment.has(RST | ACK) {
            return self.report.stray(tick, frame.record, segment);
        }
        let Some(slot) = self.lowest_free() else { return self.report.dropped(tick, frame.record) };
        self.open(tick, slot, tuple, Some((frame, segment)));
        Ok(())
    }

    /// Serves the script of a local segment's flow, which a SYN may have to connect first.
    fn serve_local(&mut self, tick: u32, tuple: Tuple, segment: &Segment<'a>) -> io::Result<()> {
        if segment.has(SYN) && !segment.has(ACK) && !self.index.contains_key(&tuple) {
            match self.lowest_free() {
                Some(slot) => self.open(tick, slot, tuple, None),
                None => self.report.connect_refused(tick, tuple)?,
            }
        }
        if let Some(flow) = self.flow_served(tuple) {
            flow.application.see(&flow.endpoint, segment);
            flow.serve(if segment.has(RST) { Cue::LocalReset } else { Cue::Local });
        }
        Ok(())
    }

    /// The flow of a record, whose script is served and which may then have something to send.
    fn flow_served(&mut self, tuple: Tuple) -> Option<&mut Flow<'a>> {
        let slot = *self.index.get(&tuple)?;
        self.sending.push(slot);
        self.slots[slot as usize].as_mut()
    }

    fn lowest_free(&self) -> Option<u16> {
        let group = self.free.iter().position(|&bits| bits != 0)?;
        Some((64 * group) as u16 + self.free[group].trailing_zeros() as u16)
    }

    /// Opens a flow in a slot that is free, by a SYN that came or by an application's connect.
    fn open(&mut self, tick: u32, slot: u16, tuple: Tuple, syn: Option<(Frame, &Segment<'a>)>) {
        let number = self.flows.len();
        let start = self.starts.take(tuple, number);
        let place = slot as usize;
        self.free[place / 64] &= !(1 << (place % 64));
        self.generations[place] += 1;
        let generation = self.generations[place];
        let endpoint = match syn {
            Some((_, segment)) => Endpoint::accepting(start, segment),
            None => Endpoint::connecting(start),
        };
        let (iss, scale) = (start.number, endpoint.shift_in_syn());
        let opening = Opening { tuple, slot, generation, tick, iss, scale, syn: syn.map(|(frame, _)| frame) };
        // the lowest slot that is free is at most one past those that were ever used
        if place == self.slots.len() {
            self.slots.push(None);
        }
        self.slots[place] = Some(Flow::new(number, opening, endpoint));
        self.index.insert(tuple, slot);
        self.flows.push(None);
    }
}
