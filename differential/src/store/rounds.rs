//! Drive rounds, and rounds of a pipe from a host writer to a host reader.

use super::Store;
use crate::codes::Stop;
use crate::hosts::Answer;
use crate::streams::{Owner, Side};

impl Store {
    /// Each stream that has a host end has one turn, in the order of their numbers.
    pub(super) fn drive_once(&mut self) -> Result<(), Stop> {
        for number in self.hosted_streams() {
            let stream = &mut self.streams[number as usize];
            match (stream[Side::Write].owner, stream[Side::Read].owner) {
                (Owner::Host(writer), Owner::Host(reader)) => self.pipe_round(number, writer, reader)?,
                (Owner::Host(writer), Owner::Guest { guest, .. }) => {
                    self.turn(number, Side::Read, guest, writer)?;
                }
                (Owner::Guest { guest, .. }, Owner::Host(reader)) => {
                    self.turn(number, Side::Write, guest, reader)?;
                }
                _ => {}
            }
        }
        Ok(())
    }

    fn hosted_streams(&self) -> Vec<u32> {
        let writing = self.hosts.writers.iter().filter_map(|writer| writer.stream);
        let reading = self.hosts.readers.iter().filter_map(|reader| reader.stream);
        let mut numbers: Vec<u32> = writing.chain(reading).collect();
        numbers.sort_unstable();
        numbers.dedup();
        numbers
    }

    fn pipe_round(&mut self, number: u32, writer: u32, reader: u32) -> Result<(), Stop> {
        let is_resting = self.hosts.readers[reader as usize].is_resting;
        let from = &self.hosts.writers[writer as usize];
        if !is_resting && from.held.is_empty() && !from.is_over {
            self.poll_writer(writer, None, false)?;
        }
        let held = &mut self.hosts.writers[writer as usize].held;
        let mut answer = None;
        if !held.is_empty() || is_resting {
            let offered = held.len() as u32;
            let record = self.hosts.readers[reader as usize].poll(offered, held.first(held.len()), false);
            held.skip(u64::from(record.taken));
            self.streams[number as usize].receive(record.taken);
            self.may_go_on(number, reader, &record)?;
            answer = Some(record.answer);
        }
        let from = &self.hosts.writers[writer as usize];
        let is_resting = self.hosts.readers[reader as usize].is_resting;
        let is_done = match answer {
            Some(Answer::Dropped) => true,
            Some(Answer::Completed) => self.streams[number as usize].ty.is_future(),
            _ => false,
        };
        if is_done || (from.is_over && from.held.is_empty() && !is_resting) {
            self.give_up(number, Side::Read);
        }
        Ok(())
    }
}
