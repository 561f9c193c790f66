//! A script that is being drawn, and the store as it is behind it: so that most arguments are of what is there.

use super::profiles::Profile;
use super::random::Random;
use crate::codes::StoreError;
use crate::hosts::Hosts;
use crate::payload::{Payload, Scalar, TransmitIndex, TransmitKind};
use crate::steps::{Script, Step};
use crate::store::Store;
use crate::streams::{End, Owner, Side, Stream};
use crate::tables::Entry;

/// Numbers at the limits.
const EDGES: [u32; 14] =
    [0, 1, 7, 63, 64, 65, 255, 4096, 4097, (1 << 28) - 1, 1 << 28, (1 << 28) + 1, u32::MAX - 1, u32::MAX];

/// A guest's handle to an end.
#[derive(Clone, Copy, Debug)]
pub struct Held {
    pub guest: u32,
    pub handle: u32,
    pub stream: u32,
    pub side: Side,
}

/// A script, and what stands behind its last step.
pub struct Scene {
    pub random: Random,
    pub profile: Profile,
    pub script: Script,
    pub store: Store,
    pub has_stopped: bool,
    payloads: Vec<Payload>,
}

impl Scene {
    /// One with guests, among these host ends.
    pub fn new(profile: Profile, mut random: Random, hosts: Hosts) -> Scene {
        let (least, most) = profile.guests();
        let guests = random.within(least, most);
        let mut scene = Scene {
            random,
            profile,
            script: Script::default(),
            store: Store::new(hosts),
            has_stopped: false,
            payloads: profile.payloads(),
        };
        for _ in 0..guests {
            let size = scene.memory_size();
            scene.put(Step::Guest { size });
        }
        scene
    }

    /// Adds a step, and does it.
    pub fn put(&mut self, step: Step) {
        self.script.steps.push(step);
        let done = self.store.apply(&self.script, &step);
        self.has_stopped |= matches!(done, Err(StoreError::Stopped(_)));
    }

    /// Whether the next argument is to be a wrong one.
    pub fn is_wrong(&mut self) -> bool {
        self.random.chance(self.profile.wrong())
    }

    /// The bytes of a new guest's memory.
    pub fn memory_size(&mut self) -> u32 {
        match self.profile {
            Profile::Big => self.random.pick(&[65_536, 100_000, 262_144]),
            Profile::Edges => self.random.pick(&[0, 1, 3, 8, 64, 65, 4096, 5000]),
            _ => self.random.pick(&[16, 24, 32, 64, 64, 100, 130, 257]),
        }
    }

    /// Any number, mostly one at a limit.
    pub fn any_number(&mut self) -> u32 {
        if self.random.chance(70) { self.random.pick(&EDGES) } else { self.random.draw() as u32 }
    }

    /// A guest that is there, or a wrong one.
    pub fn guest(&mut self) -> u32 {
        let count = self.store.guests.len() as u32;
        if count == 0 || self.is_wrong() {
            return if self.random.chance(80) { count } else { self.any_number() };
        }
        self.random.within(0, count - 1)
    }

    /// The number of a host end of which there are so many, or a wrong one.
    pub fn host(&mut self, count: usize) -> u32 {
        if count == 0 || self.is_wrong() {
            return if self.random.chance(50) { count as u32 } else { self.any_number() };
        }
        self.random.below(count) as u32
    }

    /// A payload of the profile's.
    pub fn payload(&mut self) -> Payload {
        self.payloads[self.random.below(self.payloads.len())]
    }

    /// A type of the profile's.
    pub fn ty(&mut self) -> TransmitIndex {
        let payload = self.payload();
        let is_future = self.random.chance(self.profile.futures());
        if is_future { TransmitIndex::future(payload) } else { TransmitIndex::stream(payload) }
    }

    /// This type, or a wrong one: of the other kind, or of another payload.
    pub fn ty_of(&mut self, ty: TransmitIndex) -> TransmitIndex {
        if !self.is_wrong() {
            return ty;
        }
        match self.random.below(3) {
            0 => TransmitIndex {
                kind: if ty.is_future() { TransmitKind::Stream } else { TransmitKind::Future },
                ..ty
            },
            1 => TransmitIndex { payload: self.payload(), ..ty },
            _ => self.ty(),
        }
    }

    /// An address where so many bytes lie, at a multiple of this, or a wrong one.
    pub fn address(&mut self, guest: u32, bytes: u64, align: usize) -> u32 {
        let size = self.store.guests.get(guest as usize).map_or(64, |guest| guest.memory.len());
        if self.is_wrong() {
            return match self.random.below(4) {
                0 => size as u32,
                1 => self.any_number(),
                2 => self.random.within(0, size as u32),
                _ => (size as u64).saturating_sub(bytes) as u32 + 1,
            };
        }
        let last = (size as u64).saturating_sub(bytes) as usize / align;
        let place = if self.random.chance(20) { last } else { self.random.below(last + 1) };
        (place * align) as u32
    }

    /// This handle, or a wrong one.
    pub fn handle_of(&mut self, guest: u32, handle: u32) -> u32 {
        if !self.is_wrong() {
            return handle;
        }
        match self.random.below(3) {
            0 => self.any_number(),
            1 => self.any_handle(guest),
            _ => self.random.within(0, 8),
        }
    }

    /// Any handle that stands for something, or for nothing where there is none.
    pub fn any_handle(&mut self, guest: u32) -> u32 {
        let Some(holder) = self.store.guests.get(guest as usize) else { return 1 };
        let handles: Vec<u32> = holder.table.handles().map(|(handle, _)| handle).collect();
        if handles.is_empty() { 1 } else { self.random.pick(&handles) }
    }

    /// A handle to an entry like this one: the guest and the handle.
    pub fn entry(&mut self, is_wanted: impl Fn(Entry) -> bool) -> Option<(u32, u32)> {
        let mut found = Vec::new();
        for (guest, holder) in (0..).zip(&self.store.guests) {
            found.extend(
                holder
                    .table
                    .handles()
                    .filter(|(_, entry)| is_wanted(*entry))
                    .map(|(handle, _)| (guest, handle)),
            );
        }
        (!found.is_empty()).then(|| self.random.pick(&found))
    }

    /// An end that a guest has and that is like this.
    pub fn held(&mut self, is_wanted: impl Fn(&Stream, Side) -> bool) -> Option<Held> {
        let mut found = Vec::new();
        for (number, stream) in (0..).zip(&self.store.streams) {
            for side in [Side::Write, Side::Read] {
                if let Owner::Guest { guest, handle } = stream[side].owner
                    && is_wanted(stream, side)
                {
                    found.push(Held { guest, handle, stream: number, side });
                }
            }
        }
        (!found.is_empty()).then(|| self.random.pick(&found))
    }

    /// The end of a handle.
    pub fn end(&self, held: &Held) -> &End {
        &self.store.streams[held.stream as usize][held.side]
    }

    /// A stream whose read end is loose, or any number.
    pub fn loose(&mut self) -> u32 {
        let loose: Vec<u32> = (0..)
            .zip(&self.store.streams)
            .filter(|(_, stream)| stream[Side::Read].owner == Owner::Loose)
            .map(|(number, _)| number)
            .collect();
        let count = self.store.streams.len() as u32;
        if loose.is_empty() || self.is_wrong() {
            return if self.random.chance(80) { self.random.within(0, count) } else { self.any_number() };
        }
        self.random.pick(&loose)
    }

    /// Bytes that are mostly items of this payload.
    pub fn items(&mut self, payload: &Payload, count: usize) -> Vec<u8> {
        let mut bytes = self.random.bytes(count * payload.size());
        let bad = if self.random.chance(25) { 35 } else { 0 };
        for item in bytes.chunks_exact_mut(payload.size().max(1)) {
            if payload.first_bad(item).is_some() && !self.random.chance(bad) {
                match payload {
                    Payload::Compound(tree) => tree.mend(item),
                    _ => self.put_good_char(item),
                }
            }
        }
        bytes
    }

    // Zeros are an item of every payload; a character alone may be another one.
    fn put_good_char(&mut self, item: &mut [u8]) {
        item.fill(0);
        if item.len() == Scalar::Char.size() {
            let good = self.random.pick(&[0x41_u32, 0xd7ff, 0xe000, 0x10_ffff, 0x1f600, 0xe9]);
            item.copy_from_slice(&good.to_le_bytes());
        }
    }
}
