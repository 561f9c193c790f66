//! Steps that are drawn from a seed.

use crate::payload::{Payload, Scalar, TransmitIndex};
use crate::steps::{Script, Step};

/// The most steps that are drawn.
pub const MOST_DRAWN: u32 = 262_140;

const BYTES: TransmitIndex = TransmitIndex::stream(Payload::One(Scalar::U8));

struct Draws(u32);

impl Draws {
    fn draw(&mut self) -> u32 {
        self.0 = self.0.wrapping_mul(1_103_515_245).wrapping_add(12_345) % (1 << 31);
        self.0 / 65_536
    }
}

/// The script of the words `gen COUNT SEED`.
pub fn generated(count: u32, seed: u32) -> Script {
    let mut script = Script::default();
    let bytes = script.keep(&std::array::from_fn::<u8, 64, _>(|place| place as u8));
    script.steps.extend([
        Step::Guest { size: 65_536 },
        Step::Guest { size: 65_536 },
        Step::Pair { writer: 0, reader: 1, ty: BYTES },
        Step::Poke { guest: 0, address: 0, bytes },
    ]);
    let mut draws = Draws(seed % (1 << 31));
    script.steps.extend((0..count).map(|_| drawn_step([draws.draw(), draws.draw(), draws.draw()])));
    script
}

fn drawn_step([first, second, third]: [u32; 3]) -> Step {
    let (ty, handle, address, count) = (BYTES, 1, second, third % 1024);
    match first % 8 {
        0..=2 => Step::Write { guest: 0, ty, handle, address, count },
        3..=5 => Step::Read { guest: 1, ty, handle, address, count },
        6 => Step::Event { guest: 0, handle },
        _ if second.is_multiple_of(2) => Step::Event { guest: 1, handle },
        _ => Step::Move { guest: 0, ty, handle, to: 0 },
    }
}
