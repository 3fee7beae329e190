//! The port through its C interface: `avr_run` for a whole pass, or `avr_tick` a call a tick. The archive of an earlier commit may stand beside the present one.

use std::marker::PhantomData;

use crate::work::{Machine, Pass, Work};
use avr_core::{bytes, Answer, Snapshot};

const BUDGET: u32 = Answer::Budget.number();
const WAITED: u32 = Answer::Waited.number();
const RAN: u32 = Answer::Ran.number();

/// The calls of one archive.
pub trait Archive {
    fn tick(snapshot: &mut [u8], program: &[u8], data: &mut [u8], offer: u32) -> u32;
    fn run(snapshot: &mut [u8], program: &[u8], data: &mut [u8], offer: u32, budget: u32) -> (u32, u32);
}

/// The archive that host/rust links.
pub struct Present;

impl Archive for Present {
    fn tick(snapshot: &mut [u8], program: &[u8], data: &mut [u8], offer: u32) -> u32 {
        bytes::tick(snapshot, program, data, offer)
    }

    fn run(snapshot: &mut [u8], program: &[u8], data: &mut [u8], offer: u32, budget: u32) -> (u32, u32) {
        bytes::run(snapshot, program, data, offer, budget)
    }
}

type Way<A> = fn(&mut Port<A>, u32) -> bool;

pub struct Port<A: Archive> {
    image: Vec<u8>,
    offer: u32,
    data: Vec<u8>,
    snapshot: Snapshot,
    way: Way<A>,
    archive: PhantomData<A>,
}

impl<A: Archive> Port<A> {
    /// `way` is `Port::run` or `Port::ticks`.
    pub fn new(work: &Work, way: Way<A>) -> Self {
        let offer = work.vector.map_or(bytes::NO_OFFER, u32::from);
        Port { image: work.image.clone(), offer, data: vec![0; work.data_bytes], snapshot: Snapshot::fresh(0), way, archive: PhantomData }
    }

    pub fn run(&mut self, ticks: u32) -> bool {
        A::run(&mut self.snapshot, &self.image, &mut self.data, self.offer, ticks) == (BUDGET, ticks)
    }

    pub fn ticks(&mut self, ticks: u32) -> bool {
        (0..ticks).all(|_| (WAITED..=RAN).contains(&A::tick(&mut self.snapshot, &self.image, &mut self.data, self.offer)))
    }
}

/// The ticks of a pass.
pub fn ticks_of(work: &Work) -> u32 {
    match work.pass {
        Pass::Ticks(ticks) => ticks,
        Pass::ToBreak => {
            let mut port = Port::<Present>::new(work, Port::run);
            let (_, ticks) = Present::run(&mut port.snapshot, &port.image, &mut port.data, port.offer, u32::MAX);
            ticks - 1
        }
    }
}

impl<A: Archive> Machine for Port<A> {
    fn restart(&mut self) {
        self.snapshot = Snapshot::fresh(0);
    }

    fn go(&mut self, ticks: u32) -> bool {
        (self.way)(self, ticks)
    }

    fn registers(&self) -> [u8; 32] {
        *self.snapshot.registers()
    }

    fn data(&self) -> Vec<u8> {
        self.data.clone()
    }

    fn pc(&self) -> Option<u16> {
        Some(self.snapshot.pc())
    }
}
