//! The original: cores.rs and memory.rs of egb202/avremu as they stand in the folder AVREMU_SRC, built unchanged, over its own flat `Memory`.

use std::cell::RefCell;
use std::rc::Rc;

use crate::work::{Machine, Work};
use cores::{Core, CoreType, InterruptHandler};
use memory::{Memory, MemoryMapped};

#[allow(dead_code, clippy::all)]
mod cores {
    include!(concat!(env!("AVREMU_FOLDER", "no source of the original; set AVREMU_SRC to its folder"), "/src/cores.rs"));
}

#[allow(dead_code, clippy::all)]
mod memory {
    include!(concat!(env!("AVREMU_FOLDER"), "/src/memory.rs"));
}

/// One held offer and the in-service flag, as 01 has them. The original's own controller would look through its sources at each tick.
struct Offer {
    vector: Option<u16>,
    in_service: bool,
}

impl InterruptHandler for Offer {
    fn service_pending(&mut self) -> Option<u16> {
        let vector = self.vector.filter(|_| !self.in_service);
        self.in_service |= vector.is_some();
        vector
    }

    fn reti(&mut self) {
        self.in_service = false;
    }
}

pub struct Original {
    program: Rc<RefCell<Memory>>,
    data: Rc<RefCell<Memory>>,
    vector: Option<u16>,
    core: Core,
}

fn fresh(program: &Rc<RefCell<Memory>>, data: &Rc<RefCell<Memory>>, vector: Option<u16>) -> Core {
    let offer = Rc::new(RefCell::new(Offer { vector, in_service: false }));
    Core::new(CoreType::AVRxt, data.clone(), program.clone(), offer, 0)
}

impl Original {
    pub fn new(work: &Work) -> Self {
        let program = Rc::new(RefCell::new(Memory::new_rom(work.image.to_vec(), 0)));
        let data = Rc::new(RefCell::new(Memory::new(work.data_bytes, 0, 0)));
        let core = fresh(&program, &data, work.vector);
        Original { program, data, vector: work.vector, core }
    }
}

impl Machine for Original {
    fn restart(&mut self) {
        self.core = fresh(&self.program, &self.data, self.vector);
    }

    fn go(&mut self, ticks: u32) -> bool {
        (0..ticks).all(|_| self.core.tick())
    }

    fn registers(&self) -> [u8; 32] {
        std::array::from_fn(|number| self.core.get_register(number as u8))
    }

    fn data(&self) -> Vec<u8> {
        let mut data = self.data.borrow_mut();
        (0..data.get_size()).map(|address| data.read(address).0).collect()
    }

    fn pc(&self) -> Option<u16> {
        None
    }
}
