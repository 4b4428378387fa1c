// A stand-in, not a published file: the least of the processor core that lets
// the published alu.rs and memory.rs compile. Printing never reaches it.

use crate::memory::MemoryInterface;
use crate::psr::RegPSR;

pub struct Arm7tdmiCore<I: MemoryInterface> {
    pub cpsr: RegPSR,
    pub bus: I,
    pub registers: [u32; 16],
}

impl<I: MemoryInterface> Arm7tdmiCore<I> {
    pub fn get_reg(&self, r: usize) -> u32 {
        self.registers[r]
    }
}
