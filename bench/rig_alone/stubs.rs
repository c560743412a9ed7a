// What the simulated rig uses of the crates below it: a machine of one crossbar, without faults and without tables.
pub mod base_table {
    pub const TABLE_INPUTS: usize = 6;
}
pub mod base_log {
    use std::marker::PhantomData;
    pub struct Log<A>(PhantomData<A>);
    impl<A> Log<A> {
        pub fn new() -> Self {
            Log(PhantomData)
        }
        pub fn and(&self, _: &A) -> Self {
            Log(PhantomData)
        }
    }
}
pub mod base_bits {
    use crate::shim::*;
    pub const WORD_BITS: u64 = 64;
    pub fn word_with(word: u64, place: u64, bit: bool) -> u64 {
        let one = 1u64 << place;
        if bit {
            word | one
        } else {
            word & !one
        }
    }
    pub struct BitSet {
        words: std::vec::Vec<u64>,
    }
    impl BitSet {
        pub fn new(_: Global, len: u32) -> Result<BitSet, AllocError> {
            Ok(BitSet {
                words: vec![0; len as usize / 64 + 1],
            })
        }
        pub fn insert(&mut self, i: u32) {
            self.words[i as usize / 64] |= 1 << (i % 64);
        }
        pub fn has(&self, i: u32) -> bool {
            self.words[i as usize / 64] >> (i % 64) & 1 == 1
        }
    }
}
pub mod machine_shape {
    #[derive(Clone, Copy, Debug, PartialEq, Eq)]
    pub struct Shape {
        pub pins: u32,
        pub lines: u32,
    }
    #[derive(Clone, Copy, Debug, PartialEq, Eq, PartialOrd, Ord)]
    pub struct Wire(pub u32);
    #[derive(Clone, Copy, Debug, PartialEq, Eq, PartialOrd, Ord)]
    pub struct Pin(pub u32);
    #[derive(Clone, Copy, Debug, PartialEq, Eq, PartialOrd, Ord)]
    pub struct Cross(pub u32);
    #[derive(Clone, Copy, Debug, PartialEq, Eq, PartialOrd, Ord)]
    pub struct Table(pub u32);
    impl Shape {
        pub fn wires(&self) -> u32 {
            self.pins + self.lines
        }
        pub fn pins(&self) -> u32 {
            self.pins
        }
        pub fn crosses(&self) -> u32 {
            self.pins * self.lines
        }
        pub fn ends(&self, c: Cross) -> (Wire, Wire) {
            (Wire(c.0 / self.lines), Wire(self.pins + c.0 % self.lines))
        }
        pub fn pin(&self, p: Pin) -> Wire {
            Wire(p.0)
        }
        pub fn pin_of(&self, _: Table, _: u32) -> Wire {
            Wire(0)
        }
    }
}
pub mod machine_faults {
    use super::machine_shape::*;
    pub struct FaultSet {
        pub shape: Shape,
    }
    impl FaultSet {
        pub fn shape(&self) -> Shape {
            self.shape
        }
        pub fn stuck(&self, _: Wire) -> Option<bool> {
            None
        }
        pub fn cross_stuck(&self, _: Cross) -> Option<bool> {
            None
        }
        pub fn bridges(&self) -> &[(Wire, Wire)] {
            &[]
        }
        pub fn register(&self, _: Table) -> Option<bool> {
            None
        }
        pub fn cell(&self, _: Table, _: u8) -> Option<bool> {
            None
        }
    }
}
pub mod machine_config {
    use super::machine_shape::*;
    #[derive(Clone, Copy, Debug)]
    pub struct Setting {
        pub cells: u64,
        pub latched: bool,
        pub init: bool,
    }
    pub struct Config {
        pub shape: Shape,
        pub closed: std::vec::Vec<Cross>,
        pub ticks: u16,
    }
    impl Config {
        pub fn shape(&self) -> Shape {
            self.shape
        }
        pub fn closed(&self) -> &[Cross] {
            &self.closed
        }
        pub fn tables_on(&self) -> &[Table] {
            &[]
        }
        pub fn setting(&self, _: Table) -> Option<Setting> {
            None
        }
        pub fn ticks(&self) -> u16 {
            self.ticks
        }
    }
}
pub mod rig {
    use super::machine_shape::Pin;
    use crate::shim::*;
    pub struct PinBits {
        bits: std::vec::Vec<bool>,
    }
    impl PinBits {
        pub fn new(_: Global, len: u32) -> Result<PinBits, AllocError> {
            Ok(PinBits {
                bits: vec![true; len as usize],
            })
        }
        pub fn len(&self) -> u32 {
            self.bits.len() as u32
        }
        pub fn get(&self, p: Pin) -> bool {
            self.bits[p.0 as usize]
        }
        pub fn set(&mut self, p: Pin, b: bool) {
            self.bits[p.0 as usize] = b;
        }
        pub fn release_all(&mut self) {
            self.bits.fill(true)
        }
        pub fn copy_from(&mut self, o: &PinBits) {
            self.bits.copy_from_slice(&o.bits)
        }
        pub fn as_slice(&self) -> &[bool] {
            &self.bits
        }
    }
}
