//! A plain interpreter of the same machine, written as one would write it without proofs: what the proved engine is compared with.

const R0: usize = 0;
const R7: usize = 7;
const R10: usize = 8;
const R12: usize = 10;
const R13: usize = 11;
const R17: usize = 15;

#[derive(Clone, Copy)]
pub struct Port {
    pub byte: u8,
    pub mask: u8,
}

pub struct Bank {
    pub ports: [Port; 256],
}

impl Bank {
    fn write(&mut self, port: u8, value: u8) {
        let p = &mut self.ports[port as usize];
        p.byte = (value & p.mask) | (p.byte & !p.mask);
    }
}

#[derive(Debug, PartialEq, Eq, Clone, Copy)]
pub enum Fault {
    RunLength,
    Outside(u16),
    NotPermitted(u16),
    NotReady(u16),
}

pub struct Machine {
    pub registers: [u8; 16],
    pub pc: u16,
    pub ar: u16,
    ready: [bool; 2],
    pub banks: [Bank; 2],
}

impl Machine {
    pub fn new() -> Machine {
        let bank = || Bank { ports: [Port { byte: 0, mask: 255 }; 256] };
        Machine { registers: [0; 16], pc: 0, ar: 0, ready: [false; 2], banks: [bank(), bank()] }
    }

    fn selected(&self, side: usize) -> u8 {
        self.registers[if side == 0 { R7 } else { R17 }]
    }

    fn byte(&self, side: usize) -> u8 {
        self.banks[side].ports[self.selected(side) as usize].byte
    }

    fn field(&self, number: usize, length: u8) -> u8 {
        let kept = if length == 0 { 255 } else { (1u8 << length) - 1 };
        self.byte(number >> 3 & 1).rotate_right(7 - (number as u32 & 7)) & kept
    }

    fn store(&mut self, register: usize, value: u8) {
        self.registers[register] = value;
        match register {
            R7 => self.ready[0] = true,
            R17 => self.ready[1] = true,
            _ => {}
        }
    }

    fn write_field(&mut self, number: usize, length: u8, value: u8, latch: u8) {
        let ones = if length == 0 { 255 } else { (1u8 << length) - 1 };
        let up = 7 - (number as u32 & 7);
        let mask = ones << up;
        let side = number >> 3 & 1;
        let port = self.selected(side);
        self.banks[side].write(port, (latch & !mask) | (value << up & mask));
    }

    fn lacks(&self, number: usize) -> bool {
        number >= 16 && !self.ready[number >> 3 & 1]
    }

    pub fn cycle(&mut self, code: &[u8]) -> Result<(), Fault> {
        let words = (code.len() / 2).min(8192);
        let at = self.ar as usize;
        if at >= words {
            return Err(Fault::Outside(self.ar));
        }
        let word = u16::from_be_bytes([code[2 * at], code[2 * at + 1]]);
        let class = word >> 13;
        let s = (word >> 8 & 31) as usize;
        let l = (word >> 5 & 7) as u8;
        let d = (word & 31) as usize;
        let next = (self.pc + 1) % 8192;
        match class {
            0..=3 => {
                if d == R10 {
                    return Err(Fault::NotPermitted(self.ar));
                }
                if self.lacks(s) || self.lacks(d) {
                    return Err(Fault::NotReady(self.ar));
                }
                let source = if s < 16 {
                    self.registers[s].rotate_right(if d < 16 { l as u32 } else { 0 })
                } else {
                    self.field(s, l)
                };
                let latch = if s >= 16 { self.byte(s >> 3 & 1) } else if d >= 16 { self.byte(d >> 3 & 1) } else { 0 };
                let r0 = self.registers[R0];
                let result = match class {
                    0 => source,
                    1 => {
                        let (sum, carry) = source.overflowing_add(r0);
                        self.registers[R10] = carry as u8;
                        sum
                    }
                    2 => source & r0,
                    _ => source ^ r0,
                };
                if d < 16 {
                    self.store(d, result);
                } else {
                    self.write_field(d, l, result, latch);
                }
                self.pc = next;
                self.ar = next;
            }
            4 | 5 => {
                if class == 4 && s >= 16 && (l == 0 || l > 5) {
                    return Err(Fault::NotPermitted(self.ar));
                }
                if self.lacks(s) {
                    return Err(Fault::NotReady(self.ar));
                }
                let (source, j, page) = if s < 16 {
                    (self.registers[s] as u16, word & 255, 256)
                } else {
                    (self.field(s, l) as u16, word & 31, 32)
                };
                if class == 4 {
                    self.ar = self.pc / page * page + (j + source) % page;
                } else {
                    let to = if source == 0 { next } else { self.pc / page * page + j };
                    self.pc = to;
                    self.ar = to;
                }
            }
            6 => {
                if s == R10 {
                    return Err(Fault::NotPermitted(self.ar));
                }
                let whole = match s {
                    R12 => Some(0),
                    R13 => Some(1),
                    _ => None,
                };
                if self.lacks(s) || whole.is_some_and(|side: usize| !self.ready[side]) {
                    return Err(Fault::NotReady(self.ar));
                }
                if let Some(side) = whole {
                    let port = self.selected(side);
                    self.banks[side].write(port, (word & 255) as u8);
                } else if s < 16 {
                    self.store(s, (word & 255) as u8);
                } else {
                    let latch = self.byte(s >> 3 & 1);
                    self.write_field(s, l, d as u8, latch);
                }
                self.pc = next;
                self.ar = next;
            }
            _ => {
                self.pc = word & 8191;
                self.ar = self.pc;
            }
        }
        Ok(())
    }

    pub fn run(&mut self, code: &[u8], cycles: usize) -> (usize, Option<Fault>) {
        if cycles > 65_536 {
            return (0, Some(Fault::RunLength));
        }
        for i in 0..cycles {
            if let Err(fault) = self.cycle(code) {
                return (i, Some(fault));
            }
        }
        (cycles, None)
    }
}
