"""Emulators of four instructions in other languages, of which 8XY4 writes the flag before the sum."""

JAVASCRIPT = """
export class Machine {
  step(keys, tick, random) {
    const [high, kk] = this.memory.slice(this.pc, this.pc + 2);
    const [x, y] = [high & 15, kk >> 4];
    this.pc += 2;
    if (high >> 4 === 6) this.v[x] = kk;
    if (high >> 4 === 7) this.v[x] += kk;
    if (high >> 4 === 12) this.v[x] = random() & kk;
    if (high >> 4 === 8) {
      const sum = this.v[x] + this.v[y];
      this.v[15] = sum > 255 ? 1 : 0;
      this.v[x] = sum;
    }
    if (tick) [this.dt, this.st] = [Math.max(this.dt - 1, 0), Math.max(this.st - 1, 0)];
  }
}
"""
RUST = """
#[derive(Clone, Default)]
pub struct Machine {
    pub pc: usize, pub i: usize, pub dt: u8, pub st: u8, pub high: bool, pub stop: u8,
    pub v: Vec<u8>, pub flags: Vec<u8>, pub stack: Vec<usize>, pub memory: Vec<u8>, pub screen: Vec<u128>,
}
impl Machine {
    pub fn new(_profile: &str) -> Machine { Machine { screen: vec![0; 64], ..Machine::default() } }
    pub fn step(&mut self, _keys: u16, tick: bool, random: &mut Vec<u8>) {
        let (high, kk) = (self.memory[self.pc], self.memory[self.pc + 1]);
        let (x, y) = ((high & 15) as usize, (kk >> 4) as usize);
        self.pc += 2;
        match high >> 4 {
            6 => self.v[x] = kk,
            7 => self.v[x] = self.v[x].wrapping_add(kk),
            8 => {
                let (sum, carry) = self.v[x].overflowing_add(self.v[y]);
                self.v[15] = carry as u8;
                self.v[x] = sum;
            }
            12 => self.v[x] = random.remove(0) & kk,
            _ => {}
        }
        if tick { (self.dt, self.st) = (self.dt.saturating_sub(1), self.st.saturating_sub(1)); }
    }
}
"""
GO = """
package main

type Machine struct {
	Stop           byte
	PC, I          uint16
	V              [16]byte
	DT, ST         byte
	High           bool
	Stack          []uint16
	Flags          [8]byte
	Memory         [4096]byte
	Screen         [64][16]byte
}

func NewMachine(profile string) *Machine { return &Machine{PC: 0x200} }

func (m *Machine) Step(keys uint16, tick bool, random func() byte) {
	high, kk := m.Memory[m.PC], m.Memory[m.PC+1]
	x, y := high&15, kk>>4
	m.PC += 2
	switch high >> 4 {
	case 6:
		m.V[x] = kk
	case 7:
		m.V[x] += kk
	case 8:
		sum := int(m.V[x]) + int(m.V[y])
		m.V[15] = byte(sum >> 8)
		m.V[x] = byte(sum)
	case 12:
		m.V[x] = random() & kk
	}
	if tick && m.DT > 0 {
		m.DT--
	}
	if tick && m.ST > 0 {
		m.ST--
	}
}
"""
