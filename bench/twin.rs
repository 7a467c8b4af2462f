//! A plain interpreter of the loop of `loop.toml` over the same tables: an access takes a cached translation, or walks a page table,
//! looks into the entry of the frame and is cached. With a second number it saves its registers into a frame after so many turns, and
//! loads them again, and its translations are gone. It is not verified, and stands beside the proved program as a yardstick of speed
//! alone.
//!
//! usage: twin TURNS [EVERY]
use std::env;
use std::process::ExitCode;

const PAGE: u64 = 4096;
const BASE: u64 = 0x1000_0000;

#[derive(Clone, Copy, PartialEq, Eq)]
enum Kind {
    Read,
    Write,
    Exec,
}

#[derive(Clone, Copy)]
struct Pte {
    frame: usize,
    present: bool,
    writable: bool,
    executable: bool,
    accessed: bool,
    dirty: bool,
}

#[derive(Clone, Copy)]
struct Entry {
    valid: bool,
    page: usize,
    blocked: bool,
    writable: bool,
    executable: bool,
}

/// A translation that was walked: the page, the kind of access, and the frame.
type Translation = Option<(usize, Kind, usize)>;

const TRANSLATIONS: usize = 64;

struct Machine {
    cached: [Translation; TRANSLATIONS],
    saved: usize,
    table: Vec<Pte>,
    entries: Vec<Entry>,
    frames: Vec<Vec<u8>>,
    registers: [u64; 16],
    rip: u64,
}

impl Machine {
    fn new(code: &[u8], pages: usize) -> Machine {
        let mut machine = Machine {
            cached: [None; TRANSLATIONS],
            saved: 3,
            table: Vec::new(),
            entries: vec![Entry { valid: false, page: 0, blocked: false, writable: false, executable: false }; 8],
            frames: vec![vec![0; PAGE as usize]; 8],
            registers: [0; 16],
            rip: BASE,
        };
        for page in 0..pages {
            let code_page = page == 0;
            machine.table.push(Pte {
                frame: 8 + page,
                present: true,
                writable: !code_page,
                executable: code_page,
                accessed: true,
                dirty: true,
            });
            machine.entries.push(Entry { valid: true, page, blocked: false, writable: !code_page, executable: code_page });
            let mut bytes = vec![0; PAGE as usize];
            if code_page {
                bytes[..code.len()].copy_from_slice(code);
            }
            machine.frames.push(bytes);
        }
        machine
    }

    fn walk(&self, page: usize, kind: Kind) -> Option<usize> {
        let pte = self.table.get(page)?;
        let entry = self.entries.get(pte.frame)?;
        let allowed = match kind {
            Kind::Read => true,
            Kind::Write => pte.writable && entry.writable,
            Kind::Exec => pte.executable && entry.executable,
        };
        let found = pte.present && pte.accessed && pte.dirty && allowed && entry.valid && entry.page == page && !entry.blocked;
        found.then_some(pte.frame)
    }

    fn touch(&mut self, page: usize, kind: Kind) -> Option<usize> {
        let place = (3 * page + kind as usize) % TRANSLATIONS;
        if let Some((held, how, frame)) = self.cached[place] {
            if held == page && how == kind {
                return Some(frame);
            }
        }
        let frame = self.walk(page, kind)?;
        self.cached[place] = Some((page, kind, frame));
        Some(frame)
    }

    fn save(&mut self) {
        let frame = &mut self.frames[self.saved][3896..];
        frame.fill(0);
        for (place, register) in frame[16..144].chunks_mut(8).zip(self.registers) {
            place.copy_from_slice(&register.to_le_bytes());
        }
        frame[152..160].copy_from_slice(&self.rip.to_le_bytes());
        self.cached = [None; TRANSLATIONS];
    }

    fn load_saved(&mut self) -> Option<()> {
        let frame = &self.frames[self.saved][3896..];
        for (register, place) in self.registers.iter_mut().zip(frame[16..144].chunks(8)) {
            *register = u64::from_le_bytes(place.try_into().ok()?);
        }
        self.rip = u64::from_le_bytes(frame[152..160].try_into().ok()?);
        Some(())
    }

    fn operand(&mut self, address: u64, count: u64, kind: Kind) -> Option<(usize, usize)> {
        let size = PAGE * self.table.len() as u64;
        let place = address.checked_sub(BASE)?;
        if place > size || size - place < count {
            return None;
        }
        let first = self.touch((place / PAGE) as usize, kind)?;
        let last = self.touch(((place + count - 1) / PAGE) as usize, kind)?;
        Some((first, last))
    }

    fn load(&mut self, address: u64) -> Option<u64> {
        let (first, last) = self.operand(address, 8, Kind::Read)?;
        let offset = ((address - BASE) % PAGE) as usize;
        let mut bytes = [0; 8];
        for (i, byte) in bytes.iter_mut().enumerate() {
            let at = offset + i;
            *byte = if at < PAGE as usize { self.frames[first][at] } else { self.frames[last][at - PAGE as usize] };
        }
        Some(u64::from_le_bytes(bytes))
    }

    fn store(&mut self, address: u64, value: u64) -> Option<()> {
        let (first, last) = self.operand(address, 8, Kind::Write)?;
        let offset = ((address - BASE) % PAGE) as usize;
        for (i, byte) in value.to_le_bytes().into_iter().enumerate() {
            let at = offset + i;
            if at < PAGE as usize {
                self.frames[first][at] = byte;
            } else {
                self.frames[last][at - PAGE as usize] = byte;
            }
        }
        Some(())
    }

    fn step(&mut self) -> Option<()> {
        let place = self.rip.checked_sub(BASE)?;
        let frame = self.touch((place / PAGE) as usize, Kind::Exec)?;
        let bytes = &self.frames[frame][(place % PAGE) as usize..];
        let rex = bytes[0];
        let (r, b) = ((rex >> 2 & 1) << 3, (rex & 1) << 3);
        match bytes {
            [0x48 | 0x49, opcode @ 0xb8..=0xbf, number @ ..] if number.len() >= 8 => {
                let register = (b + opcode % 8) as usize;
                self.registers[register] = u64::from_le_bytes(number[..8].try_into().ok()?);
                self.rip += 10;
            }
            [0x48 | 0x49 | 0x4c | 0x4d, opcode @ (0x89 | 0x8b), modrm, number @ ..] if modrm >> 6 == 2 && number.len() >= 4 => {
                let opcode = *opcode;
                let register = (r + (modrm >> 3) % 8) as usize;
                let displacement = i32::from_le_bytes(number[..4].try_into().ok()?);
                let address = self.registers[(b + modrm % 8) as usize].wrapping_add(displacement as i64 as u64);
                if opcode == 0x89 {
                    self.store(address, self.registers[register])?;
                } else {
                    self.registers[register] = self.load(address)?;
                }
                self.rip += 7;
            }
            [0x48 | 0x49 | 0x4c | 0x4d, 0x01, modrm, ..] if modrm >> 6 == 3 => {
                let (rm, reg) = ((b + modrm % 8) as usize, (r + (modrm >> 3) % 8) as usize);
                self.registers[rm] = self.registers[rm].wrapping_add(self.registers[reg]);
                self.rip += 3;
            }
            [0xe9, number @ ..] if number.len() >= 4 => {
                let by = i32::from_le_bytes(number[..4].try_into().ok()?);
                self.rip = (self.rip + 5).wrapping_add(by as i64 as u64);
            }
            _ => return None,
        }
        Some(())
    }
}

fn main() -> ExitCode {
    let number = |place, default| env::args().nth(place).and_then(|word| word.parse::<u64>().ok()).unwrap_or(default);
    let (turns, every) = (number(1, 20_000_000), number(2, u64::MAX));
    // mov rbx, BASE + 4096; mov rax, 1; then: mov [rbx], rax; mov rcx, [rbx]; add rdx, rcx; jmp back
    let mut code = vec![0x48, 0xbb];
    code.extend((BASE + PAGE).to_le_bytes());
    code.extend([0x48, 0xb8]);
    code.extend(1u64.to_le_bytes());
    code.extend([0x48, 0x89, 0x83, 0, 0, 0, 0]);
    code.extend([0x48, 0x8b, 0x8b, 0, 0, 0, 0]);
    code.extend([0x48, 0x01, 0xca]);
    code.push(0xe9);
    code.extend((-22i32).to_le_bytes());
    let mut machine = Machine::new(&code, 2);
    for turn in 1..=turns {
        if machine.step().is_none() {
            return ExitCode::FAILURE;
        }
        if turn % every == 0 {
            machine.save();
            if machine.load_saved().is_none() {
                return ExitCode::FAILURE;
            }
        }
    }
    println!("{}", machine.registers[2]);
    ExitCode::SUCCESS
}
