//! A plain interpreter of RV32IM with rx's memory and guest calls: what `speed.py` sets rx's speed beside.
//!
//! It is of the same design as rx's loop. A program's code is decoded once, to an entry of eight bytes for each word, and one
//! match does an entry. The registers are a local of the loop, and so are the entry's number and the rest of the budget,
//! which is counted at each instruction. Memory is a window of bytes and the spans of it that may be touched; for each
//! register, the stretch where the last load and the last store with it as their base were is tried first. A word without an
//! entry, in a second span of code or where code may be written, is decoded when it is done. It isn't proved, it recovers
//! nothing, and it looks for no fault in the file and in the frames.
//!
//! usage: interpreter PROGRAM < FRAMES > FRAMES
//! On standard error it says how many instructions it did.

use std::io::{self, Read, Write};
use std::process::exit;

const EXECUTE: u32 = 1;
const WRITE: u32 = 2;
const READ: u32 = 4;

const PAGE: u32 = 4096;
const WINDOW: u32 = 4 << 20;
const STACK: u32 = 65536;
const BUDGET: u64 = 2_000_000;
const CONNECTIONS: usize = 4096;

const ECALL: u32 = 0x0000_0073;
const EBREAK: u32 = 0x0010_0073;

/// A register by its number, so that the compiler knows that it is one of 33. What register 0 is given goes to the last one.
#[derive(Clone, Copy)]
#[repr(u8)]
#[rustfmt::skip]
enum Register {
    X0, X1, X2, X3, X4, X5, X6, X7, X8, X9, X10, X11, X12, X13, X14, X15,
    X16, X17, X18, X19, X20, X21, X22, X23, X24, X25, X26, X27, X28, X29, X30, X31,
    Nowhere,
}

use Register::*;

#[rustfmt::skip]
const NAMED: [Register; 32] = [
    X0, X1, X2, X3, X4, X5, X6, X7, X8, X9, X10, X11, X12, X13, X14, X15,
    X16, X17, X18, X19, X20, X21, X22, X23, X24, X25, X26, X27, X28, X29, X30, X31,
];

type Registers = [u32; 33];

/// What an entry does: an instruction that is no call, or `Stop`, which none does. `Set` is LUI and AUIPC.
#[derive(Clone, Copy)]
#[repr(u8)]
#[rustfmt::skip]
enum Op {
    Stop, Set, Jal, Jalr,
    Beq, Bne, Blt, Bge, Bltu, Bgeu,
    Lb, Lh, Lw, Lbu, Lhu, Sb, Sh, Sw,
    Addi, Slti, Sltiu, Xori, Ori, Andi, Slli, Srli, Srai,
    Add, Sub, Sll, Slt, Sltu, Xor, Srl, Sra, Or, And,
    Mul, Mulh, Mulhsu, Mulhu, Div, Divu, Rem, Remu,
}

/// An entry of eight bytes. `imm` is the immediate; for `Set` it is the value, and for a jump or a branch the number of the
/// entry that it goes to.
#[derive(Clone, Copy)]
struct Entry {
    op: Op,
    rd: Register,
    rs1: Register,
    rs2: Register,
    imm: u32,
}

const _: () = assert!(std::mem::size_of::<Entry>() == 8);

fn funct3(word: u32) -> u32 {
    word >> 12 & 7
}

fn funct7(word: u32) -> u32 {
    word >> 25
}

fn register(word: u32, shift: u32) -> Register {
    NAMED[(word >> shift & 31) as usize]
}

fn written(word: u32) -> Register {
    match register(word, 7) {
        X0 => Nowhere,
        other => other,
    }
}

fn imm_i(word: u32) -> u32 {
    (word as i32 >> 20) as u32
}

fn imm_s(word: u32) -> u32 {
    (word as i32 >> 25 << 5) as u32 | word >> 7 & 31
}

fn imm_b(word: u32) -> u32 {
    (word as i32 >> 19) as u32 & 0xffff_f000 | word << 4 & 0x800 | word >> 20 & 0x7e0 | word >> 7 & 0x1e
}

fn imm_j(word: u32) -> u32 {
    (word as i32 >> 11) as u32 & 0xfff0_0000 | word & 0xf_f000 | word >> 9 & 0x800 | word >> 20 & 0x7fe
}

fn branch_op(word: u32) -> Option<Op> {
    Some(match funct3(word) {
        0 => Op::Beq,
        1 => Op::Bne,
        4 => Op::Blt,
        5 => Op::Bge,
        6 => Op::Bltu,
        7 => Op::Bgeu,
        _ => return None,
    })
}

fn load_op(word: u32) -> Option<Op> {
    Some(match funct3(word) {
        0 => Op::Lb,
        1 => Op::Lh,
        2 => Op::Lw,
        4 => Op::Lbu,
        5 => Op::Lhu,
        _ => return None,
    })
}

fn store_op(word: u32) -> Option<Op> {
    Some(match funct3(word) {
        0 => Op::Sb,
        1 => Op::Sh,
        2 => Op::Sw,
        _ => return None,
    })
}

fn imm_op(word: u32) -> Option<Op> {
    Some(match (funct3(word), funct7(word)) {
        (0, _) => Op::Addi,
        (1, 0) => Op::Slli,
        (2, _) => Op::Slti,
        (3, _) => Op::Sltiu,
        (4, _) => Op::Xori,
        (5, 0) => Op::Srli,
        (5, 32) => Op::Srai,
        (6, _) => Op::Ori,
        (7, _) => Op::Andi,
        _ => return None,
    })
}

fn register_op(word: u32) -> Option<Op> {
    Some(match (funct7(word), funct3(word)) {
        (0, 0) => Op::Add,
        (0, 1) => Op::Sll,
        (0, 2) => Op::Slt,
        (0, 3) => Op::Sltu,
        (0, 4) => Op::Xor,
        (0, 5) => Op::Srl,
        (0, 6) => Op::Or,
        (0, 7) => Op::And,
        (32, 0) => Op::Sub,
        (32, 5) => Op::Sra,
        (1, 0) => Op::Mul,
        (1, 1) => Op::Mulh,
        (1, 2) => Op::Mulhsu,
        (1, 3) => Op::Mulhu,
        (1, 4) => Op::Div,
        (1, 5) => Op::Divu,
        (1, 6) => Op::Rem,
        (1, 7) => Op::Remu,
        _ => return None,
    })
}

/// The number of the word at an address, counted from a start on, where both are multiples of 4.
#[inline(always)]
fn number_of(start: u32, at: u32) -> Option<u32> {
    (at % 4 == 0).then_some(at.wrapping_sub(start) / 4)
}

/// The address of the word of a number.
#[inline(always)]
fn address_of(start: u32, number: usize) -> u32 {
    start.wrapping_add((number as u32).wrapping_mul(4))
}

/// The entry of the word at an address, if it has one: a call, and a jump or a branch to no multiple of 4, have none.
fn decode(start: u32, at: u32, word: u32) -> Option<Entry> {
    let (op, imm) = match word & 0x7f {
        0x37 => (Op::Set, word & !0xfff),
        0x17 => (Op::Set, at.wrapping_add(word & !0xfff)),
        0x6f => (Op::Jal, number_of(start, at.wrapping_add(imm_j(word)))?),
        0x67 if funct3(word) == 0 => (Op::Jalr, imm_i(word)),
        0x63 => (branch_op(word)?, number_of(start, at.wrapping_add(imm_b(word)))?),
        0x03 => (load_op(word)?, imm_i(word)),
        0x23 => (store_op(word)?, imm_s(word)),
        0x13 => match imm_op(word)? {
            op @ (Op::Slli | Op::Srli | Op::Srai) => (op, imm_i(word) & 31),
            op => (op, imm_i(word)),
        },
        0x33 => (register_op(word)?, 0),
        0x0f if funct3(word) == 0 => return Some(Entry { op: Op::Set, rd: Nowhere, rs1: X0, rs2: X0, imm: 0 }),
        _ => return None,
    };
    Some(Entry { op, rd: written(word), rs1: register(word, 15), rs2: register(word, 20), imm })
}

fn entry_of(start: u32, at: u32, word: u32) -> Entry {
    decode(start, at, word).unwrap_or(Entry { op: Op::Stop, rd: Nowhere, rs1: X0, rs2: X0, imm: 0 })
}

/// The entries of the words from an address on.
#[derive(Clone, Copy)]
struct Table<'a> {
    start: u32,
    entries: &'a [Entry],
}

/// Addresses from one up to another, and what may be done with their bytes.
struct Span {
    start: u32,
    end: u32,
    flags: u32,
}

impl Span {
    fn has(&self, flag: u32, at: u32) -> bool {
        self.flags & flag != 0 && self.start <= at && at < self.end
    }
}

/// Addresses from each of which on one span has four bytes: so many, from a start on.
#[derive(Clone, Copy, Default)]
struct Stretch {
    start: u32,
    count: u32,
}

/// For each register, where the last load and the last store with it as their base were.
struct Stretches {
    loads: [Stretch; 33],
    stores: [Stretch; 33],
}

/// A window of bytes, and its spans.
struct Memory {
    base: u32,
    window: Box<[u8; WINDOW as usize]>,
    spans: Vec<Span>,
}

impl Memory {
    /// So many bytes from an address on, at most four, by a stretch.
    #[inline(always)]
    fn part<const N: usize>(&mut self, flag: u32, stretch: &mut Stretch, at: u32) -> Option<&mut [u8; N]> {
        if at.wrapping_sub(stretch.start) >= stretch.count && !self.finds(flag, stretch, at, N) {
            return None;
        }
        let place = at.wrapping_sub(self.base) as usize;
        self.window.get_mut(place..place + N)?.try_into().ok()
    }

    /// Whether so many bytes from an address on may be touched. Where four may that are of one span, it gives their stretch.
    #[cold]
    #[inline(never)]
    fn finds(&self, flag: u32, stretch: &mut Stretch, at: u32, len: usize) -> bool {
        match self.spans.iter().find(|span| span.has(flag, at) && span.end - at >= 4) {
            Some(span) => {
                *stretch = Stretch { start: span.start, count: span.end - 3 - span.start };
                true
            }
            None => self.permits(flag, at, len),
        }
    }

    fn permits(&self, flag: u32, at: u32, len: usize) -> bool {
        let one = |k| at.checked_add(k).is_some_and(|at| self.spans.iter().any(|span| span.has(flag, at)));
        (0..len as u32).all(one)
    }

    fn read(&self, flag: u32, at: u32, len: usize) -> Option<&[u8]> {
        let place = at.wrapping_sub(self.base) as usize;
        match len {
            0 => Some(&[]),
            _ => self.permits(flag, at, len).then(|| &self.window[place..place + len]),
        }
    }

    fn write(&mut self, at: u32, bytes: &[u8]) {
        let place = at.wrapping_sub(self.base) as usize;
        if !bytes.is_empty() {
            self.window[place..place + bytes.len()].copy_from_slice(bytes);
        }
    }

    /// The word at an address that may be executed.
    fn word(&mut self, at: u32) -> Option<u32> {
        Some(u32::from_le_bytes(*self.part(EXECUTE, &mut Stretch::default(), at)?))
    }

    /// The entries of the first span that may be executed and not be written, and the address of the first.
    fn code(&mut self) -> (u32, Vec<Entry>) {
        let code = self.spans.iter().find(|span| span.flags & (EXECUTE | WRITE) == EXECUTE && span.start % 4 == 0);
        let Some(&Span { start, end, .. }) = code else {
            return (0, Vec::new());
        };
        let words = (start..end).step_by(4).filter_map(|at| Some(entry_of(start, at, self.word(at)?)));
        (start, words.collect())
    }
}

#[inline(always)]
fn first(x: &Registers, e: &Entry) -> u32 {
    x[e.rs1 as usize]
}

#[inline(always)]
fn second(x: &Registers, e: &Entry) -> u32 {
    x[e.rs2 as usize]
}

#[inline(always)]
fn put(x: &mut Registers, e: &Entry, value: u32) -> bool {
    x[e.rd as usize] = value;
    true
}

/// An operation on two registers.
#[inline(always)]
fn both(x: &mut Registers, e: &Entry, value: fn(u32, u32) -> u32) -> bool {
    put(x, e, value(first(x, e), second(x, e)))
}

/// An operation on a register and the immediate.
#[inline(always)]
fn with_imm(x: &mut Registers, e: &Entry, value: fn(u32, u32) -> u32) -> bool {
    put(x, e, value(first(x, e), e.imm))
}

#[inline(always)]
fn branch(x: &Registers, e: &Entry, next: &mut usize, is_taken: fn(u32, u32) -> bool) -> bool {
    if is_taken(first(x, e), second(x, e)) {
        *next = e.imm as usize;
    }
    true
}

/// Goes on at the entry of another number.
#[inline(always)]
fn jump(x: &mut Registers, e: &Entry, start: u32, next: &mut usize, to: u32) -> bool {
    put(x, e, address_of(start, *next));
    *next = to as usize;
    true
}

#[inline(always)]
fn load<const N: usize>(
    memory: &mut Memory,
    stretches: &mut Stretches,
    x: &mut Registers,
    e: &Entry,
    value: fn([u8; N]) -> u32,
) -> bool {
    let at = first(x, e).wrapping_add(e.imm);
    match memory.part(READ, &mut stretches.loads[e.rs1 as usize], at) {
        Some(bytes) => put(x, e, value(*bytes)),
        None => false,
    }
}

#[inline(always)]
fn store<const N: usize>(
    memory: &mut Memory,
    stretches: &mut Stretches,
    x: &Registers,
    e: &Entry,
    bytes: fn(u32) -> [u8; N],
) -> bool {
    let at = first(x, e).wrapping_add(e.imm);
    match memory.part(WRITE, &mut stretches.stores[e.rs1 as usize], at) {
        Some(part) => {
            *part = bytes(second(x, e));
            true
        }
        None => false,
    }
}

/// Does an entry. `next` is the number of the one behind it, and becomes that of the one that is next. The answer is whether it
/// was done: if not, nothing changed.
#[inline(always)]
fn enter(
    memory: &mut Memory,
    stretches: &mut Stretches,
    x: &mut Registers,
    start: u32,
    next: &mut usize,
    e: &Entry,
) -> bool {
    match e.op {
        Op::Stop => false,
        Op::Set => put(x, e, e.imm),
        Op::Jal => jump(x, e, start, next, e.imm),
        Op::Jalr => match number_of(start, first(x, e).wrapping_add(e.imm) & !1) {
            Some(to) => jump(x, e, start, next, to),
            None => false,
        },
        Op::Beq => branch(x, e, next, |a, b| a == b),
        Op::Bne => branch(x, e, next, |a, b| a != b),
        Op::Blt => branch(x, e, next, |a, b| (a as i32) < b as i32),
        Op::Bge => branch(x, e, next, |a, b| a as i32 >= b as i32),
        Op::Bltu => branch(x, e, next, |a, b| a < b),
        Op::Bgeu => branch(x, e, next, |a, b| a >= b),
        Op::Lb => load(memory, stretches, x, e, |bytes| i8::from_le_bytes(bytes) as u32),
        Op::Lh => load(memory, stretches, x, e, |bytes| i16::from_le_bytes(bytes) as u32),
        Op::Lw => load(memory, stretches, x, e, u32::from_le_bytes),
        Op::Lbu => load(memory, stretches, x, e, |bytes| u8::from_le_bytes(bytes).into()),
        Op::Lhu => load(memory, stretches, x, e, |bytes| u16::from_le_bytes(bytes).into()),
        Op::Sb => store(memory, stretches, x, e, |value| (value as u8).to_le_bytes()),
        Op::Sh => store(memory, stretches, x, e, |value| (value as u16).to_le_bytes()),
        Op::Sw => store(memory, stretches, x, e, u32::to_le_bytes),
        Op::Addi => with_imm(x, e, u32::wrapping_add),
        Op::Slti => with_imm(x, e, |a, b| ((a as i32) < b as i32) as u32),
        Op::Sltiu => with_imm(x, e, |a, b| (a < b) as u32),
        Op::Xori => with_imm(x, e, |a, b| a ^ b),
        Op::Ori => with_imm(x, e, |a, b| a | b),
        Op::Andi => with_imm(x, e, |a, b| a & b),
        Op::Slli => with_imm(x, e, u32::wrapping_shl),
        Op::Srli => with_imm(x, e, u32::wrapping_shr),
        Op::Srai => with_imm(x, e, |a, b| (a as i32).wrapping_shr(b) as u32),
        Op::Add => both(x, e, u32::wrapping_add),
        Op::Sub => both(x, e, u32::wrapping_sub),
        Op::Sll => both(x, e, u32::wrapping_shl),
        Op::Slt => both(x, e, |a, b| ((a as i32) < b as i32) as u32),
        Op::Sltu => both(x, e, |a, b| (a < b) as u32),
        Op::Xor => both(x, e, |a, b| a ^ b),
        Op::Srl => both(x, e, u32::wrapping_shr),
        Op::Sra => both(x, e, |a, b| (a as i32).wrapping_shr(b) as u32),
        Op::Or => both(x, e, |a, b| a | b),
        Op::And => both(x, e, |a, b| a & b),
        Op::Mul => both(x, e, u32::wrapping_mul),
        Op::Mulh => both(x, e, |a, b| (i64::from(a as i32) * i64::from(b as i32) >> 32) as u32),
        Op::Mulhsu => both(x, e, |a, b| (i64::from(a as i32) * i64::from(b) >> 32) as u32),
        Op::Mulhu => both(x, e, |a, b| (u64::from(a) * u64::from(b) >> 32) as u32),
        Op::Div => both(x, e, |a, b| if b == 0 { u32::MAX } else { (a as i32).wrapping_div(b as i32) as u32 }),
        Op::Divu => both(x, e, |a, b| a.checked_div(b).unwrap_or(u32::MAX)),
        Op::Rem => both(x, e, |a, b| if b == 0 { a } else { (a as i32).wrapping_rem(b as i32) as u32 }),
        Op::Remu => both(x, e, |a, b| a.checked_rem(b).unwrap_or(a)),
    }
}

/// How a loop over entries ended: the number of the next entry, or of the one behind an entry that stopped, so that the loop
/// keeps one number; and how many instructions are left.
struct Ended {
    next: usize,
    is_stopped: bool,
    left: u64,
}

/// Does entries from the one of a number on, at most so many, up to one that stops or to where there is none.
#[inline(never)]
fn run_entries(table: Table, memory: &mut Memory, all: &mut Registers, mut next: usize, mut left: u64) -> Ended {
    let mut x = *all;
    let mut stretches = Stretches { loads: [Stretch::default(); 33], stores: [Stretch::default(); 33] };
    let mut is_stopped = false;
    while left > 0 {
        let Some(e) = table.entries.get(next) else {
            break;
        };
        next += 1;
        if !enter(memory, &mut stretches, &mut x, table.start, &mut next, e) {
            is_stopped = true;
            break;
        }
        left -= 1;
    }
    *all = x;
    Ended { next, is_stopped, left }
}

/// The same from an address on. The answer is the address of the next instruction, and how many are left.
fn run_on(table: Table, memory: &mut Memory, x: &mut Registers, pc: u32, left: u64) -> (u32, u64) {
    let first = (pc.wrapping_sub(table.start) / 4) as usize;
    let ended = run_entries(table, memory, x, first, left);
    (address_of(table.start, ended.next - ended.is_stopped as usize), ended.left)
}

/// Whether a word is a branch that isn't taken.
fn is_passed(word: u32, x: &Registers) -> bool {
    let (a, b) = (x[register(word, 15) as usize], x[register(word, 20) as usize]);
    let is_taken = match funct3(word) {
        0 => a == b,
        1 => a != b,
        4 => (a as i32) < b as i32,
        5 => a as i32 >= b as i32,
        6 => a < b,
        7 => a >= b,
        _ => true,
    };
    word & 0x7f == 0x63 && !is_taken
}

/// Why an instruction that is no call fails.
fn cause(word: u32) -> &'static str {
    match word & 0x7f {
        0x73 if word == EBREAK => "assertion",
        0x03 if load_op(word).is_some() => "bad access",
        0x23 if store_op(word).is_some() => "bad access",
        0x63 if branch_op(word).is_some() => "bad jump",
        0x67 if funct3(word) == 0 => "bad jump",
        0x6f => "bad jump",
        _ => "bad instruction",
    }
}

/// What ends a run, but for the end of the input.
enum Stop {
    Exit(u32),
    Finished,
    Failed(&'static str),
}

const BAD_ACCESS: Stop = Stop::Failed("bad access");

struct Machine<I, O> {
    memory: Memory,
    open: [bool; CONNECTIONS],
    steps: u64,
    input: I,
    output: O,
}

impl<I: Read, O: Write> Machine<I, O> {
    /// Runs from an address on until it stops. The answer is why, and where.
    fn run(&mut self, code: Table, mut pc: u32, mut x: Registers) -> (Stop, u32) {
        let mut left = BUDGET;
        loop {
            (pc, left) = run_on(code, &mut self.memory, &mut x, pc, left);
            if left == 0 {
                return (Stop::Failed("hang"), pc);
            }
            let Some(word) = self.memory.word(pc) else {
                return (BAD_ACCESS, pc);
            };
            if word != ECALL {
                (pc, left) = match self.by_itself(&mut x, pc, left, word) {
                    Some(after) => after,
                    None => return (Stop::Failed(cause(word)), pc),
                };
                continue;
            }
            let takes = x[17] == 1;
            if let Err(stop) = self.call(&mut x) {
                self.steps += BUDGET - left;
                return (stop, pc);
            }
            left -= 1;
            if takes {
                self.steps += BUDGET - left;
                left = BUDGET;
            }
            pc = pc.wrapping_add(4);
        }
    }

    /// Does a word that has no entry that does it: one that isn't in the table, or a branch to no multiple of 4.
    #[cold]
    fn by_itself(&mut self, x: &mut Registers, pc: u32, left: u64, word: u32) -> Option<(u32, u64)> {
        if is_passed(word, x) {
            return Some((pc.wrapping_add(4), left - 1));
        }
        let table = Table { start: pc, entries: &[entry_of(pc, pc, word)] };
        let (pc, rest) = run_on(table, &mut self.memory, x, pc, 1);
        (rest == 0).then_some((pc, left - 1))
    }

    #[inline(never)]
    fn call(&mut self, x: &mut Registers) -> Result<(), Stop> {
        match x[17] {
            1 => self.recv(x),
            2 => self.send(x),
            5 => Err(Stop::Exit(x[10])),
            _ => Err(Stop::Failed("bad call")),
        }
    }

    fn recv(&mut self, x: &mut Registers) -> Result<(), Stop> {
        let (at, len) = (x[10], x[11] as usize);
        if !self.memory.permits(WRITE, at, len) {
            return Err(BAD_ACCESS);
        }
        self.output.flush().map_err(|_| Stop::Failed("write"))?;
        let mut header = [0; 5];
        if self.input.read_exact(&mut header).is_err() {
            return Err(Stop::Finished);
        }
        let [kind, conn @ .., low, high] = header;
        let conn = u16::from_le_bytes(conn);
        let mut bytes = vec![0; u16::from_le_bytes([low, high]).into()];
        self.input.read_exact(&mut bytes).map_err(|_| Stop::Failed("read"))?;
        self.memory.write(at, &bytes[..len.min(bytes.len())]);
        self.open[usize::from(conn)] = kind != 3;
        x[10] = bytes.len() as u32;
        x[11] = conn.into();
        x[12] = kind.into();
        Ok(())
    }

    fn send(&mut self, x: &mut Registers) -> Result<(), Stop> {
        let (conn, at, len) = (x[10], x[11], x[12]);
        x[10] = if len > 65535 {
            2
        } else if !self.open.get(conn as usize).is_some_and(|open| *open) {
            1
        } else {
            let bytes = self.memory.read(READ, at, len as usize).ok_or(BAD_ACCESS)?;
            let [c0, c1, ..] = conn.to_le_bytes();
            let [l0, l1, ..] = len.to_le_bytes();
            if len > 0 {
                let frame = [&[2, c0, c1, l0, l1], bytes].concat();
                self.output.write_all(&frame).map_err(|_| Stop::Failed("write"))?;
            }
            0
        };
        Ok(())
    }
}

fn half_at(file: &[u8], at: usize) -> usize {
    u16::from_le_bytes(file[at..at + 2].try_into().unwrap()).into()
}

fn word_at(file: &[u8], at: usize) -> u32 {
    u32::from_le_bytes(file[at..at + 4].try_into().unwrap())
}

/// The memory of an executable: its segments, the heap and the stack; and the stack's top.
fn memory_of(file: &[u8]) -> (Memory, u32) {
    let mut spans = Vec::new();
    let mut filled = Vec::new();
    for k in 0..half_at(file, 44) {
        let header = word_at(file, 28) as usize + 32 * k;
        let field = |n: usize| word_at(file, header + 4 * n);
        let (kind, offset, start, filesz, memsz, flags) =
            (field(0), field(1) as usize, field(2), field(4) as usize, field(5), field(6));
        if kind == 1 && memsz > 0 {
            spans.push(Span { start, end: start + memsz, flags });
            filled.push((start, &file[offset..offset + filesz]));
        }
    }
    let base = spans.iter().map(|span| span.start).min().unwrap() / PAGE * PAGE;
    let highest = spans.iter().map(|span| span.end).max().unwrap();
    let top = base + WINDOW;
    let heap = highest.div_ceil(PAGE) * PAGE;
    for (start, end) in [(heap, top - STACK - PAGE), (top - STACK, top)] {
        spans.push(Span { start, end, flags: READ | WRITE });
    }
    let window = vec![0; WINDOW as usize].into_boxed_slice().try_into().unwrap();
    let mut memory = Memory { base, window, spans };
    for (start, bytes) in filled {
        memory.write(start, bytes);
    }
    (memory, top)
}

fn main() {
    let Some(name) = std::env::args().nth(1) else {
        eprintln!("usage: interpreter PROGRAM < FRAMES > FRAMES");
        exit(2);
    };
    let file = std::fs::read(name).expect("the program can be read");
    let (mut memory, top) = memory_of(&file);
    let (start, entries) = memory.code();
    let mut machine = Machine {
        memory,
        open: [false; CONNECTIONS],
        steps: 0,
        input: io::stdin().lock(),
        output: io::BufWriter::new(io::stdout().lock()),
    };
    let mut registers = [0; 33];
    registers[2] = top;
    let (stop, pc) = machine.run(Table { start, entries: &entries }, word_at(&file, 24), registers);
    machine.output.flush().expect("the output can be written");
    match stop {
        Stop::Finished => eprintln!("{}", machine.steps),
        Stop::Exit(code) => exit((code != 0).into()),
        Stop::Failed(cause) => {
            eprintln!("{} at {:08x}", cause, pc);
            exit(5);
        }
    }
}
