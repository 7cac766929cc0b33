//! The same answers as lines for people: address, word, mnemonic and operands.

use std::io::{self, Write};

use crate::answer::{refusal_number, Ask};
use crate::mips::{Op, REGS};

fn operand(op: &Op) -> String {
    match *op {
        Op::Reg(r) => REGS[r as usize].to_string(),
        Op::FReg(r) => format!("f{r}"),
        Op::Imm(v) => v.to_string(),
        Op::Mem(offset, base) => format!("{offset}({})", REGS[base as usize]),
        Op::Addr(v) => format!("{v:#x}"),
        Op::Cop0(r) => format!("c0r{r}"),
    }
}

/// Asks the decoder and writes the line that a listing shows for the word.
pub fn write_text(out: &mut impl Write, ask: &Ask) -> io::Result<()> {
    write!(out, "{:016x} {:08x} ", ask.va, ask.word)?;
    let insn = match ask.decode() {
        Some(insn) => insn,
        None => return writeln!(out, "refused {}", refusal_number(ask.word)),
    };
    out.write_all(insn.mnemonic.as_bytes())?;
    if !insn.ops.is_empty() {
        let operands: Vec<String> = insn.ops.iter().map(operand).collect();
        write!(out, " {}", operands.join(", "))?;
    }
    writeln!(out)
}
