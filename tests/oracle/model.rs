//! The one type that `mips.rs` takes from the published `model.rs`.
//!
//! The published `Flow` also derives serde's traits. The driver writes its own
//! columns and is built without any crate, so those two derives are left out.

#[derive(Debug, Clone, Copy, PartialEq, Eq)]
pub enum Flow {
    None,
    Call,
    Jump,
    CondJump,
    Ret,
    Interrupt,
}
