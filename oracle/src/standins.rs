//! Small stand-ins for the files of asmkit that are not to be had: as much of each as the files
//! that are compiled unchanged need. What no ported function reaches is `absent`.

/// Declares functions that the originals name, but that no ported function reaches.
macro_rules! absent {
    ($(fn $name:ident($($of:ty),*) -> $to:ty;)*) => {
        $(pub fn $name(&self $(, _: $of)*) -> $to {
            unreachable!()
        })*
    };
}

/// Stands in for the error type of `lib.rs`.
#[derive(Clone, Debug, PartialEq, Eq)]
pub enum AsmError {
    InvalidArch,
    InvalidArgument,
    InvalidOperand,
    InvalidState,
    TooLarge,
}

/// Stands in for `aarch64/emit.rs` and `aarch64/emitter.rs`: the handlers' names and the mnemonics.
pub mod emit {
    use crate::aarch64::{Assembler, Gp};
    use crate::core::operand::{Operand, OperandCast};

    pub enum Handler {
        Op,
        OpDispImm,
        OpRel,
        Multi,
    }

    impl Assembler<'_> {
        absent! {
            fn _emit(u32, &[&Operand]) -> ();
            fn adrp(Gp, impl OperandCast) -> ();
            fn add(Gp, Gp, impl OperandCast) -> ();
            fn ldr(Gp, impl OperandCast) -> ();
            fn b(impl OperandCast) -> ();
            fn bl(impl OperandCast) -> ();
        }
    }
}

/// Stands in for `aarch64/instdb.rs`: the one instruction and the two flags that are named.
pub mod instdb {
    pub enum InstId {
        B,
    }

    pub enum InstFlag {
        Long,
        Narrow,
    }
}

/// Stands in for `core/support.rs`.
pub mod support {
    pub fn bitmask_from_bool(on: bool) -> u32 {
        if on { u32::MAX } else { 0 }
    }
}

/// Stands in for `core/target.rs`: the environment is always AArch64.
pub mod target {
    use crate::core::arch_traits::Arch;

    pub struct Environment;

    impl Environment {
        pub fn arch(&self) -> Arch {
            Arch::AArch64
        }

        absent! {
            fn pic() -> bool;
            fn is_32bit() -> bool;
            fn is_64bit() -> bool;
        }
    }
}

/// Stands in for `core/relax.rs`.
pub mod relax {
    pub struct OffsetMap;

    impl OffsetMap {
        absent! {
            fn map(u32) -> u32;
        }
    }
}

/// Stands in for `core/buffer.rs`: the words written, from an offset on. Labels, symbols and
/// relocations are absent.
pub mod buffer {
    use super::AsmError;
    use super::relax::OffsetMap;
    use super::target::Environment;
    use crate::core::operand::{Label, Sym};
    use crate::core::patch::PatchableRegion;

    pub type CodeOffset = u32;

    pub struct CodeBuffer {
        start: CodeOffset,
        bytes: Vec<u8>,
        environment: Environment,
    }

    impl CodeBuffer {
        pub fn starting_at(start: CodeOffset) -> Self {
            let bytes = Vec::new();
            let environment = Environment;
            Self { start, bytes, environment }
        }

        pub fn cur_offset(&self) -> CodeOffset {
            self.start + self.bytes.len() as CodeOffset
        }

        pub fn write_u32(&mut self, word: u32) {
            self.bytes.extend(word.to_le_bytes());
        }

        pub fn data(&self) -> &[u8] {
            &self.bytes
        }

        pub fn env(&self) -> &Environment {
            &self.environment
        }

        absent! {
            fn add_reloc(Reloc, RelocTarget, i64) -> ();
            fn bind_label(Label) -> ();
            fn checkpoint() -> ();
            fn error() -> Option<&AsmError>;
            fn get_label() -> Label;
            fn get_label_for_constant(Constant) -> Label;
            fn is_bound(Label) -> bool;
            fn label_offset(Label) -> CodeOffset;
            fn record_error(AsmError) -> ();
            fn relocs() -> &[AsmReloc];
            fn reserve_patch_region(CodeOffset, CodeOffset) -> Result<PatchableRegion, AsmError>;
            fn rollback(()) -> ();
            fn symbol_distance(Sym) -> Option<RelocDistance>;
            fn symbol_name(Sym) -> Option<&str>;
            fn try_bind_label(Label) -> Result<(), AsmError>;
            fn use_label_at_offset(CodeOffset, Label, LabelUse) -> ();
            fn write_u64(u64) -> ();
        }
    }

    pub struct CodeBufferFinalized {
        pub section_bases: Vec<CodeOffset>,
        pub layout_maps: Vec<OffsetMap>,
    }

    #[derive(Clone, Copy, Debug, PartialEq, Eq, Hash)]
    pub enum LabelUse {
        A64AddAbsLo12,
        A64Adr21,
        A64Adrp21,
        A64Branch14,
        A64Branch19,
        A64Branch26,
        A64Ldr19,
    }

    impl LabelUse {
        absent! {
            fn can_reach_delta(i64) -> bool;
            fn patch_size() -> usize;
            fn patch_with_addend(&mut [u8], u32, u32, i64) -> ();
        }
    }

    pub enum Reloc {
        Aarch64AddAbsLo12Nc,
        Aarch64AdrGotPage21,
        Aarch64AdrPrelPgHi21,
        Aarch64Ld64GotLo12Nc,
        Abs8,
    }

    pub enum RelocTarget {
        Sym(Sym),
    }

    pub enum RelocDistance {
        Near,
        Far,
    }

    pub struct AsmReloc;
    pub struct Constant;
}
