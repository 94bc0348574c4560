//! Details of rows. Each counts from 1.

/// Of an operand: its addressing mode. 3 (implied) never comes.
pub mod mode {
    /// `1`, `1,x`.
    pub const ABSOLUTE_OR_ZP: u32 = 1;
    /// `#1`.
    pub const IMMEDIATE: u32 = 2;
    pub const IMPLIED: u32 = 3;
    /// `(1,x)`.
    pub const INDIRECT: u32 = 4;
    /// `(1)`, `(1),y`.
    pub const OUTER_INDIRECT: u32 = 5;
}

/// Of a factor: the marks before it, added.
pub mod factor {
    /// `!`.
    pub const NOT: u32 = 1;
    /// `-`.
    pub const NEGATIVE: u32 = 2;
}

/// Of a mnemonic.
pub mod mnemonic {
    pub const ADC: u32 = 1;
    pub const AND: u32 = 2;
    pub const ASL: u32 = 3;
    pub const BCC: u32 = 4;
    pub const BCS: u32 = 5;
    pub const BEQ: u32 = 6;
    pub const BIT: u32 = 7;
    pub const BMI: u32 = 8;
    pub const BNE: u32 = 9;
    pub const BPL: u32 = 10;
    pub const BRK: u32 = 11;
    pub const BVC: u32 = 12;
    pub const BVS: u32 = 13;
    pub const CLC: u32 = 14;
    pub const CLD: u32 = 15;
    pub const CLI: u32 = 16;
    pub const CLV: u32 = 17;
    pub const CMP: u32 = 18;
    pub const CPX: u32 = 19;
    pub const CPY: u32 = 20;
    pub const DEC: u32 = 21;
    pub const DEX: u32 = 22;
    pub const DEY: u32 = 23;
    pub const EOR: u32 = 24;
    pub const INC: u32 = 25;
    pub const INX: u32 = 26;
    pub const INY: u32 = 27;
    pub const JMP: u32 = 28;
    pub const JSR: u32 = 29;
    pub const LDA: u32 = 30;
    pub const LDX: u32 = 31;
    pub const LDY: u32 = 32;
    pub const LSR: u32 = 33;
    pub const NOP: u32 = 34;
    pub const ORA: u32 = 35;
    pub const PHA: u32 = 36;
    pub const PHP: u32 = 37;
    pub const PLA: u32 = 38;
    pub const PLP: u32 = 39;
    pub const ROL: u32 = 40;
    pub const ROR: u32 = 41;
    pub const RTI: u32 = 42;
    pub const RTS: u32 = 43;
    pub const SBC: u32 = 44;
    pub const SEC: u32 = 45;
    pub const SED: u32 = 46;
    pub const SEI: u32 = 47;
    pub const STA: u32 = 48;
    pub const STX: u32 = 49;
    pub const STY: u32 = 50;
    pub const TAX: u32 = 51;
    pub const TAY: u32 = 52;
    pub const TSX: u32 = 53;
    pub const TXA: u32 = 54;
    pub const TXS: u32 = 55;
    pub const TYA: u32 = 56;
}

/// Of a register.
pub mod register {
    pub const X: u32 = 1;
    pub const Y: u32 = 2;
}

/// Of an operator.
pub mod operator {
    /// `+`.
    pub const ADD: u32 = 1;
    /// `-`.
    pub const SUB: u32 = 2;
    /// `*`.
    pub const MUL: u32 = 3;
    /// `/`.
    pub const DIV: u32 = 4;
    /// `%`.
    pub const MOD: u32 = 5;
    /// `<<`.
    pub const SHL: u32 = 6;
    /// `>>`.
    pub const SHR: u32 = 7;
    /// `^`.
    pub const XOR: u32 = 8;
    /// `==`.
    pub const EQ: u32 = 9;
    /// `!=`.
    pub const NE: u32 = 10;
    /// `>`.
    pub const GT: u32 = 11;
    /// `>=`.
    pub const GT_EQ: u32 = 12;
    /// `<`.
    pub const LT: u32 = 13;
    /// `<=`.
    pub const LT_EQ: u32 = 14;
    /// `&&`.
    pub const AND: u32 = 15;
    /// `||`.
    pub const OR: u32 = 16;
}

/// Of a number type.
pub mod number_type {
    /// `$`.
    pub const HEX: u32 = 1;
    /// No mark; `true` and `false` too, in any letter case.
    pub const DEC: u32 = 2;
    /// `%`.
    pub const BIN: u32 = 3;
}

/// Of an address modifier.
pub mod modifier {
    /// `>`.
    pub const HIGH_BYTE: u32 = 1;
    /// `<`.
    pub const LOW_BYTE: u32 = 2;
}

/// Of a data size.
pub mod data_size {
    /// `.byte`.
    pub const BYTE: u32 = 1;
    /// `.word`.
    pub const WORD: u32 = 2;
    /// `.dword`.
    pub const DWORD: u32 = 3;
}

/// Of a variable type.
pub mod variable_type {
    /// `.const`.
    pub const CONSTANT: u32 = 1;
    /// `.var`.
    pub const VARIABLE: u32 = 2;
}

/// Of an encoding. 4 (unspecified) never comes.
pub mod encoding {
    pub const ASCII: u32 = 1;
    pub const PETSCII: u32 = 2;
    pub const PETSCREEN: u32 = 3;
    pub const UNSPECIFIED: u32 = 4;
}
