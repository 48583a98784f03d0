//! What document 01 lists: limits, kinds of records, ports and classes.

pub const MAX_BYTES: usize = 65_536;
pub const MAX_NODES: usize = 1_024;
pub const MAX_WIRES: usize = 4_096;
pub const MAX_PROPERTIES: usize = 2_048;
pub const MAX_ROWS: usize = 1_024;

pub mod kind {
    pub const NODE: u8 = 0x01;
    pub const WIRE: u8 = 0x02;
    pub const INT: u8 = 0x03;
    pub const BOOL: u8 = 0x05;
    pub const COLOR: u8 = 0x09;
    pub const ROW: u8 = 0x0A;
    pub const ANNIHILATOR: u8 = 0x0B;
    pub const TEXT: u8 = 0x0C;
    pub const KEPT: u8 = 0x10;
    pub const REMOVED: u8 = 0x11;
}

/// The length of each kind of record with its kind byte; 0 for what is no kind.
pub const LENGTHS: [u8; 13] = [0, 3, 7, 12, 12, 5, 28, 28, 36, 36, 5, 2, 21];

pub fn record_length(kind: u8) -> Option<usize> {
    match LENGTHS.get(usize::from(kind)) {
        None | Some(0) => None,
        Some(&length) => Some(usize::from(length)),
    }
}

pub mod port {
    pub const OUTPUT: u8 = 0;
    pub const EXEC: u8 = 1;
    pub const INPUT_A: u8 = 2;
    pub const INPUT_B: u8 = 3;
    pub const SELECT_B: u8 = 4;
    pub const COND: u8 = 5;
    pub const EXEC_OUT_A: u8 = 6;
    pub const EXEC_OUT_B: u8 = 7;
    pub const RER_INPUT: u8 = 8;
    pub const INPUT_C: u8 = 9;
    pub const VALUE: u8 = 10;
}

/// The bits of a node's flags.
pub mod flag {
    pub const NOFOLD: u8 = 1;
    pub const LABEL: u8 = 2;
}

/// The last port of a wire, and that of a property.
pub const LAST_WIRE_PORT: u8 = port::INPUT_C;
pub const LAST_PORT: u8 = port::VALUE;

#[allow(dead_code)]
pub mod class {
    pub const OTHER: u8 = 0;
    pub const LITERAL: u8 = 1;
    pub const CHIP_INPUT: u8 = 2;
    pub const CHIP_OUTPUT: u8 = 3;
    pub const SELECT: u8 = 4;
    pub const BRANCH: u8 = 5;
    pub const EQUAL: u8 = 6;
    pub const NOT_EQUAL: u8 = 7;
    pub const LESS: u8 = 8;
    pub const LESS_OR_EQUAL: u8 = 9;
    pub const GREATER: u8 = 10;
    pub const GREATER_OR_EQUAL: u8 = 11;
    pub const LOGICAL_AND: u8 = 12;
    pub const LOGICAL_OR: u8 = 13;
    pub const LOGICAL_XOR: u8 = 14;
    pub const LOGICAL_NOT: u8 = 15;
    pub const LOGICAL_NAND: u8 = 16;
    pub const LOGICAL_NOR: u8 = 17;
    pub const ADD: u8 = 18;
    pub const SUBTRACT: u8 = 19;
    pub const MULTIPLY: u8 = 20;
    pub const DIVIDE: u8 = 21;
    pub const MODULO: u8 = 22;
    pub const ABS: u8 = 23;
    pub const SIGN: u8 = 24;
    pub const NEGATE: u8 = 25;
    pub const MIN: u8 = 26;
    pub const MAX: u8 = 27;
    pub const CLAMP: u8 = 28;
    pub const MODULO_FLOORED: u8 = 29;
    pub const ROUND: u8 = 30;
    pub const FLOOR: u8 = 31;
    pub const CEIL: u8 = 32;
    pub const BITWISE_AND: u8 = 33;
    pub const BITWISE_OR: u8 = 34;
    pub const BITWISE_XOR: u8 = 35;
    pub const BITWISE_NOT: u8 = 36;
    pub const BITWISE_NAND: u8 = 37;
    pub const BITWISE_NOR: u8 = 38;
    pub const SHIFT_LEFT: u8 = 39;
    pub const SHIFT_RIGHT: u8 = 40;
    pub const BIT_COUNT: u8 = 41;
    pub const SQRT: u8 = 42;
}

pub const CLASSES: usize = class::SQRT as usize + 1;

/// The variants in rows.
pub mod variant {
    pub const UNWIRED: u8 = 0;
    pub const INT: u8 = 1;
    pub const FLOAT: u8 = 2;
    pub const BOOL: u8 = 3;
    pub const VECTOR: u8 = 4;
    pub const ROTATOR: u8 = 5;
    pub const QUAT: u8 = 6;
    pub const COLOR: u8 = 7;
    pub const TEXT: u8 = 8;
}

pub const VARIANTS: usize = variant::TEXT as usize + 1;

/// The kind of a value's record: its variant and 2, but for text.
#[inline(always)]
pub fn kind_of(variant: u8) -> u8 {
    match variant {
        variant::TEXT => kind::TEXT,
        _ => variant + 2,
    }
}

#[inline(always)]
pub fn variant_of(kind: u8) -> u8 {
    match kind {
        kind::TEXT => variant::TEXT,
        _ => kind - 2,
    }
}

/// The bytes of a text behind its length, used or not.
pub const TEXT_BYTES: usize = 16;

/// How many variants a row of a class from 4 has: 1 for Select and Branch, else the gate's inputs.
pub const fn row_length(class: u8) -> usize {
    match class {
        4 | 5 | 15 | 23..=25 | 30..=32 | 36 | 41 | 42 => 1,
        28 => 3,
        _ => 2,
    }
}
