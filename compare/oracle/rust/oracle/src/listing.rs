//! What document 01 lists: ports, classes with their inputs, variants, and the names of docs/src
//! that they stand for. The gates' ports and their order are document 01's, since the files of the
//! Rust that have them are not in docs/src.
use wirescript::intern::sym;
use wirescript::ir::gate_class as gc;
use wirescript::ir::port_registry::WirePort;
use wirescript::ir::{GateIO, NodeKind, PortSpec, Type};
use wirescript_ir::semantics::InVariant;

/// Ports 0 to 9.
pub const PORTS: [WirePort; 10] = [
    WirePort::Output,
    WirePort::Exec,
    WirePort::InputA,
    WirePort::InputB,
    WirePort::BSelectB,
    WirePort::BCond,
    WirePort::ExecOutA,
    WirePort::ExecOutB,
    WirePort::RerInput,
    WirePort::InputC,
];
/// Port 10, of properties only.
pub const VALUE: u8 = 10;

/// Variants 0 to 8.
pub const VARIANTS: [InVariant; 9] = [
    InVariant::Unwired,
    InVariant::Int,
    InVariant::Float,
    InVariant::Bool,
    InVariant::Vector,
    InVariant::Rotator,
    InVariant::Quat,
    InVariant::Color,
    InVariant::Str,
];

/// Flags: the node is not folded; a label names it, so that no sweep takes it.
pub const NOFOLD: u8 = 1;
pub const LABEL: u8 = 2;

pub const LITERAL: u8 = 1;
pub const LOGICAL_AND: u8 = 12;

/// Whether a class is an order gate, Less to GreaterOrEqual: its rows name no text (question 12).
pub fn is_order(class: u8) -> bool {
    (8..=11).contains(&class)
}

pub const LAST_CLASS: u8 = 42;
/// Classes from 0; 0, any other, is the Rust's stand-in for a gate that it has no law for.
pub const CLASSES: [&str; LAST_CLASS as usize + 1] = [
    gc::UNSUPPORTED,
    gc::LITERAL,
    gc::MICROCHIP_INPUT,
    gc::MICROCHIP_OUTPUT,
    gc::SELECT,
    gc::BRANCH,
    gc::COMPARE_EQUAL,
    gc::COMPARE_NOT_EQUAL,
    gc::COMPARE_LESS,
    gc::COMPARE_LESS_OR_EQUAL,
    gc::COMPARE_GREATER,
    gc::COMPARE_GREATER_OR_EQUAL,
    gc::LOGICAL_AND,
    gc::LOGICAL_OR,
    gc::LOGICAL_XOR,
    gc::LOGICAL_NOT,
    gc::LOGICAL_NAND,
    gc::LOGICAL_NOR,
    gc::MATH_ADD,
    gc::MATH_SUBTRACT,
    gc::MATH_MULTIPLY,
    gc::MATH_DIVIDE,
    gc::MATH_MODULO,
    gc::MATH_ABS,
    gc::MATH_SIGN,
    gc::MATH_NEGATE,
    gc::MATH_MIN,
    gc::MATH_MAX,
    gc::MATH_CLAMP,
    gc::MATH_MOD_FLOORED,
    gc::ROUND,
    gc::FLOOR,
    gc::CEIL,
    gc::BITWISE_AND,
    gc::BITWISE_OR,
    gc::BITWISE_XOR,
    gc::BITWISE_NOT,
    gc::BITWISE_NAND,
    gc::BITWISE_NOR,
    gc::BITWISE_SHIFT_LEFT,
    gc::BITWISE_SHIFT_RIGHT,
    gc::BITWISE_BIT_COUNT,
    gc::MATH_SQRT,
];

/// Classes from 6: what a sweep takes, beside Literals.
pub fn gates() -> &'static [&'static str] {
    &CLASSES[6..]
}

/// How many inputs a gate from class 6 has.
pub fn input_count(class: u8) -> usize {
    match class {
        15 | 23..=25 | 30..=32 | 36 | 41 | 42 => 1,
        28 => 3,
        _ => 2,
    }
}

/// How many variants a row of a class from 4 has.
pub fn row_length(class: u8) -> usize {
    if class <= 5 { 1 } else { input_count(class) }
}

pub fn node_kind(class: u8) -> NodeKind {
    match class {
        2 => NodeKind::Input,
        3 => NodeKind::Output,
        _ => NodeKind::Gate,
    }
}

pub fn gate_io(class: u8) -> GateIO {
    let inputs: &[WirePort] = match class {
        0 | 1 => return GateIO::source(Type::Any),
        2 | 3 => return GateIO::pin(Type::Any),
        4 => &[WirePort::InputA, WirePort::InputB, WirePort::BSelectB],
        5 => return GateIO::exec_branch(),
        _ => &[WirePort::InputA, WirePort::InputB, WirePort::InputC][..input_count(class)],
    };
    GateIO {
        inputs: inputs
            .iter()
            .map(|p| PortSpec::new(p.sym(), Type::Any))
            .collect(),
        outputs: vec![PortSpec::new(*sym::OUTPUT, Type::Any)],
    }
}
