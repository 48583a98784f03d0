//! Certain small graphs of gates: zeros whose sign the Rust leaves open, Ints around and beyond 2^53, roots, texts, and nodes
//! that feed nothing; and gates whose own row is the one that is missing, or comes twice.
mod sweeps;
mod texts;

use crate::records::{Graph, LAST_CLASS, VARIANTS, class, orders_text, port, variant};
use crate::tables::INPUT_PORTS;

pub fn all() -> Vec<Vec<u8>> {
    let groups = [zeros(), long_ints(), roots(), texts::all(), sweeps::all()];
    groups.concat()
}

/// Min, Max and Clamp of every two or three zeros: Int 0, 0.0 and -0.0.
fn zeros() -> Vec<Vec<u8>> {
    let mut inputs = Vec::new();
    for class in class::MATH_MIN..=class::MATH_CLAMP {
        let ports = INPUT_PORTS[usize::from(class)];
        for chosen in 0..3usize.pow(ports.len() as u32) {
            inputs.push(gate_of_zeros(class, ports, chosen).bytes());
        }
    }
    inputs
}

/// A gate whose operands are the zeros that the digits of `chosen` in base 3 say.
fn gate_of_zeros(class: u8, ports: &[u8], chosen: usize) -> Graph {
    let mut graph = Graph::default();
    let zeros: [Operand; 3] = [int(0), float(0.0), float(-0.0)];
    let place = |place: usize| zeros[chosen / 3usize.pow(place as u32) % 3].clone();
    let operands: Vec<Operand> = (0..ports.len()).map(place).collect();
    add_gate(&mut graph, class, &operands);
    graph
}

/// A variant and the bytes of its value.
type Operand = (u8, Vec<u8>);

fn int(n: i64) -> Operand {
    (variant::INT, n.to_le_bytes().to_vec())
}

fn float(x: f64) -> Operand {
    (variant::FLOAT, x.to_le_bytes().to_vec())
}

/// A gate with operands from properties, and its row.
fn add_gate(graph: &mut Graph, class: u8, operands: &[Operand]) {
    let gate = graph.node(class);
    let ports = INPUT_PORTS[usize::from(class)];
    let mut row = [variant::UNWIRED; 3];
    for ((&port, place), (variant, value)) in ports.iter().zip(&mut row).zip(operands) {
        if *variant != variant::UNWIRED {
            graph.property(*variant, gate, port, value.clone());
        }
        *place = *variant;
    }
    graph.row(class, row);
}

/// A gate of each class, of Ints and of Floats and an Int: with every row of its class but its own, and with its own twice.
pub fn rows() -> Vec<Vec<u8>> {
    let ints = [int(6), int(3), int(4)];
    let mixed = [float(2.5), int(3), float(4.0)];
    let mut inputs = Vec::new();
    for class in class::COMPARE_EQUAL..=LAST_CLASS {
        for operands in [&ints, &mixed] {
            let mut graph = Graph::default();
            add_gate(&mut graph, class, operands);
            let own = graph.rows.clone();
            graph.rows.extend_from_slice(&own);
            inputs.push(graph.bytes());
            graph.rows = all_rows(class);
            graph.rows.retain(|row| *row != own[0]);
            inputs.push(graph.bytes());
        }
    }
    inputs
}

/// Every row that a class may have.
fn all_rows(class: u8) -> Vec<[u8; 4]> {
    let inputs = INPUT_PORTS[usize::from(class)].len() as u32;
    let digit = |number: usize, place: u32| (number / VARIANTS.pow(place) % VARIANTS) as u8;
    let row = |number| [class, digit(number, 0), digit(number, 1), digit(number, 2)];
    let rows = (0..VARIANTS.pow(inputs)).map(row);
    rows.filter(|&row| !orders_text(row)).collect()
}

/// Ints up to 2^53, and beyond it such as are floats, lie half way between two, or beside one.
const LONG_INTS: [i64; 18] = [
    (1 << 53) - 1,
    1 << 53,
    (1 << 53) + 1,
    (1 << 53) + 2,
    (1 << 54) + 2,
    1 << 60,
    (1 << 60) + 1_024,
    (1 << 62) + 512,
    i64::MAX - 1_023,
    i64::MAX - 511,
    i64::MAX,
    -(1 << 53),
    -(1 << 53) - 1,
    -(1 << 53) - 2,
    -(1 << 60),
    i64::MIN + 1_024,
    i64::MIN + 1,
    i64::MIN,
];

/// Each class with a rule for floats on each of `LONG_INTS`, which stands at each input beside each partner; and Branches
/// that such an Int decides.
fn long_ints() -> Vec<Vec<u8>> {
    let compare = class::COMPARE_EQUAL..=class::COMPARE_GREATER_OR_EQUAL;
    let classes = compare.chain(class::MATH_ADD..=class::CEIL);
    let classes = classes.chain([class::MATH_SQRT]);
    let gates = classes.flat_map(|class| LONG_INTS.map(|n| gates_of_int(class, n)));
    let graphs = gates.chain(LONG_INTS.map(branch_by_int));
    graphs.map(|graph| graph.bytes()).collect()
}

/// Gates of a class with an Int at one input and the same partner at all others.
fn gates_of_int(class: u8, n: i64) -> Graph {
    let mut graph = Graph::default();
    let inputs = INPUT_PORTS[usize::from(class)].len();
    for partner in partners(class, n) {
        for place in 0..inputs {
            let mut operands = vec![partner.clone(); inputs];
            operands[place] = int(n);
            add_gate(&mut graph, class, &operands);
        }
    }
    graph
}

/// A Branch that leads to a node if an Int is below 1.0, and else into itself.
fn branch_by_int(n: i64) -> Graph {
    let mut graph = Graph::default();
    add_gate(&mut graph, class::COMPARE_LESS, &[int(n), float(1.0)]);
    let classes = [class::BRANCH, class::OTHER, class::OTHER];
    let [branch, first, last] = classes.map(|class| graph.node(class));
    graph.wire((0, port::OUTPUT), (branch, port::B_COND));
    graph.wire((first, port::OUTPUT), (branch, port::EXEC));
    graph.wire((branch, port::EXEC_OUT_A), (last, port::EXEC));
    graph.wire((branch, port::EXEC_OUT_B), (branch, port::EXEC));
    graph.row(class::BRANCH, [variant::BOOL, 0, 0]);
    graph
}

/// What a class takes beside an Int: nothing, Floats, a Bool and, in arithmetic, a Vector; one of them where it takes no
/// second input.
fn partners(class: u8, n: i64) -> Vec<Operand> {
    let mut partners = vec![
        (variant::UNWIRED, vec![]),
        float(1.0),
        float(n as f64),
        (variant::BOOL, vec![1]),
    ];
    if (class::MATH_ADD..=class::MATH_MODULO).contains(&class) {
        let parts = [1.0f64, -2.0, 3.5].map(f64::to_le_bytes);
        partners.push((variant::VECTOR, parts.concat()));
    }
    if INPUT_PORTS[usize::from(class)].len() == 1 {
        partners.truncate(1);
    }
    partners
}

/// Sqrt of certain operands, and of the sum and the difference of two squares, which diagonal travel asks for.
fn roots() -> Vec<Vec<u8>> {
    let single = root_operands().into_iter().map(root_of);
    let sums = [class::MATH_ADD, class::MATH_SUBTRACT];
    let travels = legs().into_iter();
    let travels = travels.flat_map(|(x, y)| sums.map(|class| travel(class, &x, &y)));
    single.chain(travels).map(|graph| graph.bytes()).collect()
}

fn root_operands() -> Vec<Operand> {
    let others = [
        (variant::UNWIRED, 0),
        (variant::BOOL, 1),
        (variant::VECTOR, 24),
        (variant::ROTATOR, 24),
        (variant::QUAT, 32),
        (variant::COLOR, 32),
    ];
    let others = others.map(|(variant, bytes)| (variant, vec![1; bytes]));
    let floats = ROOT_FLOATS.map(float).into_iter();
    floats.chain(ROOT_INTS.map(int)).chain(others).collect()
}

/// Two Ints, the same as Floats, other Floats, and an Int with half the other.
fn legs() -> Vec<(Operand, Operand)> {
    let ints = LEGS.map(|(x, y)| (int(x), int(y)));
    let whole = LEGS.map(|(x, y)| (float(x as f64), float(y as f64)));
    let floats = FLOAT_LEGS.map(|(x, y)| (float(x), float(y)));
    let halves = LEGS.map(|(x, y)| (int(x), float(y as f64 / 2.0)));
    let legs = ints.into_iter().chain(whole).chain(floats);
    legs.chain(halves).collect()
}

/// Zeros, squares and their neighbours, subnormals, the largest, negative ones, and what is not finite.
const ROOT_FLOATS: [f64; 27] = [
    0.0,
    -0.0,
    1.0,
    2.0,
    3.0,
    4.0,
    0.25,
    0.1,
    f64::from_bits(0x3FEF_FFFF_FFFF_FFFF),
    f64::from_bits(0x3FF0_0000_0000_0001),
    f64::from_bits(0x400F_FFFF_FFFF_FFFF),
    f64::from_bits(0x4010_0000_0000_0001),
    // (2^27 - 1)^2 takes 54 digits, (2^26 - 1)^2 takes 52.
    18_014_398_241_046_529.0,
    4_503_599_493_152_769.0,
    f64::from_bits(1),
    f64::from_bits(2),
    f64::from_bits(0x000F_FFFF_FFFF_FFFF),
    f64::MIN_POSITIVE,
    f64::MAX,
    -1.0,
    -4.0,
    -f64::MIN_POSITIVE,
    f64::from_bits(0x8000_0000_0000_0001),
    f64::MIN,
    f64::INFINITY,
    f64::NEG_INFINITY,
    f64::NAN,
];

const ROOT_INTS: [i64; 8] = [0, 1, 2, 9, 10, -1, -4, 9_007_199_136_250_225];

/// Legs of whole triangles and others; such as have long squares, of which some are floats; and such as overflow.
const LEGS: [(i64, i64); 14] = [
    (0, 0),
    (3, 4),
    (-5, 12),
    (4, -3),
    (-20, -21),
    (1, 1),
    (2, -3),
    (94_906_265, 1),
    (1 << 30, 0),
    (3 << 29, 4 << 29),
    ((1 << 27) + 1, 0),
    (1 << 31, 1 << 31),
    (1 << 32, 1),
    (i64::MIN, 0),
];

/// Legs with halves and tenths; whose squares are no longer there, subnormal or too large; zeros; no numbers.
const FLOAT_LEGS: [(f64, f64); 12] = [
    (0.5, -1.25),
    (0.1, 0.2),
    (-7.25, 6.5),
    (1e-3, 1e3),
    (1e-200, 1e-170),
    (1e-160, 3e-162),
    (1e154, -1e153),
    (1e154, 1e154),
    (1e200, 3.0),
    (-0.0, 0.0),
    (f64::NAN, 2.0),
    (f64::INFINITY, 4.0),
];

/// A Sqrt of an operand.
fn root_of(operand: Operand) -> Graph {
    let mut graph = Graph::default();
    add_gate(&mut graph, class::MATH_SQRT, &[operand]);
    graph
}

/// The root of two squares added, or of the first less the second, which some node reads.
fn travel(class: u8, x: &Operand, y: &Operand) -> Graph {
    let mut graph = Graph::default();
    let squares = [x, y].map(|(variant, value)| {
        let leg = graph.node(class::LITERAL);
        graph.property(*variant, leg, port::VALUE, value.clone());
        let square = graph.node(class::MATH_MULTIPLY);
        for port in [port::INPUT_A, port::INPUT_B] {
            graph.wire((leg, port::OUTPUT), (square, port));
        }
        square
    });
    let [sum, root, reader] =
        [class, class::MATH_SQRT, class::OTHER].map(|class| graph.node(class));
    for (square, port) in squares.into_iter().zip([port::INPUT_A, port::INPUT_B]) {
        graph.wire((square, port::OUTPUT), (sum, port));
    }
    graph.wire((sum, port::OUTPUT), (root, port::INPUT_A));
    graph.wire((root, port::OUTPUT), (reader, port::INPUT_A));
    for first in [variant::INT, variant::FLOAT] {
        for class in [class::MATH_MULTIPLY, class] {
            for second in [variant::INT, variant::FLOAT] {
                graph.row(class, [first, second, 0]);
            }
        }
        graph.row(class::MATH_SQRT, [first, 0, 0]);
    }
    graph
}
