//! Certain graphs with texts: equality, truth, conditions, gates that give nothing, known texts, and what the questions refuse.
use super::{Operand, add_gate, all_rows, float, int};
use crate::records::{Graph, HEAD, LAST_CLASS, TEXT_BYTES, class, kind, limit, port, variant};
use crate::tables::{INPUT_PORTS, ORDER_GATES};
use crate::texts;

/// False ones and what looks so, decimal forms and what looks so, as many characters as a text has, and names.
const TEXTS: [&str; 24] = [
    "",
    "0",
    "false",
    "False",
    "false ",
    "00",
    " 0",
    "0 ",
    "-0",
    "7",
    "07",
    "+7",
    "7.0",
    "-7",
    "-07",
    "9999999999999999",
    "1000000000000000",
    "-999999999999999",
    "-922337203685477",
    "9223372036854775",
    "denim",
    "denin",
    "deni",
    "Denim",
];

/// Ints whose form some text is, has the first characters of, or nearly is.
const INTS: [i64; 9] = [
    0,
    7,
    -7,
    9_999_999_999_999_999,
    1_000_000_000_000_000,
    10_000_000_000_000_000,
    -999_999_999_999_999,
    i64::MIN,
    i64::MAX,
];

pub fn all() -> Vec<Vec<u8>> {
    let mut graphs = Vec::new();
    for text in TEXTS {
        graphs.extend(equalities(text));
        graphs.extend([truths(text), routes(text)]);
    }
    graphs.extend((class::MATH_ADD..=LAST_CLASS).map(nothing));
    graphs.extend(ORDER_GATES.map(unordered));
    graphs.extend([known(), at_every_port()]);
    graphs.extend((0..2).map(many));
    let graphs = graphs.iter().map(Graph::bytes);
    graphs.chain(refused()).collect()
}

fn text(chars: &str) -> Operand {
    (variant::TEXT, texts::value(chars.as_bytes()))
}

const UNWIRED: Operand = (variant::UNWIRED, Vec::new());

/// A value of each variant from Float to Color that is no text.
fn others() -> Vec<Operand> {
    let composite = |variant, bytes| (variant, vec![0; bytes]);
    vec![
        float(7.0),
        float(0.0),
        (variant::BOOL, vec![0]),
        (variant::BOOL, vec![1]),
        composite(variant::VECTOR, 24),
        composite(variant::ROTATOR, 24),
        composite(variant::QUAT, 32),
        composite(variant::COLOR, 32),
    ]
}

/// Equal of a text and each of `TEXTS`, Ints, other values and nothing; NotEqual of the same but the texts.
fn equalities(chars: &str) -> [Graph; 2] {
    let mut others = [INTS.map(int).to_vec(), others(), vec![UNWIRED]].concat();
    let mut unequal = Graph::default();
    add_both_ways(&mut unequal, class::COMPARE_NOT_EQUAL, chars, &others);
    others.extend(TEXTS.map(text));
    let mut equal = Graph::default();
    add_both_ways(&mut equal, class::COMPARE_EQUAL, chars, &others);
    [equal, unequal]
}

/// Gates of a text and each partner, in either order.
fn add_both_ways(graph: &mut Graph, class: u8, chars: &str, partners: &[Operand]) {
    for partner in partners {
        let pair = [text(chars), partner.clone()];
        add_gate(graph, class, &pair);
        let [first, second] = pair;
        add_gate(graph, class, &[second, first]);
    }
}

/// Logical gates of a text, with Bools, a text and nothing.
fn truths(chars: &str) -> Graph {
    let mut graph = Graph::default();
    let bools = [0, 1].map(|byte| (variant::BOOL, vec![byte]));
    let partners = [&bools[..], &[text("denim"), UNWIRED]].concat();
    for class in class::LOGICAL_AND..=class::LOGICAL_NOR {
        match INPUT_PORTS[usize::from(class)].len() {
            1 => add_gate(&mut graph, class, &[text(chars)]),
            _ => add_both_ways(&mut graph, class, chars, &partners),
        }
    }
    graph
}

/// A Select of known texts and a Branch that a text decides.
fn routes(chars: &str) -> Graph {
    let mut graph = Graph::default();
    let select = graph.node(class::SELECT);
    for (port, value) in [(port::INPUT_A, "twill"), (port::INPUT_B, "denim")] {
        let literal = graph.node(class::LITERAL);
        graph.property(variant::TEXT, literal, port::VALUE, text(value).1);
        graph.wire((literal, port::OUTPUT), (select, port));
    }
    let classes = [class::BRANCH, class::OTHER, class::OTHER];
    let [branch, first, last] = classes.map(|class| graph.node(class));
    graph.wire((first, port::OUTPUT), (branch, port::EXEC));
    graph.wire((branch, port::EXEC_OUT_A), (last, port::EXEC));
    graph.wire((branch, port::EXEC_OUT_B), (last, port::INPUT_A));
    for (node, class, port) in [
        (select, class::SELECT, port::B_SELECT_B),
        (branch, class::BRANCH, port::B_COND),
    ] {
        graph.property(variant::TEXT, node, port, text(chars).1);
        graph.row(class, [variant::TEXT, 0, 0]);
    }
    graph
}

/// Gates of a class that gives nothing for text: texts at all inputs, and at one beside Ints and Floats.
fn nothing(class: u8) -> Graph {
    let mut graph = Graph::default();
    let inputs = INPUT_PORTS[usize::from(class)].len();
    add_gate(&mut graph, class, &vec![text("1"); inputs]);
    for other in [int(1), float(1.0), (variant::VECTOR, vec![0; 24])] {
        for place in 0..inputs {
            let mut operands = vec![other.clone(); inputs];
            operands[place] = text("1");
            add_gate(&mut graph, class, &operands);
        }
    }
    graph
}

/// An order gate of texts with every row that it may have.
fn unordered(class: u8) -> Graph {
    let mut graph = Graph::default();
    add_gate(&mut graph, class, &[text("1"), text("2")]);
    add_gate(&mut graph, class, &[text("1"), int(2)]);
    add_gate(&mut graph, class, &[UNWIRED, text("2")]);
    graph.rows = all_rows(class);
    graph
}

/// Texts and other values in turn, known at Literals and passed on by chip nodes.
fn known() -> Graph {
    let mut graph = Graph::default();
    let values = [
        text("denim"),
        int(1),
        text(""),
        float(2.0),
        text("twill, dark blue"),
    ];
    for (variant, value) in values {
        let literal = graph.node(class::LITERAL);
        graph.property(variant, literal, port::VALUE, value);
        let chip = graph.node(class::MICROCHIP_INPUT);
        graph.wire((literal, port::OUTPUT), (chip, port::RER_INPUT));
    }
    graph
}

/// A text at each port of a Literal and of an Equal.
fn at_every_port() -> Graph {
    let mut graph = Graph::default();
    for class in [class::LITERAL, class::COMPARE_EQUAL] {
        let node = graph.node(class);
        for port in port::OUTPUT..=port::VALUE {
            graph.property(variant::TEXT, node, port, text("denim").1);
        }
    }
    graph.row(class::COMPARE_EQUAL, [variant::TEXT, variant::TEXT, 0]);
    graph
}

/// As many properties as a graph may have and so many more, the last two texts.
fn many(more: usize) -> Graph {
    let mut graph = Graph::default();
    let ports = usize::from(port::VALUE) + 1;
    let count = limit::PROPERTIES + more;
    graph.nodes(class::OTHER, count.div_ceil(ports));
    for number in 0..count {
        let (variant, value) = match number + 2 < count {
            true => (variant::BOOL, vec![0]),
            false => text("denim"),
        };
        graph.property(
            variant,
            (number / ports) as u16,
            (number % ports) as u8,
            value,
        );
    }
    graph
}

/// A text's record with any length and bytes.
fn record(node: u8, port: u8, length: usize, chars: &[u8]) -> Vec<u8> {
    let mut record = vec![kind::TEXT, node, 0, port, length as u8];
    record.extend(chars);
    record.resize(HEAD + 1 + TEXT_BYTES, 0);
    record
}

/// What the questions refuse, behind a node.
fn refused() -> Vec<Vec<u8>> {
    let node = [kind::NODE, class::OTHER, 0];
    let refused = refused_texts().into_iter().chain(refused_rows());
    let behind = refused.map(|records| [&node, &records[..]].concat());
    behind.collect()
}

fn annihilator() -> Vec<u8> {
    vec![kind::ANNIHILATOR, class::LOGICAL_AND]
}

/// A text's length and bytes, its node and port, and its place among the records.
fn refused_texts() -> Vec<Vec<u8>> {
    let a = port::INPUT_A;
    let (whole, one) = ([b' '; TEXT_BYTES], record(0, a, 1, b"a"));
    let int = [vec![kind::INT, 0, 0, a], vec![0; 8]].concat();
    vec![
        record(0, a, TEXT_BYTES + 1, &whole),
        record(0, a, 255, &whole),
        record(0, a, 2, b"a"),
        record(0, a, 2, &[b'a', 31]),
        record(0, a, 2, &[b'a', 127]),
        record(0, a, 2, &[b'a', 255]),
        record(0, a, 1, b"ab"),
        record(0, a, 0, &whole),
        record(0, port::VALUE + 1, 1, b"a"),
        record(1, a, 1, b"a"),
        one[..one.len() - 1].to_vec(),
        [&one[..], &one].concat(),
        [&int[..], &one].concat(),
        [&one[..], &int].concat(),
        [&one[..], &annihilator()].concat(),
        vec![kind::TEXT + 1],
    ]
}

/// Rows of order gates that name text, alone, such as question 4 refuses too, and such as 5 and 8 would.
fn refused_rows() -> Vec<Vec<u8>> {
    use variant::{INT, TEXT, UNWIRED};
    let row = |class, [a, b, c]: [u8; 3]| vec![kind::ROW, class, a, b, c];
    let less = |variants| row(class::COMPARE_LESS, variants);
    let mut refused = Vec::new();
    for class in ORDER_GATES {
        for [a, b] in [[UNWIRED, TEXT], [TEXT, UNWIRED], [TEXT, TEXT], [INT, TEXT]] {
            refused.push(row(class, [a, b, UNWIRED]));
        }
    }
    refused.push(less([TEXT, INT, TEXT]));
    refused.push(less([TEXT, TEXT + 1, UNWIRED]));
    let full = row(class::MATH_ADD, [INT, INT, UNWIRED]).repeat(limit::ROWS);
    for before in [annihilator(), record(0, port::INPUT_A, 1, b"a"), full] {
        refused.push([before, less([TEXT, INT, UNWIRED])].concat());
    }
    refused
}
