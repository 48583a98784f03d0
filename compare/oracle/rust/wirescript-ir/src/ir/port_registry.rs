//! Stands for ir/port_registry.rs, which docs/src does not hold: `WirePort`, with the ports of
//! document 01 and those that docs/src names. `InputC` is document 01's third input.
//!
//! Equivalent here: the fold compares and hashes ports, and maps them to and from the names that
//! its own code interns; each port has a name of its own.
use crate::intern::{Sym, intern_static};

macro_rules! ports {
    ($($port:ident $name:literal),* $(,)?) => {
        #[derive(Clone, Copy, Debug, PartialEq, Eq, Hash, PartialOrd, Ord)]
        pub enum WirePort { $($port),* }

        impl WirePort {
            pub fn from_name(name: &str) -> Self {
                match name {
                    $($name => Self::$port,)*
                    _ => panic!("no port of document 01 or docs/src is named {name:?}"),
                }
            }

            pub fn sym(self) -> Sym {
                match self { $(Self::$port => intern_static($name)),* }
            }
        }
    };
}

ports! {
    Output "Output",
    Exec "Exec",
    InputA "InputA",
    InputB "InputB",
    BSelectB "bSelectB",
    BCond "bCond",
    ExecOutA "ExecOutA",
    ExecOutB "ExecOutB",
    RerInput "RER_Input",
    InputC "InputC",
    InputD "InputD",
    InputE "InputE",
    InputF "InputF",
    InputG "InputG",
    Layout "Layout",
}
