//! Times the folds of several builds of the library in turn: `builds NAME=SHARED_LIBRARY ..` (`compare/bench/builds`).
use bench::folders::{Function, Outcome, call};
use bench::records::Graph;
use bench::shapes::{self, NODES, Shape};
use bench::table::{Table, micros};
use bench::timing::{self, Effort, micros as measured};
use std::env;
use std::ffi::{CString, c_char, c_int, c_void};
use std::mem;
use std::time::Duration;

const EFFORT: Effort = Effort {
    rounds: 12,
    time: Duration::from_millis(60),
};
const RTLD_NOW: c_int = 2;

unsafe extern "C" {
    fn dlopen(file: *const c_char, flags: c_int) -> *mut c_void;
    fn dlsym(library: *mut c_void, name: *const c_char) -> *mut c_void;
}

/// The function of a shared library.
fn load(file: &str) -> Function {
    let path = CString::new(file).expect("a path has no zeros");
    // SAFETY: both strings end in a zero. The library stays loaded, and its mezburiko_fold is that of the header.
    unsafe {
        let library = dlopen(path.as_ptr(), RTLD_NOW);
        assert!(!library.is_null(), "{file} is not loaded");
        let function = dlsym(library, c"mezburiko_fold".as_ptr());
        assert!(!function.is_null(), "{file} has no mezburiko_fold");
        mem::transmute::<*mut c_void, Function>(function)
    }
}

fn main() {
    let builds: Vec<(String, Function)> = env::args()
        .skip(1)
        .map(|argument| {
            let (name, file) = argument.split_once('=').expect("NAME=SHARED_LIBRARY");
            (name.to_string(), load(file))
        })
        .collect();
    let folds: Vec<_> = builds
        .iter()
        .map(|&(_, function)| {
            move |input: &[u8], out: &mut [u8]| -> Outcome {
                // SAFETY: it is the function of a library.
                unsafe { call(function, input, out) }
            }
        })
        .collect();
    let names = builds.iter().map(|(name, _)| name.as_str());
    let mut table = Table::new(&["graph"].into_iter().chain(names).collect::<Vec<_>>());
    let shapes = shapes();
    let all = timing::builds_all(&shapes, &folds, EFFORT);
    for (shape, times) in shapes.iter().zip(all) {
        let times = times.into_iter().map(|time| micros(measured(time)));
        table.row([shape.name.clone()].into_iter().chain(times).collect());
    }
    table.print("Builds (µs)");
}

/// Graphs with one row and with 1,000, the right one last.
fn shapes() -> Vec<Shape> {
    let graphs: [(&str, Graph); 4] = [
        ("a Literal", shapes::chain(1)),
        ("chain", shapes::chain(NODES)),
        ("fan", shapes::fan(NODES)),
        ("backward chain", shapes::backward(shapes::chain(NODES))),
    ];
    let mut all = Vec::new();
    for (name, graph) in graphs {
        all.push(shapes::shape(&format!("{name}, 1 row"), &graph));
        all.push(shapes::shape(
            &format!("{name}, 1,000 rows"),
            &shapes::rows(graph, 1_000),
        ));
    }
    all
}
