//! Prints the table of times for decoding, index and worklist alone.
use bench::folders;
use bench::shapes;
use bench::table::{Table, micros, ratio, whole};
use bench::timing::{self, Effort, micros as measured};
use std::time::Duration;

const EFFORT: Effort = Effort {
    rounds: 12,
    time: Duration::from_millis(25),
};

fn main() {
    let shapes = shapes::usual();
    let mut table = Table::new(&["graph", "pops", "proved", "plain", "proved / plain"]);
    for (shape, times) in shapes.iter().zip(timing::worklist_all(&shapes, EFFORT)) {
        let (proved, plain) = (measured(times.proved), measured(times.plain));
        let pops = folders::plain_worklist(&shape.input).expect("accepted");
        table.row(vec![
            shape.name.clone(),
            whole(pops),
            micros(proved),
            micros(plain),
            ratio(proved, plain),
        ]);
    }
    table.print("Decoding, index and worklist alone (µs)");
}
