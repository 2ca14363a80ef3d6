//! What is measured of a run, and how it is printed.

use crate::board::Board;
use crate::plan::Plan;
use std::time::Instant;

/// When a node delivered which message. The message 0 makes the tree and is not counted.
pub type Delivered = (u32, Instant);

/// How long messages took, in microseconds.
struct Latencies {
    /// To each node.
    each: Vec<u128>,
    /// To the last node, of each message.
    last: Vec<u128>,
    /// From the first broadcast to the last delivery.
    span: u128,
}

/// How long the messages took that were broadcast at these times, from message 1 on.
fn latencies<'a>(starts: &[Instant], delivered: impl Iterator<Item = &'a Delivered>) -> Latencies {
    let mut found = Latencies {
        each: Vec::new(),
        last: vec![0; starts.len()],
        span: 0,
    };
    for (number, at) in delivered.filter(|(number, _)| *number > 0) {
        let place = *number as usize - 1;
        let latency = at.duration_since(starts[place]).as_micros();
        found.each.push(latency);
        found.last[place] = found.last[place].max(latency);
        found.span = found.span.max(at.duration_since(starts[0]).as_micros());
    }
    found.each.sort_unstable();
    found.last.sort_unstable();
    found
}

/// The value below or at which so many of a hundred are.
fn percentile(sorted: &[u128], percent: usize) -> u128 {
    let place = sorted.len() * percent / 100;
    let place = place.min(sorted.len().saturating_sub(1));
    sorted.get(place).copied().unwrap_or(0)
}

/// Prints the figures of a run on one line. The links are counted in each direction.
pub fn tell<'a>(
    plan: &Plan,
    board: &Board,
    links: usize,
    starts: &[Instant],
    delivered: impl Iterator<Item = &'a Delivered>,
) {
    let found = latencies(starts, delivered);
    let used = board.used();
    let rate = starts.len() as u128 * 1_000_000 / found.span.max(1);
    print!("broadcasts/s={rate} deliveries={} ", found.each.len());
    print!(
        "wanted={} span-us={} ",
        plan.nodes * plan.messages,
        found.span
    );
    print!("each-us={} ", percentile(&found.each, 50));
    print!("last-us={} ", percentile(&found.last, 50));
    print!("greatest-us={} ", percentile(&found.last, 100));
    print!("processor-ms={:.3} ", used.processor.as_secs_f64() * 1e3);
    print!("memory-KiB={} peak-KiB={} ", used.memory, used.peak);
    println!("threads={} links={links}", used.threads);
}
