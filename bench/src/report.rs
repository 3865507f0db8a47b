//! What the differential test prints.

use crate::compare::{Differ, Difference, Tally};
use crate::planner::Planner;

/// Tables first, then requests.
pub fn run<A: Planner, B: Planner>(
    differ: &mut Differ<A, B>,
    tables: u64,
    requests: u64,
) -> Result<(), Difference> {
    differ.run_tables(tables)?;
    differ.run_requests(requests)
}

/// The counts of all answers.
pub fn counts<A: Planner, B: Planner>(differ: &Differ<A, B>) -> String {
    let lists = [
        ("tables", &differ.tables),
        ("prints", &differ.prints),
        ("starts", &differ.starts),
        ("requests", &differ.requests),
    ];
    let mut lines: String = lines(&lists);
    lines += &format!("worst delays reached: {}\n", differ.reached);
    let (kept, long) = differ.kept();
    lines += &format!("plans of the requests: {kept}, of these above 2^24 ticks: {long}\n");
    lines += &format!("of the accepted tables: {:?}\n", differ.coverage);
    lines
}

/// A line for each list: all, accepted, then refusals by number.
fn lines(lists: &[(&str, &Tally)]) -> String {
    let mut all = String::new();
    for (name, tally) in lists {
        all += &format!("{name}: {}", tally.all);
        for (number, &count) in tally.by_number.iter().enumerate() {
            match number {
                0 => all += &format!(", accepted {count}"),
                _ if count > 0 => all += &format!(", refused {number}: {count}"),
                _ => {}
            }
        }
        all += "\n";
    }
    all
}
