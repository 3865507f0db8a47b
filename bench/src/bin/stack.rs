//! The stack that each C function takes on the largest table, beside that of the second opinion.

#[cfg(not(product))]
fn main() {
    eprintln!("no libstellarsnare.a: run tools/staticlib.sh first, then build again");
}

#[cfg(product)]
fn main() {
    println!("bytes of stack on the largest table");
    painted::all("product", &bench::product::Product);
    painted::all("independent", &bench::planner::Independent);
}

#[cfg(product)]
mod painted {
    use bench::layout::WORDS;
    use bench::planner::Planner;
    use bench::print::PRINTED;
    use bench::samples;
    use bench::stack::stack_of;
    use bench::terms::MODES;
    use std::hint::black_box;

    /// The four calls of a planner, each of them accepted.
    pub fn all(name: &str, planner: &impl Planner) {
        let text = samples::greatest();
        let mut words = vec![0; WORDS];
        let (mut machine, mut delay) = ([0; 3], 0);
        let (mut out, mut length) = (vec![0; PRINTED], 0);
        let mut accepted = true;
        let plan =
            stack_of(&mut || accepted &= planner.plan(black_box(&text), &mut words).accepted);
        let start = stack_of(&mut || accepted &= planner.start(&words, 1, &mut machine).accepted);
        let clock = machine[2];
        let request = stack_of(&mut || {
            let last = MODES as u64;
            accepted &= planner
                .request(&words, &mut machine, last, clock, &mut delay)
                .accepted;
        });
        let print = stack_of(&mut || {
            accepted &= planner.print(&words, &mut out, &mut length).accepted;
        });
        println!("  {name}: plan {plan}, start {start}, request {request}, print {print}");
        println!("  {name}: all accepted: {accepted}");
    }
}
