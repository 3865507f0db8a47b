//! The benchmark: ratios of times that are measured side by side in one run. It asserts nothing.

#[cfg(not(product))]
fn main() {
    eprintln!("no libstellarsnare.a: run tools/staticlib.sh first, then build again");
}

#[cfg(product)]
fn main() {
    measured::all();
}

#[cfg(product)]
mod measured {
    use bench::clock::{Contestant, Rounds};
    use bench::layout::{MODE, WORDS};
    use bench::planner::{Independent, Planner};
    use bench::print::PRINTED;
    use bench::product::Product;
    use bench::samples;
    use bench::terms::MODES;
    use std::hint::black_box;

    /// Measures and prints everything.
    pub fn all() {
        let named = [
            (
                "printed example",
                samples::PRINTED_EXAMPLE.as_bytes().to_vec(),
            ),
            ("middle table", samples::middle()),
            ("largest table", samples::greatest()),
        ];
        println!("planning, product against independent");
        planning("a table of one row", &[&b"actor,1,1,1,7,1\r\n".to_vec()]);
        for (name, text) in &named {
            planning(name, &[text]);
        }
        let many = samples::accepted(1000);
        planning("1000 random tables", &many.iter().collect::<Vec<_>>());
        println!("planning, iterations of 2^30 ticks against 2^4, the same graph but for one rate a mode");
        iterations();
        println!("one request with its check of the plan, product");
        for (name, text) in &named {
            request(name, text);
        }
        println!("parts of planning, product");
        for (name, text) in &named {
            parts(name, text);
        }
        println!("reading, product against independent: tables with a bad row behind their last");
        for (name, text) in &named {
            refused(name, &[text]);
        }
        refused("1000 random tables", &many.iter().collect::<Vec<_>>());
        println!("reading 65,536 bytes against a plain loop over them");
        reading("rows, then a list", &samples::rows_and_a_list());
        reading("one quoted field", &samples::one_field());
    }

    /// Plans a text with a planner.
    fn plans<'a>(planner: impl Planner + 'a, texts: &'a [&'a Vec<u8>]) -> Contestant<'a> {
        let mut words = vec![0; WORDS];
        Box::new(move || {
            for text in texts {
                black_box(planner.plan(black_box(text), &mut words));
            }
        })
    }

    /// Prints a time in microseconds.
    fn micros(nanos: f64) -> String {
        format!("{:.2} us", nanos / 1000.0)
    }

    /// (a) Planning of the same texts by both.
    fn planning(name: &str, texts: &[&Vec<u8>]) {
        let bytes: usize = texts.iter().map(|text| text.len()).sum();
        let rounds = Rounds::of([plans(Product, texts), plans(Independent, texts)]);
        println!(
            "  {name} ({bytes} bytes): ratio {:.2} ({} to {})",
            rounds.ratio(0, 1),
            micros(rounds.time(0)),
            micros(rounds.time(1))
        );
    }

    /// (b) Planning of one graph with short and with long iterations.
    fn iterations() {
        let (short, long) = samples::short_and_long();
        let (shorts, longs) = ([&short], [&long]);
        let rounds = Rounds::of([
            plans(Product, &shorts),
            plans(Product, &longs),
            plans(Independent, &shorts),
            plans(Independent, &longs),
        ]);
        println!(
            "  product: ratio {:.2} ({} to {}; {} to {} bytes)",
            rounds.ratio(1, 0),
            micros(rounds.time(1)),
            micros(rounds.time(0)),
            long.len(),
            short.len()
        );
        println!("  independent: ratio {:.2}", rounds.ratio(3, 2));
    }

    /// A request that is accepted, to a fresh machine each time.
    fn asks<'a>(planner: impl Planner + 'a, words: &'a [u64]) -> Contestant<'a> {
        let listed: Vec<u64> = (0..MODES as u64)
            .filter(|&m| words[MODE * m as usize] != 0)
            .collect();
        let (from, to) = (listed[0] + 1, listed[listed.len() - 1] + 1);
        let mut machine = [0; 3];
        planner.start(words, from, &mut machine);
        Box::new(move || {
            let (mut after, mut delay) = (machine, 0);
            black_box(planner.request(words, &mut after, to, machine[2], &mut delay));
        })
    }

    /// (c) One request against planning the same table.
    fn request(name: &str, text: &Vec<u8>) {
        let words = samples::words_of(text);
        let texts = [text];
        let rounds = Rounds::of([
            asks(Product, &words),
            plans(Product, &texts),
            asks(Independent, &words),
        ]);
        println!(
            "  {name}: {:.2} of planning it ({} to {}); {:.2} of an independent request",
            rounds.ratio(0, 1),
            micros(rounds.time(0)),
            micros(rounds.time(1)),
            rounds.ratio(0, 2)
        );
    }

    /// What reading and printing cost beside planning: a text with a bad last row is read only.
    fn parts(name: &str, text: &Vec<u8>) {
        let words = samples::words_of(text);
        let bad = samples::with_a_bad_row(text);
        let (texts, bads) = ([text], [&bad]);
        let (mut out, mut length) = (vec![0; PRINTED], 0);
        let rounds = Rounds::of([
            plans(Product, &texts),
            plans(Product, &bads),
            Box::new(move || {
                black_box(Product.print(&words, &mut out, &mut length));
            }),
        ]);
        println!(
            "  {name}: reading is {:.2} of planning, printing with its check {:.2}",
            rounds.ratio(1, 0),
            rounds.ratio(2, 0)
        );
    }

    /// (d) Reading of texts that are refused at a row behind their last.
    fn refused(name: &str, texts: &[&Vec<u8>]) {
        let bad: Vec<Vec<u8>> = texts
            .iter()
            .map(|text| samples::with_a_bad_row(text))
            .collect();
        planning(name, &bad.iter().collect::<Vec<_>>());
    }

    /// (e) Reading of a long text that is refused at its last row, against a search for a byte
    /// that it does not have.
    fn reading(name: &str, text: &Vec<u8>) {
        let texts = [text];
        let rounds = Rounds::of([
            plans(Product, &texts),
            plans(Independent, &texts),
            Box::new(|| {
                black_box(black_box(&text[..]).iter().position(|&byte| byte == 0));
            }),
        ]);
        println!(
            "  {name}: product {:.2} loops ({}), independent {:.2} loops, product to independent {:.2}",
            rounds.ratio(0, 2),
            micros(rounds.time(0)),
            rounds.ratio(1, 2),
            rounds.ratio(0, 1)
        );
    }
}
