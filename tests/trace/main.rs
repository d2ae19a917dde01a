//! The oracle's `trace`, and its comparison with another program that prints the same.
//!
//!   trace                             prints what `trace` prints for its standard input
//!   trace reach SEED COUNT            how often COUNT drawn inputs reach each corner
//!   trace compare SEED COUNT CMD ..   runs CMD on COUNT drawn inputs and the large ones, and compares what it prints

mod events;
mod large;
mod schedules;

use events::Events;
use oracle::compare::same_output;
use oracle::rng::Rng;
use oracle::trace::trace;
use std::io::Read;

fn compare_large(rng: &mut Rng, command: &[String]) {
    let inputs = large::inputs(rng);
    for large in &inputs {
        let expected = trace(&large.bytes);
        assert!(expected.starts_with(&large.begins), "{}: the oracle says otherwise", large.name);
        same_output(command, &large.bytes, &expected, large.name);
    }
    let longest = inputs.iter().map(|large| large.bytes.len()).max().unwrap();
    println!("trace: {} large inputs, up to {longest} bytes, the same output", inputs.len());
}

fn main() {
    let args: Vec<String> = std::env::args().skip(1).collect();
    if args.is_empty() {
        let mut input = Vec::new();
        std::io::stdin().read_to_end(&mut input).expect("standard input can be read");
        print!("{}", trace(&input));
        return;
    }
    let number = |i: usize| args[i].parse::<u64>().expect("a number");
    let (seed, count) = (number(1), number(2));
    let mut rng = Rng::new(seed);
    let mut events = Events::default();
    for i in 0..count {
        let input = schedules::input(&mut rng);
        events.observe(&input);
        if args[0] == "compare" {
            same_output(&args[3..], &input, &trace(&input), &format!("input {i} of seed {seed}"));
        }
    }
    if args[0] == "compare" {
        println!("trace: {count} inputs, {} steps taken, the same output", events.of("steps taken"));
        compare_large(&mut rng, &args[3..]);
    } else {
        events.print();
    }
    let missed = events.missed(count as usize);
    assert!(missed.is_empty(), "reached too rarely: {missed:?}");
}
