//! `cue`, worked out once more from the oracle's deliveries.

use crate::tool::Tool;
use oracle::cue::{deliver, finished_tree, start, waits, Cue};
use oracle::plan::{Plan, NONE};
use oracle::report::job;

/// What it prints of a cue from a module, on a good plan; on a blank one nobody can send.
pub fn told(tool: &Tool, plan: &Plan, sender: u16) {
    let mut words = vec![0; plan.ceiling() as usize];
    let (field, _) = job(plan.clone(), &mut words).expect("a good plan");
    let mut cues = vec![Cue::UNHEARD; plan.modules as usize];
    if let Err(refusal) = start(&field, &words, &mut cues, sender, 0) {
        assert_eq!((refusal, plan.modules), (72, 0), "a finished field");
        let ran = tool.run(&["cue", "-", &sender.to_string()], &plan.encode());
        assert_eq!((ran.code, ran.out.len()), (1, 0), "a cue from nobody");
        assert!(ran.err.starts_with(&format!("muruapy: cue from {sender}: 72: ")), "{}", ran.err);
        return;
    }
    let tree = finished_tree(&field, &words).expect("a finished field");
    while let Some(directed) = (0..2 * plan.links.len() as u16).find(|d| waits(&field, &tree, &cues, *d)) {
        deliver(&field, &words, &mut cues, directed).expect("a copy");
    }
    let link = |k: u16| if k == NONE { "none".to_string() } else { k.to_string() };
    let line = |(v, r): (usize, &Cue)| match r.heard {
        0 => format!("module {v} not reached\n"),
        _ => format!("module {v} hops {} link {}\n", r.hops, link(r.link)),
    };
    let lines = cues.iter().enumerate().map(line);
    let said = tool.text(&["cue", "-", &sender.to_string()], &plan.encode());
    assert_eq!(said, lines.collect::<String>(), "a cue from {sender}");
}
