//! The oracle against document 01's samples, and against what demand 3 says of every plan.

use crate::field::{setup, waiting, Field, Word, HAND_OVER, SERVE, WAKE};
use crate::fields;
use crate::frame::{self, Message};
use crate::kruskal;
use crate::plan::{self, ceiling, Link, Plan, NONE};
use crate::plans;
use crate::report::report;
use crate::rest::at_rest;
use crate::rng::Rng;
use crate::rounds;
use crate::rules::{BRANCH, FOUND};
use crate::schedule::{self, Answer, Step};
use crate::trace;

pub fn links(list: &[(u16, u16, u16, u16)]) -> Vec<Link> {
    let link = |&(lower, higher, at_lower, at_higher)| Link { lower, higher, at_lower, at_higher };
    list.iter().map(link).collect()
}

fn two_modules() -> Vec<u8> {
    vec![1, 0, 0x0C, 0, 2, 0, 1, 0, 0, 0, 1, 0, 3, 0, 4]
}

pub fn set_up(bytes: &[u8]) -> (Field, Vec<u64>) {
    let mut words = vec![7; 8000];
    let field = setup(bytes, &mut words).unwrap();
    (field, words)
}

#[test]
fn ceilings() {
    for (n, l, m) in [(0, 0, 0), (1, 0, 0), (2, 1, 12), (3, 3, 21), (192, 600, 7920)] {
        assert_eq!(ceiling(n, l), m);
    }
}

#[test]
fn refused_plans() {
    let refusal = |bytes: &[u8]| plan::read(bytes).err();
    let path = |n: u16| Plan {
        modules: n,
        links: (1..n).map(|v| Link { lower: v - 1, higher: v, at_lower: 2000, at_higher: 0 }).collect(),
    };
    assert_eq!(refusal(&[]), Some(11));
    assert_eq!(refusal(&[1, 0]), Some(11));
    assert_eq!(refusal(&[2, 0, 4]), Some(12));
    assert_eq!(refusal(&[1, 0, 0]), Some(13));
    assert_eq!(refusal(&[1, 0, 3, 0, 1, 0]), Some(13));
    assert_eq!(refusal(&path(193).encode()), Some(14));
    assert_eq!(refusal(&path(192).encode()), None);
    let mut many = Plan { modules: 60, links: Vec::new() };
    for (a, b) in plans::complete(60).into_iter().take(601) {
        many.links.push(Link { lower: a, higher: b, at_lower: 0, at_higher: 0 });
    }
    assert_eq!(refusal(&many.encode()), Some(15));
    let one = |reading| Plan { modules: 2, links: links(&[(0, 1, reading, 0)]) };
    assert_eq!(refusal(&one(2001).encode()), Some(18));
    assert_eq!(refusal(&one(2000).encode()), None);
    assert_eq!(report(&one(2001).encode()), "refused 18\n");
    // no link is asked for, and none that joins all modules
    assert_eq!((refusal(&plans::unlinked(2).encode()), refusal(&plans::unlinked(192).encode())), (None, None));
    assert_eq!(refusal(&Plan { modules: 192, ..path(180) }.encode()), None);
}

#[test]
fn triangle_of_links_alike() {
    let plan = Plan { modules: 3, links: links(&[(0, 1, 2, 3), (0, 2, 2, 3), (1, 2, 2, 3)]) };
    assert_eq!(kruskal::tree(&plan), [1, 1, 0]);
}

/// The larger reading decides, then the sum, then the number.
#[test]
fn the_worse_reading_counts() {
    let plan = plans::worse_reading();
    assert_eq!(kruskal::tree(&plan), [1, 0, 1]);
    let lines = "modules 3\nlinks 3\nbranch 0 1 3\nbranch 1 2 4\ntotal 7\ncore 0 1\nmessages 13 of 21\nrounds 8\n";
    assert_eq!(report(&plan.encode()), lines);
    let plan = Plan { modules: 3, links: links(&[(0, 1, 4, 4), (0, 2, 4, 1), (1, 2, 0, 4)]) };
    assert_eq!(kruskal::tree(&plan), [0, 1, 1]);
    let plan =
        Plan { modules: 6, links: links(&[(0, 1, 3, 3), (0, 2, 0, 5), (0, 3, 4, 1), (0, 4, 4, 0), (0, 5, 0, 4)]) };
    let mut rising = [0, 1, 2, 3, 4];
    rising.sort_by_key(|k| plan.key(*k));
    assert_eq!(rising, [0, 3, 4, 2, 1]);
}

#[test]
fn frames() {
    let mut out = [9; 6];
    frame::write(Message::initiate(2, 5, true).header(), 5, &mut out).unwrap();
    assert_eq!(out, [1, 0, 3, 0x52, 0, 5]);
    assert_eq!(frame::read(&out), Ok(Message::initiate(2, 5, true)));
    frame::write(Message::connect(0).header(), NONE, &mut out).unwrap();
    assert_eq!(out, [1, 0, 3, 1, 0xFF, 0xFF]);
    assert_eq!(frame::write(1, 0, &mut [0; 5]), Err(63));
    assert_eq!(frame::write(1, NONE, &mut [0; 5]), Err(64));
}

/// Serving a Test of level 1 at a sleeper: it wakes, sends Connect, the Test goes to the end.
#[test]
fn test_at_a_sleeper() {
    let (mut field, mut words) = set_up(&two_modules());
    let test = Word { message: Message::test(1, 0), directed: 0, handed: true };
    words[0] = test.pack();
    field.sent = 1;
    let done = field.step(&mut words, SERVE, 1).unwrap();
    assert!(done.woke && done.put_back && done.sends == 1);
    let connect = Word { message: Message::connect(0), directed: 1, handed: false };
    assert_eq!(words[..3], [connect.pack(), test.pack(), 0]);
    assert_eq!((field.modules[1].status, field.marks[0], field.sent), (FOUND, [0, BRANCH], 2));
}

#[test]
fn sample_report() {
    let lines = "modules 2\nlinks 1\nbranch 0 1 4\ntotal 4\ncore 0 1\nmessages 6 of 12\nrounds 4\n";
    assert_eq!(report(&two_modules()), lines);
    let single = Plan { modules: 1, links: vec![] };
    let lines = "modules 1\nlinks 0\ntotal 0\ncore none\nmessages 0 of 0\nrounds 0\n";
    assert_eq!(report(&single.encode()), lines);
}

/// The refusals of steps and schedules, each leaving the field and its words as they were.
#[test]
fn refused_steps() {
    let (mut field, mut words) = set_up(&two_modules());
    field.step(&mut words, WAKE, 0).unwrap();
    let (before, words_before) = (field.clone(), words.clone());
    for (kind, number, refusal) in
        [(4, 0, 54), (0, 0, 54), (1, 2, 41), (3, 2, 41), (2, 2, 42), (1, 0, 43), (2, 1, 44), (3, 1, 45)]
    {
        assert_eq!(field.step(&mut words, kind, number), Err(refusal));
    }
    for (bytes, refusal) in
        [(&[1, 0][..], 51), (&[0, 0, 0], 52), (&[1, 0, 1], 53), (&[1, 0, 1, 3], 53), (&[1, 0, 3, 4, 0, 0], 54)]
    {
        assert_eq!(schedule::run(&mut field, &mut words, bytes), Answer::refused(refusal));
    }
    assert_eq!((&field, &words), (&before, &words_before));
    let steps = [(2, 0), (3, 1), (2, 0), (3, 0)].map(|(kind, number)| Step { kind, number });
    let answer = schedule::run(&mut field, &mut words, &schedule::encode(&steps));
    assert_eq!(answer, Answer { done: 2, refusal: Some(44) });
    assert_eq!(schedule::run(&mut field, &mut words, &[1, 0, 0]), Answer { done: 0, refusal: None });
}

/// A field that a host spoils is refused by 31, whatever is asked of it.
#[test]
fn spoilt_fields() {
    let plan = Plan { modules: 3, links: links(&[(0, 1, 2, 3), (1, 2, 2, 3)]) };
    let (mut field, mut words) = set_up(&plan.encode());
    field.step(&mut words, WAKE, 0).unwrap();
    let good = (field, words);
    let spoil = |f: &dyn Fn(&mut Field, &mut Vec<u64>)| {
        let (mut field, mut words) = good.clone();
        f(&mut field, &mut words);
        let steps = field.step(&mut words, 9, 999);
        let run = schedule::run(&mut field, &mut words, &[]);
        (steps, run) == (Err(31), Answer::refused(31)) && rounds::run(&mut field, &mut words, 0) == run
    };
    assert!(!spoil(&|_, _| {}));
    assert!(spoil(&|f, _| f.plan.links[0].at_lower = 2001));
    assert!(spoil(&|_, w| w.truncate(18)));
    assert!(!spoil(&|_, w| w.truncate(19)));
    assert!(spoil(&|_, w| w[7999] = 1));
    assert!(spoil(&|_, w| w[0] &= !(1 << 41)));
    assert!(spoil(&|_, w| w[0] |= 1 << 42));
    assert!(spoil(&|_, w| w.swap(0, 1)));
    assert!(spoil(&|_, w| w[0] |= 4 << 24));
    assert!(spoil(&|_, w| w[0] |= 2 << 3));
    assert!(!spoil(&|_, w| w[0] |= 1 << 3));
    assert!(spoil(&|_, w| w[0] = Word { message: Message::report(2), directed: 0, handed: true }.pack()));
    assert!(!spoil(&|_, w| w[0] = Word { message: Message::report(1), directed: 0, handed: true }.pack()));
    assert!(spoil(&|f, _| f.modules[2].status = 3));
    assert!(spoil(&|f, _| f.modules[2].level = 1));
    assert!(spoil(&|f, _| f.modules[2].identity = 1));
    assert!(spoil(&|f, _| f.modules[2].best_weight = 2));
    assert!(!spoil(&|f, _| f.modules[2].best_weight = 0));
    assert!(spoil(&|f, _| f.modules[2].best_edge = 0));
    assert!(spoil(&|f, _| f.modules[2].test_edge = 0));
    assert!(spoil(&|f, _| f.modules[2].in_branch = 0));
    assert!(spoil(&|f, _| f.modules[2].find_count = 2));
    assert!(spoil(&|f, _| f.modules[2].halted = 2));
    assert!(spoil(&|f, _| f.marks[1] = [0, 3]));
    assert!(spoil(&|f, _| f.sent = 0));
    assert!(spoil(&|f, _| f.sent = 20));
    assert!(!spoil(&|f, _| f.sent = 19));
}

#[test]
fn rounds_end_with_the_tree() {
    let mut rng = Rng::new(1);
    for i in 0..270 {
        let kind = plans::KINDS[i % plans::KINDS.len()];
        let plan = plans::good(&mut rng, kind);
        let (mut field, mut words) = set_up(&plan.encode());
        let mut woken = Vec::new();
        if plan.modules > 0 {
            woken.push(rng.below(plan.modules as usize) as u16);
            field.step(&mut words, WAKE, woken[0]).unwrap();
        }
        let mut sent = 0;
        while waiting(&words) > 0 {
            assert_eq!(rounds::run(&mut field, &mut words, 1), Answer { done: 1, refusal: None });
            assert!(field.sent >= sent);
            sent = field.sent;
        }
        at_rest(&field, &words, &woken);
    }
}

/// Any order of steps, wakes among them: at each one the field stays valid, branches lie in the tree, and the end is the
/// same tree in each part that was woken.
#[test]
fn random_orders_end_with_the_tree() {
    let mut rng = Rng::new(2);
    for _ in 0..200 {
        let kind = rng.pick(&["path", "ring", "complete", "tree", "small", "medium", "banks", "forest", "islands"]);
        let plan = plans::good(&mut rng, kind);
        if plan.modules > 40 {
            continue;
        }
        let tree = kruskal::tree(&plan);
        let (mut field, mut words) = set_up(&plan.encode());
        words.truncate(plan.ceiling() as usize);
        let mut woken = vec![rng.below(plan.modules as usize) as u16];
        field.step(&mut words, WAKE, woken[0]).unwrap();
        while waiting(&words) > 0 {
            if rng.once_in(plan.modules as usize) {
                assert_eq!(field.check(&words), Ok(()));
                assert!((0..tree.len()).all(|k| tree[k] == 1 || !field.marks[k].contains(&BRANCH)));
            }
            let kind = rng.pick(&[WAKE, HAND_OVER, HAND_OVER, SERVE, SERVE]);
            let bound = if kind == HAND_OVER { 2 * plan.links.len() } else { plan.modules as usize };
            let number = rng.below(bound) as u16;
            match field.take(&mut words, kind, number) {
                Ok(_) if kind == WAKE => woken.push(number),
                Ok(_) | Err(43 | 44 | 45) => {}
                Err(refusal) => panic!("refused {refusal}"),
            }
        }
        at_rest(&field, &words, &woken);
    }
}

/// Of any valid field a step makes a valid field, or leaves it as it was; every refusal of a step occurs.
#[test]
fn steps_of_any_valid_field() {
    let mut rng = Rng::new(5);
    let mut refusals = [0; 64];
    for i in 0..30000 {
        let kind = match i % 20 {
            0 => "single",
            1 => "blank",
            2..=5 => plans::IN_PARTS[i % 4],
            _ => "small",
        };
        let plan = plans::good(&mut rng, kind);
        let (mut field, mut words) = fields::drawn(&mut rng, &plan);
        assert_eq!(field.check(&words), Ok(()));
        if i % 3 == 0 {
            fields::spoil(&mut rng, &mut field, &mut words);
        }
        let before = (field.clone(), words.clone());
        let bound = rng.pick(&[2 * plan.links.len() + 2, plan.modules as usize, plan.modules as usize + 1]);
        let number = rng.below(bound.max(1));
        match field.step(&mut words, rng.pick(&[0, 1, 2, 3, 3, 3, 3, 4]), number as u16) {
            Ok(done) => {
                assert_eq!(field.check(&words), Ok(()));
                let left = done.served.is_some() && !done.put_back;
                assert_eq!(waiting(&words) + left as usize, waiting(&before.1) + done.sends);
            }
            Err(refusal) => {
                assert_eq!((&field, &words), (&before.0, &before.1));
                refusals[refusal as usize] += 1;
            }
        }
    }
    for refusal in [31, 32, 33, 41, 42, 43, 44, 45, 54] {
        assert!(refusals[refusal] >= 100, "{refusal} came {} times", refusals[refusal]);
    }
}

#[test]
fn plans_are_good_and_come_back() {
    let mut rng = Rng::new(3);
    for i in 0..1200 {
        let plan = plans::good(&mut rng, plans::KINDS[i % plans::KINDS.len()]);
        let bytes = plan.encode();
        assert_eq!(plan::read(&bytes), Ok(plan.clone()));
        let mut out = vec![5; bytes.len() + 3];
        assert_eq!(plan::write(&plan, &mut out), Ok(bytes.len()));
        assert!(out.starts_with(&bytes) && out.ends_with(&[5; 3]));
        assert_eq!(plan::write(&plan, &mut vec![5; bytes.len() - 1]), Err(22));
    }
}

/// The tree by the path rule itself: a link is in it exactly if no other way between its ends uses only earlier links.
#[test]
fn kruskal_keeps_the_path_rule() {
    let mut rng = Rng::new(4);
    for i in 0..450 {
        let plan = plans::good(&mut rng, ["small", "small", "islands", "banks"][i % 4]);
        let tree = kruskal::tree(&plan);
        for k in 0..plan.links.len() as u16 {
            let mut parts = kruskal::Parts::new(plan.modules as usize);
            for i in (0..plan.links.len() as u16).filter(|i| plan.earlier(*i, k)) {
                let link = plan.links[i as usize];
                parts.join(link.lower as usize, link.higher as usize);
            }
            let link = plan.links[k as usize];
            let other_way = parts.root(link.lower as usize) == parts.root(link.higher as usize);
            assert_eq!(tree[k as usize] == 0, other_way);
        }
    }
}

#[test]
fn trace_of_the_sample() {
    let mut input = two_modules();
    input.extend_from_slice(&[1, 0, 9, 1, 0, 0, 2, 0, 0, 3, 0, 1]);
    let lines = "steps 3\nrefusal none\nsent 3\nwaiting 2\n\
        module 0 2 0 - - - - - 0 0 - 0:1\nmodule 1 2 0 - - - - - 0 0 0 0:1\n";
    let word = |message, directed| Word { message, directed, handed: false }.pack();
    let connect = word(Message::connect(0), 1);
    let initiate = word(Message::initiate(1, 0, true), 1);
    assert_eq!(trace::trace(&input), format!("{lines}word {connect}\nword {initiate}\n"));
    assert_eq!(trace::trace(&two_modules()).lines().nth(1), Some("refusal 51"));
    assert_eq!(trace::trace(&[1, 0]), "refused 11\n");
    assert_eq!(trace::trace(&[1, 0, 4, 0]), "refused 13\n");
}
