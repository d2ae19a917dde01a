//! The oracle's waking links: the sample of request 05, its corners, and its law about chains on drawn runs.

use crate::field::{waiting, Field, Word, HAND_OVER, SERVE, WAKE};
use crate::fields;
use crate::frame::Message;
use crate::kruskal;
use crate::plan::NONE;
use crate::plans;
use crate::rng::Rng;
use crate::rounds;
use crate::rules::{Module, ASLEEP, BRANCH, FIND, FOUND};
use crate::schedule::{Answer, Step};
use crate::tests::set_up;
use crate::waking::{chain, Diary};

/// The triangle of the samples: link 0 is 0-1, link 1 is 0-2, link 2 is 1-2; its tree is links 0 and 2.
fn triangle() -> (Field, Vec<u64>) {
    set_up(&plans::worse_reading().encode())
}

fn handed(message: Message, directed: u16) -> u64 {
    Word { message, directed, handed: true }.pack()
}

/// "T, wake 0, rounds to rest." Module 2 was woken by a Test over link 1, which is not in the tree.
#[test]
fn sample() {
    let (mut field, mut words) = triangle();
    assert!(field.modules.iter().all(|m| m.values() == [0, 0, NONE, NONE, NONE, NONE, NONE, 0, 0, NONE]));
    field.step(&mut words, WAKE, 0).unwrap();
    assert_eq!(rounds::run(&mut field, &mut words, 65535), Answer { done: 8, refusal: None });
    let values: Vec<_> = field.modules.iter().map(Module::values).collect();
    assert_eq!(values[0], [2, 1, 0, NONE, NONE, NONE, 0, 0, 1, NONE]);
    assert_eq!(values[1], [2, 1, 0, NONE, NONE, NONE, 0, 0, 1, 0]);
    assert_eq!(values[2], [2, 1, 0, NONE, NONE, NONE, 2, 0, 0, 1]);
    assert_eq!(kruskal::tree(&field.plan), [1, 0, 1]);
}

/// A put-back after the wake keeps the link, and so does every later one; other modules' links stay.
#[test]
fn put_back() {
    for (message, directed) in [(Message::test(1, 0), 2), (Message::connect(0), 2), (Message::test(1, 0), 4)] {
        let (mut field, mut words) = triangle();
        field.modules[1] = Module { status: FOUND, waking: 2, ..Module::SETUP };
        (words[0], field.sent) = (handed(message, directed), 1);
        let done = field.step(&mut words, SERVE, 2).unwrap();
        // its own Connect goes over link 2, whose mark then is Branch
        assert!(done.woke && done.put_back && done.sends == 1);
        for _ in 0..3 {
            let woken = Module { status: FOUND, waking: directed / 2, ..Module::SETUP };
            assert_eq!((field.modules[2], field.modules[1].waking, field.modules[0]), (woken, 2, Module::SETUP));
            let again = field.step(&mut words, SERVE, 2).unwrap();
            assert!(!again.woke && again.put_back);
        }
    }
}

/// A message that is taken after the wake: the link stays through all that follows; a wake step sets none.
#[test]
fn taken() {
    let (mut field, mut words) = triangle();
    field.step(&mut words, WAKE, 1).unwrap();
    field.step(&mut words, HAND_OVER, 1).unwrap();
    let done = field.step(&mut words, SERVE, 0).unwrap();
    assert!(done.woke && !done.put_back && done.sends == 2);
    assert_eq!([0, 1, 2].map(|v| field.modules[v].waking), [0, NONE, NONE]);
    field.step(&mut words, WAKE, 2).unwrap();
    rounds::run(&mut field, &mut words, 65535);
    assert_eq!([0, 1, 2].map(|v| field.modules[v].waking), [0, NONE, NONE]);
}

/// A refused service undoes the wake and the waking link: 33 at a sleeper that a Connect or a Test would wake; 32 for the
/// kinds that wake nobody.
#[test]
fn refused() {
    let wakes = [Message::connect(0), Message::connect(1), Message::test(1, 0)];
    for (message, refusal) in wakes.map(|m| (m, 33)).into_iter().chain([2, 4, 5, 6, 7].map(|kind| (other(kind), 32))) {
        for directed in [2, 4] {
            let (mut field, mut words) = triangle();
            (words[0], field.sent) = (handed(message, directed), field.plan.ceiling());
            let before = (field.clone(), words.clone());
            assert_eq!(field.step(&mut words, SERVE, 2), Err(refusal));
            assert_eq!((field, words), before);
        }
    }
    let (mut field, mut words) = triangle();
    field.sent = field.plan.ceiling();
    assert_eq!(field.step(&mut words, WAKE, 2), Err(33));
    assert_eq!(field.modules[2], Module::SETUP);
}

fn other(kind: u8) -> Message {
    match kind {
        2 => Message::initiate(1, 0, true),
        6 => Message::report(NONE),
        _ => Message::bare(kind),
    }
}

/// "Refusal 31 also covers a value that is neither none nor an own link, and a sleeper whose value is not none." Nothing
/// else: not who is awake at the other end, nor where the links lead.
#[test]
fn fields_of_a_host() {
    let check = |status: [u16; 3], waking: [u16; 3]| {
        let (mut field, words) = triangle();
        for v in 0..3 {
            (field.modules[v].status, field.modules[v].waking) = (status[v], waking[v]);
        }
        let links_only = field.check(&words);
        field.marks = vec![[BRANCH; 2]; 3];
        assert_eq!(field.check(&words), links_only, "marks play no part");
        links_only
    };
    let asleep = [ASLEEP; 3];
    assert_eq!(check(asleep, [NONE; 3]), Ok(()));
    for (v, own) in [[0, 1], [0, 2], [1, 2]].into_iter().enumerate() {
        for link in [0, 1, 2, 3, 4, 600, 65534] {
            let (mut status, mut waking) = (asleep, [NONE; 3]);
            waking[v] = link;
            assert_eq!(check(status, waking), Err(31), "a sleeper with {link}");
            for awake in [FIND, FOUND] {
                status[v] = awake;
                let answer = if own.contains(&link) { Ok(()) } else { Err(31) };
                assert_eq!(check(status, waking), answer, "module {v} with {link}");
            }
        }
    }
    assert_eq!(check([FOUND; 3], [NONE; 3]), Ok(()));
    assert_eq!(check([FOUND, FIND, ASLEEP], [0, 0, NONE]), Ok(()), "each by the other");
    assert_eq!(check([FOUND; 3], [0, 2, 1]), Ok(()), "a circle");
    assert_eq!(check([FOUND; 3], [0, 2, 0]), Err(31));
}

fn links(field: &Field) -> Vec<u16> {
    field.modules.iter().map(|m| m.waking).collect()
}

/// From setup, in any order of steps, all along: the values are those of the diary, and every chain ends at a module that a
/// wake step woke.
#[test]
fn chains() {
    let mut rng = Rng::new(5);
    let (mut longest, mut off_tree) = (0, 0);
    for i in 0..300 {
        let kind =
            rng.pick(&["single", "path", "ring", "tree", "complete", "small", "small", "medium", "banks", "islands"]);
        let plan = plans::good(&mut rng, kind);
        if plan.modules > 40 {
            continue;
        }
        let (mut field, mut words) = set_up(&plan.encode());
        words.truncate(plan.ceiling() as usize);
        let mut diary = Diary::new(plan.modules);
        let first = rng.below(plan.modules as usize) as u16;
        let mut step = Step { kind: WAKE, number: first };
        loop {
            let outcome = field.take(&mut words, step.kind, step.number);
            outcome.iter().for_each(|done| diary.note(step, done));
            let (waking, rest) = (links(&field), waiting(&words) == 0);
            if rest || rng.once_in(8) || outcome.is_ok_and(|done| done.woke) {
                longest = longest.max(diary.follow(&field, &waking).into_iter().max().unwrap());
            }
            if rest {
                let tree = kruskal::tree(&plan);
                off_tree += waking.iter().filter(|k| **k != NONE && tree[**k as usize] == 0).count();
                break;
            }
            // every other run wakes one module alone
            step = fields::some_step(&mut rng, &field, &words);
            while i % 2 == 0 && step.kind == WAKE {
                step = fields::some_step(&mut rng, &field, &words);
            }
        }
    }
    assert!(longest >= 12 && off_tree >= 100, "{longest} links, {off_tree} that are not in the tree");
}

/// What a chain is: it ends, or it returns.
#[test]
fn circles_are_seen() {
    let (field, _) = triangle();
    assert_eq!(chain(&field, &[NONE, 0, 2], 2), Some(vec![2, 1, 0]));
    assert_eq!(chain(&field, &[NONE, 0, 1], 2), Some(vec![2, 0]));
    assert_eq!(chain(&field, &[0, 0, 2], 2), None);
    assert_eq!(chain(&field, &[0, 2, 1], 0), None);
    assert_eq!(chain(&field, &[0, 2, 1], 1), None);
}
