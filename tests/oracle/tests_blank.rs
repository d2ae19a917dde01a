//! Request 04's plan with nobody in it, call by call: "a plan with N = 0 and L = 0 is accepted. Its ceiling is 0, its
//! field is at rest, its tree is empty."

use crate::cue::{deliver, start, Cue};
use crate::field::{setup, setup_value, waiting, Field, Word, HAND_OVER, WAKE};
use crate::fields::{BLANK_NUMBERS, BLANK_STEPS};
use crate::frame::Message;
use crate::kruskal;
use crate::plan::{self, ceiling, floor_log2, Link, Plan};
use crate::plans;
use crate::preview::preview;
use crate::report::{job, report};
use crate::rounds;
use crate::schedule::{self, Answer, Step};
use crate::trace;

const BYTES: [u8; 7] = [1, 0, 4, 0, 0, 0, 0];

/// The field at setup, without a word.
fn field() -> Field {
    setup(&BYTES, &mut []).unwrap()
}

#[test]
fn read_and_written() {
    assert_eq!(plan::read(&BYTES), Ok(plans::blank()));
    assert_eq!(plans::blank().check(), Ok(()));
    let mut out = [9; 9];
    assert_eq!(plan::write(&plans::blank(), &mut out), Ok(7));
    assert_eq!(out, [1, 0, 4, 0, 0, 0, 0, 9, 9]);
    assert_eq!(plan::write(&plans::blank(), &mut [9; 6]), Err(22));
}

/// "Refusal 14 is now only for N above 192; a link in such a plan meets 16", and 15 comes before it.
#[test]
fn refused_plans() {
    for (n, refusal) in [(0, None), (1, None), (2, None), (192, None), (193, Some(14)), (65535, Some(14))] {
        let plan = Plan { modules: n, links: vec![] };
        assert_eq!((plan::read(&plan.encode()).err(), plan.check().err()), (refusal, refusal), "{n} modules");
    }
    let mut bytes = [1, 0, 0x0C, 0, 0, 0, 1, 0, 0, 0, 1, 0, 3, 0, 4];
    assert_eq!(plan::read(&bytes), Err(16));
    for told in [0, 2, 3] {
        bytes[6] = told;
        assert_eq!(plan::read(&bytes), Err(15), "{told} links told");
    }
    let link = |lower, higher, at_lower| Link { lower, higher, at_lower, at_higher: 0 };
    for first in [link(0, 1, 0), link(0, 0, 0), link(1, 0, 2001), link(0, 65535, 2001)] {
        assert_eq!(Plan { modules: 0, links: vec![first] }.check(), Err(16));
    }
    let many = |count| Plan { modules: 0, links: vec![link(0, 1, 0); count] };
    assert_eq!((many(600).check(), many(601).check()), (Err(16), Err(15)));
}

#[test]
fn ceiling_tree_and_setup() {
    assert_eq!((floor_log2(0), ceiling(0, 0), plans::blank().ceiling()), (0, 0, 0));
    assert!(kruskal::tree(&plans::blank()).is_empty());
    assert_eq!(field(), Field { plan: plans::blank(), modules: vec![], marks: vec![], sent: 0 });
    let mut words = [7, 0, 1 << 41];
    assert_eq!(setup_value(plans::blank(), &mut words), Ok(field()));
    assert_eq!((words, waiting(&words)), ([0; 3], 0));
}

/// 31, unless the sent count and every word are 0: no directed link is below 0.
#[test]
fn spoilt_fields() {
    let connect = Word { message: Message::connect(0), directed: 0, handed: false }.pack();
    for count in [0, 1, 8] {
        assert_eq!(field().check(&vec![0; count]), Ok(()));
    }
    for sent in [1, 2, u32::MAX] {
        assert_eq!(Field { sent, ..field() }.check(&[0]), Err(31));
    }
    for words in [&[1][..], &[1 << 41], &[connect], &[0, 1], &[0, connect]] {
        assert_eq!(field().check(words), Err(31));
        assert_eq!(Field { sent: 1, ..field() }.check(words), Err(31));
    }
    let linked = Plan { modules: 0, links: vec![Link { lower: 0, higher: 1, at_lower: 3, at_higher: 4 }] };
    assert_eq!(Field { plan: linked, marks: vec![[0, 0]], ..field() }.check(&[0; 2]), Err(31));
}

/// "Waking anything meets 41"; so does a service, and there is no directed link to hand over: 42. A preview is refused
/// as its step is, whatever the buffer.
#[test]
fn steps_and_previews() {
    for (kind, refusal) in BLANK_STEPS {
        for number in BLANK_NUMBERS {
            for count in [0, 3] {
                let (mut blank, mut words) = (field(), vec![0; count]);
                assert_eq!(blank.step(&mut words, kind, number), Err(refusal));
                assert_eq!((blank, words), (field(), vec![0; count]));
                let mut buffer = vec![9; count];
                assert_eq!(preview(&field(), &[], kind, number, &mut buffer), Err(refusal));
                assert_eq!(buffer, vec![9; count]);
            }
            let mut spoilt = Field { sent: 1, ..field() };
            assert_eq!(spoilt.step(&mut [], kind, number), Err(31));
            assert_eq!(preview(&spoilt, &[], kind, number, &mut []), Err(31));
        }
    }
}

/// Runs without steps and runs of rounds are taken: the field is at rest.
#[test]
fn runs_and_rounds() {
    let (mut blank, nothing) = (field(), Answer { done: 0, refusal: None });
    assert_eq!(schedule::run(&mut blank, &mut [], &schedule::encode(&[])), nothing);
    for limit in [0, 1, 65535] {
        assert_eq!(rounds::run(&mut blank, &mut [0; 2], limit), nothing);
    }
    for (kind, refusal) in BLANK_STEPS {
        let steps = [Step { kind, number: 0 }, Step { kind: WAKE, number: 0 }];
        assert_eq!(schedule::run(&mut blank, &mut [], &schedule::encode(&steps)), Answer::refused(refusal));
    }
    for (bytes, refusal) in [(&[1, 0][..], 51), (&[0, 0, 0], 52), (&[1, 0, 1], 53)] {
        assert_eq!(schedule::run(&mut blank, &mut [], bytes), Answer::refused(refusal));
    }
    assert_eq!(blank, field());
    let mut spoilt = Field { sent: 1, ..field() };
    assert_eq!(schedule::run(&mut spoilt, &mut [], &[]), Answer::refused(31));
    assert_eq!(rounds::run(&mut spoilt, &mut [], 0), Answer::refused(31));
}

/// 72 comes before 73: there is no sender, however few the records. No sending left any records of nobody: 73 before 42.
#[test]
fn cues() {
    for before in [vec![], vec![Cue::UNHEARD], vec![Cue::of_sender(7); 3]] {
        let mut cues = before.clone();
        let spoilt = Field { sent: 1, ..field() };
        for number in BLANK_NUMBERS {
            assert_eq!(start(&field(), &[], &mut cues, number, 7), Err(72));
            assert_eq!(deliver(&field(), &[], &mut cues, number), Err(73));
            assert_eq!(start(&spoilt, &[], &mut cues, number, 7), Err(31));
            assert_eq!(deliver(&spoilt, &[], &mut cues, number), Err(31));
        }
        assert_eq!(cues, before);
    }
}

/// "The program skips the wake and prints zero modules, links and total, no branch lines, "core none", "messages 0 of 0"
/// and "rounds 0"."
#[test]
fn job_report_and_trace() {
    let mut words = [7; 2];
    assert_eq!(job(plans::blank(), &mut []), Ok((field(), 0)));
    assert_eq!((job(plans::blank(), &mut words), words), (Ok((field(), 0)), [0; 2]));
    let lines = "modules 0\nlinks 0\ntotal 0\ncore none\nmessages 0 of 0\nrounds 0\n";
    assert_eq!(report(&BYTES), lines);
    let traced = |schedule: &[u8]| trace::trace(&[&BYTES[..], schedule].concat());
    assert_eq!(traced(&[1, 0, 0]), "steps 0\nrefusal none\nsent 0\nwaiting 0\n");
    for (schedule, refusal) in [(&[][..], 51), (&[1, 0, 3, WAKE, 0, 0], 41), (&[1, 0, 3, HAND_OVER, 0, 0], 42)] {
        assert_eq!(traced(schedule), format!("steps 0\nrefusal {refusal}\nsent 0\nwaiting 0\n"));
    }
}
