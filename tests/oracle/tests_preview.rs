//! The oracle's previews against the samples of request 02, and against a second way: the sends of the response itself.

use crate::field::{waiting, Field, Word, HAND_OVER, SERVE, WAKE};
use crate::fields::{good_step, some_field, some_step};
use crate::frame::Message;
use crate::plan::{Plan, NONE};
use crate::plans;
use crate::preview::preview;
use crate::rng::Rng;
use crate::rounds;
use crate::rules::{Fate, Response, BASIC, BRANCH};
use crate::schedule::Step;
use crate::tests::set_up;

fn take(field: &mut Field, words: &mut [u64], steps: &[(u8, u16)]) {
    for (kind, number) in steps {
        field.step(words, *kind, *number).unwrap();
    }
}

/// The answer, and what it leaves of a buffer of nines.
fn shown(field: &Field, words: &[u64], kind: u8, number: u16, places: usize) -> (Result<usize, u32>, Vec<u64>) {
    let mut buffer = vec![9; places];
    (preview(field, words, kind, number, &mut buffer), buffer)
}

#[test]
fn samples() {
    let (mut field, mut words) = set_up(&plans::worse_reading().encode());
    take(&mut field, &mut words, &[(WAKE, 0), (WAKE, 1), (HAND_OVER, 0), (HAND_OVER, 1)]);
    assert_eq!(shown(&field, &words, SERVE, 0, 1), (Ok(1), vec![0x2000000004A]));
    assert_eq!(shown(&field, &words, SERVE, 0, 3), (Ok(1), vec![0x2000000004A, 9, 9]));
    assert_eq!(shown(&field, &words, SERVE, 0, 0), (Err(75), vec![]));

    take(&mut field, &mut words, &[(SERVE, 0), (SERVE, 1)]);
    rounds::round(&mut field, &mut words).unwrap();
    take(&mut field, &mut words, &[(HAND_OVER, 2)]);
    assert_eq!((&words[..3], field.modules[2].status), (&[0x2000400000B, 0x3000200000B, 0][..], 0));
    assert_eq!(shown(&field, &words, SERVE, 2, 1), (Ok(1), vec![0x20005FFFF01]));
    assert_eq!(shown(&field, &words, SERVE, 2, 0), (Err(75), vec![]));
    assert_eq!(shown(&field, &words, HAND_OVER, 4, 0), (Ok(0), vec![]));
    assert_eq!(shown(&field, &words, HAND_OVER, 4, 1), (Ok(0), vec![9]));

    take(&mut field, &mut words, &[(SERVE, 2)]);
    assert_eq!(words[..4], [0x2000400000B, 0x20005FFFF01, 0x3000200000B, 0]);
}

/// The step's own numbers in their order, whatever the buffer; 75 is the last.
#[test]
fn refusals() {
    let (good, words) = {
        let (mut field, mut words) = set_up(&plans::worse_reading().encode());
        take(&mut field, &mut words, &[(WAKE, 0), (HAND_OVER, 0)]);
        (field, words)
    };
    let answers = |field: &Field, words: &[u64], kind, number| {
        let answer = [0, 1, 2].map(|places| shown(field, words, kind, number, places));
        assert!(answer.iter().all(|(answer, buffer)| answer.is_ok() || buffer.iter().all(|word| *word == 9)));
        answer.map(|(answer, _)| answer)
    };
    for (kind, number, refusal) in
        [(4, 9, 54), (0, 0, 54), (1, 3, 41), (3, 3, 41), (2, 6, 42), (1, 0, 43), (2, 0, 44), (3, 0, 45), (3, 2, 45)]
    {
        assert_eq!(answers(&good, &words, kind, number), [Err(refusal); 3]);
        let mut spoilt = good.clone();
        spoilt.marks[1][0] = 3;
        assert_eq!(answers(&spoilt, &words, kind, number), [Err(31); 3]);
    }
    // a Connect of a sleeper's own earliest link: it wakes and answers, two messages
    assert_eq!(answers(&good, &words, SERVE, 1), [Err(75), Err(75), Ok(2)]);
    for (sent, answer) in [(19, [Err(75), Err(75), Ok(2)]), (20, [Err(33); 3]), (21, [Err(33); 3])] {
        let field = Field { sent, ..good.clone() };
        assert_eq!(answers(&field, &words, SERVE, 1), answer);
    }
    // a sleeper has no response to an Accept, however many were sent
    let mut accept = words.clone();
    accept[0] = Word { message: Message::bare(4), directed: 0, handed: true }.pack();
    for sent in [1, 21] {
        let field = Field { sent, ..good.clone() };
        assert_eq!(answers(&field, &accept, SERVE, 1), [Err(32); 3]);
    }
}

/// A module alone wakes without a word, so no place is needed.
#[test]
fn one_module() {
    let (field, _) = set_up(&Plan { modules: 1, links: vec![] }.encode());
    assert_eq!(shown(&field, &[], WAKE, 0, 0), (Ok(0), vec![]));
    assert_eq!(shown(&field, &[], WAKE, 1, 0), (Err(41), vec![]));
    assert_eq!(shown(&field, &[], HAND_OVER, 0, 2), (Err(42), vec![9, 9]));
}

/// An Initiate's copies go on all links of a module but one: 190, or one fewer and a Test, or all of them and a Test
/// back over the Initiate's own link, if that is marked Basic: 191, the largest count.
#[test]
fn the_largest_count() {
    let mut rng = Rng::new(190);
    let star = plans::star(192, 5);
    let plan = plans::plan(&mut rng, 192, star, plans::Readings::Wide);
    let (mut field, mut words) = set_up(&plan.encode());
    words[0] = Word { message: Message::initiate(3, 7, true), directed: 0, handed: true }.pack();
    field.sent = 1;
    let centre = field.target(0) as usize;
    let (v, side) = (centre as u16, |k: usize| (plan.links[k].lower != 5) as usize);
    assert_eq!(v, 5);
    field.modules[centre].status = 2;
    for (basic, count, last) in [(None, 190, 2), (Some(100), 190, 3), (Some(0), 191, 3)] {
        for k in 0..191 {
            field.marks[k][side(k)] = if basic == Some(k) { BASIC } else { BRANCH };
        }
        assert_eq!(shown(&field, &words, SERVE, v, count - 1).0, Err(75));
        let (answer, buffer) = shown(&field, &words, SERVE, v, 192);
        assert_eq!((answer, buffer[count]), (Ok(count), 9));
        assert_eq!(Word::unpack(buffer[count - 1], 191).unwrap().message.kind, last);
    }
}

/// The second way: what the response to the step sends, as words in the air.
fn by_response(field: &Field, words: &[u64], step: Step) -> (Vec<u64>, bool) {
    let v = step.number;
    let mut response = match step.kind {
        HAND_OVER => return (vec![], false),
        _ => Response::new(&field.plan, field.modules[v as usize], field.own_marks(v)),
    };
    let mut fate = Fate::Taken;
    if step.kind == WAKE {
        response.wakeup(NONE);
    } else {
        let word = field.next_in_queue(words, v).expect("a service that is taken");
        fate = response.receive(word.directed / 2, word.message).expect("a service that is taken");
    }
    let directed = |k: u16| 2 * k + (field.plan.links[k as usize].lower != v) as u16;
    let word = |(k, message): &(u16, Message)| Word { message: *message, directed: directed(*k), handed: false }.pack();
    (response.sends.iter().map(word).collect(), fate == Fate::PutBack)
}

/// On drawn fields: a preview answers as the step on a copy does; its words are the response's sends, as many as the
/// sent count grows by; before them stand the words that stay, behind them at most one.
#[test]
fn as_the_step_itself() {
    let mut rng = Rng::new(75);
    let mut counts = [0; 4];
    for i in 0..6000 {
        let (field, words) = some_field(&mut rng);
        let step = if i % 4 == 0 { some_step } else { good_step }(&mut rng, &field, &words);
        let (mut after, mut words_after) = (field.clone(), words.clone());
        let outcome = after.step(&mut words_after, step.kind, step.number);
        let (answer, buffer) = shown(&field, &words, step.kind, step.number, 200);
        let Ok(done) = outcome else {
            assert_eq!((answer.err(), buffer), (outcome.err(), vec![9; 200]));
            continue;
        };
        let count = answer.expect("enough places");
        let (sends, put_back) = by_response(&field, &words, step);
        assert_eq!(buffer[..count], sends, "the response's sends");
        assert!(count as u32 == after.sent - field.sent && count == done.sends, "the sent count");
        assert!(buffer[count..].iter().all(|word| *word == 9), "the rest keeps");
        let last = (step.kind == HAND_OVER || put_back) as usize;
        let end = waiting(&words_after) - last;
        let stay: Vec<u64> = words_after[..end - count].to_vec();
        let mut before = words[..waiting(&words)].to_vec();
        if step.kind != WAKE {
            let gone = (0..before.len()).find(|at| before.get(*at) != stay.get(*at)).expect("a word is taken");
            before.remove(gone);
        }
        assert!(before == stay && words_after[end - count..end] == sends, "what waits");
        counts[if put_back { 3 } else { count.min(2) }] += 1;
    }
    assert!(counts.iter().all(|times| *times > 100), "no, one, more words, put back: {counts:?}");
}
