//! Fields of the blank plan: every call, on drawn ones and on memory that is all zeros.

use crate::muruapy::{waiting, Record};
use crate::tally::Tally;
use crate::{compare_run, compare_step, Run};
use oracle::fields::{drawn, BLANK_NUMBERS, BLANK_STEPS};
use oracle::plans;
use oracle::rng::Rng;
use oracle::schedule::{encode, Step};

pub const FIELDS: usize = 200;

/// Drawn ones, with words and without: steps, as schedules too, and runs of nothing, which are taken.
pub fn fields(rng: &mut Rng, tally: &mut Tally) {
    for _ in 0..FIELDS {
        let (mut field, mut words) = drawn(rng, &plans::blank());
        for (kind, refusal) in BLANK_STEPS {
            let step = Step { kind, number: rng.pick(&BLANK_NUMBERS) };
            assert_eq!(compare_step(rng, tally, &mut field, &mut words, step), refusal, "{step:?}");
            let schedule = Run::Schedule(encode(&[step]));
            assert_eq!(compare_run(rng, tally, &field, &words, schedule), refusal, "{step:?} as a schedule");
        }
        let limit = rng.pick(&[0, 1, 65535]);
        for run in [Run::Schedule(encode(&[])), Run::Rounds(limit)] {
            assert_eq!(compare_run(rng, tally, &field, &words, run), 0, "nothing to do");
        }
    }
}

/// A record and words full of zeros are a field of the blank plan: each call answers so and writes nothing. How many calls
/// were made.
pub fn zeros() -> usize {
    let text = "modules 0\nlinks 0\ntotal 0\ncore none\nmessages 0 of 0\nrounds 7\n";
    let mut calls = 0;
    for room in [0, 1, 8, 7920] {
        let (mut record, mut words) = (Record::ZEROS, vec![0; room]);
        assert_eq!((record.check(&words), waiting(&words)), (0, 0), "{room} words of zeros");
        for (kind, refusal) in BLANK_STEPS {
            for number in BLANK_NUMBERS {
                assert_eq!(record.step(&mut words, kind, number), refusal, "step {kind} {number} of zeros");
                calls += 1;
            }
        }
        assert_eq!(record.run(&mut words, &[1, 0, 0]), (0, 0), "no steps, of zeros");
        assert_eq!(record.rounds(&mut words, 65535), (0, 0), "rounds of zeros");
        let mut out = [b'~'; 100];
        assert_eq!(record.report(7, &mut out), text.len(), "the report of zeros");
        assert_eq!(out[..text.len()], *text.as_bytes(), "the report of zeros");
        assert!(record == Record::ZEROS && words.iter().all(|word| *word == 0), "zeros are written to");
        calls += 5;
    }
    calls
}
