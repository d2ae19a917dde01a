//! A field from setup on both sides, the library's and the oracle's, with a diary of who woke whom.

use crate::muruapy::{numbers, Record};
use crate::tally::Tally;
use oracle::field::{setup_value, Done, Field, WAKE};
use oracle::plan::Plan;
use oracle::rng::Rng;
use oracle::rounds;
use oracle::rules::WIDTH;
use oracle::schedule::{self, Answer, Step};
use oracle::waking::Diary;

/// What demand 3 calls a call.
pub enum Call {
    Step(Step),
    Schedule(Vec<u8>),
    Rounds(u16),
}

#[derive(Clone)]
pub struct Site {
    pub field: Field,
    pub words: Vec<u64>,
    /// The modules that wake steps woke.
    pub woken: Vec<u16>,
    diary: Diary,
    /// The library's field and words, and the record as setup made it.
    record: Record,
    lent: Vec<u64>,
    fresh: Record,
}

impl Site {
    /// Setup on both sides, into memory that holds anything.
    pub fn set_up(rng: &mut Rng, plan: Plan) -> Site {
        let given = numbers(&plan, rng);
        let room = plan.ceiling() as usize + rng.below(3);
        let mut lent: Vec<u64> = (0..room).map(|_| rng.next()).collect();
        let mut words = lent.clone();
        let mut record = Record::any(rng);
        assert_eq!(record.setup(&given, &mut lent), 0, "setup");
        let field = setup_value(plan, &mut words).expect("a good plan");
        let diary = Diary::new(field.plan.modules);
        let site = Site { field, words, woken: Vec::new(), diary, record, lent, fresh: Record::at_setup(&given) };
        site.same("setup");
        site
    }

    /// The library's record and words are the oracle's.
    fn same(&self, call: &str) {
        let mut expected = self.fresh.clone();
        expected.put(&self.field);
        assert!(self.record == expected, "the record after {call}, for {:?}", self.field);
        assert_eq!(self.lent, self.words, "the words after {call}, for {:?}", self.field);
    }

    /// One call on both sides. Then every chain is followed.
    pub fn call(&mut self, tally: &mut Tally, call: &Call) {
        let before = self.field.clone();
        let (name, answer) = self.by_oracle(tally, call);
        let got = match call {
            Call::Step(s) => (0, self.record.step(&mut self.lent, s.kind, s.number)),
            Call::Schedule(bytes) => self.record.run(&mut self.lent, bytes),
            Call::Rounds(limit) => self.record.rounds(&mut self.lent, *limit),
        };
        let refusal = answer.refusal.unwrap_or(0);
        assert_eq!(got, (answer.done as usize, refusal), "the answer of a {name}, for {before:?}");
        assert!(![31, 32, 33].contains(&refusal), "{refusal} from setup");
        tally.count(format!("{name} ends with {refusal}"));
        self.same(name);
        self.follow();
    }

    /// The oracle's call, with each step that it takes in the diary; its name and its answer.
    fn by_oracle(&mut self, tally: &mut Tally, call: &Call) -> (&'static str, Answer) {
        let Site { field, words, woken, diary, .. } = self;
        let mut see = |step: Step, done: &Done| {
            diary.note(step, done);
            woken.extend((step.kind == WAKE).then_some(step.number));
            tally.step(done);
        };
        match call {
            Call::Step(s) => {
                let outcome = field.step(words, s.kind, s.number);
                outcome.iter().for_each(|done| see(*s, done));
                ("step", Answer { done: 0, refusal: outcome.err() })
            }
            Call::Schedule(bytes) => ("schedule", schedule::run_seen(field, words, bytes, &mut see)),
            Call::Rounds(limit) => ("rounds", rounds::run_seen(field, words, *limit, &mut see)),
        }
    }

    /// The waking links of the plan's modules in the library's record.
    pub fn waking_links(&self) -> Vec<u16> {
        waking_links(&self.record)[..self.field.modules.len()].to_vec()
    }

    /// Every chain of the library's waking links, held against the diary: how long each is.
    pub fn follow(&self) -> Vec<usize> {
        self.diary.follow(&self.field, &self.waking_links())
    }
}

/// The last value of each module that there is room for.
pub fn waking_links(record: &Record) -> Vec<u16> {
    record.cells.chunks_exact(WIDTH).map(|values| values[WIDTH - 1]).collect()
}
