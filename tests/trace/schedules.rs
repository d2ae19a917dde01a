//! Random inputs of `trace`: a plan and a schedule. A schedule is drawn beside a field, so that most steps are taken.
//! Weights drawn once for each schedule make some links, modules and kinds of message slow or quick: that is what
//! brings put-backs, crossing and late Tests, absorption after a report, and Initiates behind one another.

use oracle::field::{setup, waiting, Field, Word, HAND_OVER, SERVE, WAKE};
use oracle::frame::{Message, CONNECT, INITIATE, REPORT, TEST};
use oracle::plan::{Link, Plan};
use oracle::plans;
use oracle::rng::Rng;
use oracle::rules::{ASLEEP, BASIC, FIND, FOUND};
use oracle::schedule::{encode, Step};

const WEIGHTS: [u64; 4] = [1, 8, 64, 512];

/// How likely each step is, beside the others that can be taken.
struct Weights {
    /// By kind, with a Connect of level 0 at place 0.
    kind: Vec<u64>,
    link: Vec<u64>,
    module: Vec<u64>,
    /// Keep a Connect of level 0 for a module that has reported, unless the two begin a fragment.
    late_connect: bool,
    /// Keep an Initiate of Found in the air, so that the next one comes up behind it.
    late_found: bool,
    /// One step in so many wakes a sleeper, or serves a message that will be put back; 0: none does.
    wake: usize,
    put_back: usize,
}

impl Weights {
    fn draw(rng: &mut Rng, plan: &Plan) -> Weights {
        // some schedules treat all alike, most do not
        let range = rng.pick(&[1, 3, 4, 4]);
        let mut list = |len: usize| (0..len).map(|_| rng.pick(&WEIGHTS[..range])).collect();
        let (kind, link, module) = (list(8), list(2 * plan.links.len()), list(plan.modules as usize));
        Weights {
            kind,
            link,
            module,
            late_connect: rng.once_in(4),
            late_found: rng.once_in(2),
            wake: rng.pick(&[0, 1, 2, 10, 50]),
            put_back: rng.pick(&[2, 5, 20]),
        }
    }

    /// The weight of handing over or serving this message.
    fn of(&self, field: &Field, word: Word) -> u64 {
        let (message, target) = (word.message, field.target(word.directed) as usize);
        let lowest = message == Message::connect(0);
        let reported = field.modules[target].status == FOUND && field.modules[target].level > 0;
        let own = field.plan.own_links(target as u16).into_iter();
        let mutual = own.min_by_key(|k| field.plan.key(*k)) == Some(word.directed / 2);
        let found = message.kind == INITIATE && !message.find;
        let kept = self.late_connect && lowest && !mutual && !reported || self.late_found && found;
        let kind = self.kind[if lowest { 0 } else { message.kind as usize }];
        kind * self.link[word.directed as usize] * if kept { 1 } else { 10_000 }
    }
}

/// The steps that can be taken now, with their weights.
#[derive(Default)]
struct Choices {
    wakes: Vec<(u64, Step)>,
    /// Services that will put their message back.
    put_backs: Vec<(u64, Step)>,
    others: Vec<(u64, Step)>,
}

impl Choices {
    fn of(field: &Field, words: &[u64], weights: &Weights) -> Choices {
        let mut out = Choices::default();
        for v in 0..field.plan.modules {
            if field.modules[v as usize].status == ASLEEP {
                out.wakes.push((1, Step { kind: WAKE, number: v }));
            }
            if let Some(word) = field.next_in_queue(words, v) {
                let step = Step { kind: SERVE, number: v };
                if blocked(field, v, word) {
                    out.put_backs.push((1, step));
                } else {
                    out.others.push((weights.of(field, word) * weights.module[v as usize], step));
                }
            }
        }
        let mut seen = vec![false; 2 * field.plan.links.len()];
        for word in &words[..waiting(words)] {
            let word = Word::unpack(*word, field.plan.links.len() as u16).expect("a field from setup");
            if !word.handed && !seen[word.directed as usize] {
                seen[word.directed as usize] = true;
                out.others.push((weights.of(field, word) * 20, Step { kind: HAND_OVER, number: word.directed }));
            }
        }
        out
    }

    fn draw(&self, rng: &mut Rng, weights: &Weights) -> Option<Step> {
        let asleep_all = self.others.is_empty() && self.put_backs.is_empty();
        let wake = weights.wake > 0 && rng.once_in(weights.wake) || asleep_all;
        let put_back = rng.once_in(weights.put_back) || self.others.is_empty();
        if wake && !self.wakes.is_empty() {
            weighted(rng, &self.wakes)
        } else if put_back && !self.put_backs.is_empty() {
            weighted(rng, &self.put_backs)
        } else {
            weighted(rng, &self.others)
        }
    }
}

/// The awake module v would put this message back.
pub fn blocked(field: &Field, v: u16, word: Word) -> bool {
    let (module, message, j) = (field.modules[v as usize], word.message, word.directed / 2);
    match message.kind {
        _ if module.status == ASLEEP => false,
        CONNECT => message.level >= module.level && field.own_marks(v).contains(&(j, BASIC)),
        TEST => message.level > module.level,
        REPORT => module.in_branch == j && module.status == FIND,
        _ => false,
    }
}

fn weighted(rng: &mut Rng, choices: &[(u64, Step)]) -> Option<Step> {
    let total: u64 = choices.iter().map(|c| c.0).sum();
    let mut at = rng.next().checked_rem(total)?;
    for (weight, step) in choices {
        if at < *weight {
            return Some(*step);
        }
        at -= weight;
    }
    None
}

/// A step that is refused by 41 to 45, if one of the drawn number can be found.
fn refused_step(rng: &mut Rng, field: &Field, words: &[u64]) -> Option<Step> {
    let (n, d) = (field.plan.modules, 2 * field.plan.links.len() as u16);
    let beyond = |rng: &mut Rng, bound: u16| rng.pick(&[bound, bound + 1, 255, 256, 65535]).max(bound);
    // in a blank plan nothing else can be met
    let wanted = if n == 0 { rng.pick(&[41, 42]) } else { rng.range(41, 45) as u32 };
    for _ in 0..20 {
        let (kind, number) = match wanted {
            41 => (rng.pick(&[WAKE, SERVE]), beyond(rng, n)),
            42 => (HAND_OVER, beyond(rng, d)),
            43 => (WAKE, rng.below(n as usize) as u16),
            44 => (HAND_OVER, rng.below(d.max(1) as usize) as u16),
            _ => (SERVE, rng.below(n as usize) as u16),
        };
        if field.clone().take(&mut words.to_vec(), kind, number) == Err(wanted) {
            return Some(Step { kind, number });
        }
    }
    None
}

/// The steps of a schedule: to rest or up to a drawn number of steps, some with a refused step among them.
fn steps(rng: &mut Rng, plan: &Plan) -> Vec<Step> {
    let mut words = vec![0; plan.ceiling() as usize];
    let mut field = setup(&plan.encode(), &mut words).expect("a good plan");
    let weights = Weights::draw(rng, plan);
    // most schedules come to rest within twice M; stopping sooner shows what waits, and in which order
    let some = |rng: &mut Rng| rng.below(3 * plan.ceiling() as usize / 2 + 2);
    let most = if rng.once_in(3) { 20000 } else { some(rng) };
    let refused_at = if rng.once_in(3) { some(rng) } else { usize::MAX };
    let mut out = Vec::new();
    while out.len() < most {
        if out.len() >= refused_at {
            if let Some(step) = refused_step(rng, &field, &words) {
                out.push(step);
            }
            // what follows a refused step must not be done
            out.extend((0..plan.modules).map(|v| Step { kind: WAKE, number: v }));
            return out;
        }
        // at rest with all awake there is no step; with sleepers left, some schedules end here too
        let choices = Choices::of(&field, &words, &weights);
        let rest = choices.others.is_empty() && choices.put_backs.is_empty();
        if rest && !out.is_empty() && rng.once_in(2) {
            break;
        }
        let Some(step) = choices.draw(rng, &weights) else { break };
        field.take(&mut words, step.kind, step.number).expect("a step that can be taken");
        out.push(step);
    }
    if rng.once_in(4) {
        out.extend(refused_step(rng, &field, &words));
    }
    out
}

/// Pairs over cheap links, a tree of dearer links between the pairs, and single modules at the ends of the dearest: a
/// single module's Connect finds one that already reported a cheaper way.
fn pendants(rng: &mut Rng) -> Plan {
    let inner = 2 * rng.range(2, 6);
    let n = inner + rng.range(1, 4);
    let mut names: Vec<u16> = (0..n as u16).collect();
    rng.shuffle(&mut names);
    let mut links = Vec::new();
    for v in 1..n {
        let (grade, other) = match v {
            _ if v >= inner => (2, rng.below(inner)),
            _ if v % 2 == 1 => (0, v - 1),
            _ => (1, rng.below(v)),
        };
        let (a, b) = (names[v].min(names[other]), names[v].max(names[other]));
        let mut reading = || (600 * grade + rng.below(600)) as u16;
        links.push(Link { lower: a, higher: b, at_lower: reading(), at_higher: reading() });
    }
    links.sort_by_key(|link| (link.lower, link.higher));
    Plan { modules: n as u16, links }
}

fn drawn_plan(rng: &mut Rng) -> Plan {
    if rng.once_in(3) {
        return pendants(rng);
    }
    let kind = rng.pick(&[
        "small", "small", "small", "complete", "ring", "path", "star", "tree", "medium", "single", "blank", "banks",
        "banks", "banks", "forest", "islands", "islands", "unlinked",
    ]);
    loop {
        let plan = plans::good(rng, kind);
        // 5 modules or more show what smaller plans hide; large plans cost time
        let few = (2..5).contains(&plan.modules) && !rng.once_in(4);
        if !few && plan.ceiling() <= 600 {
            return plan;
        }
    }
}

fn damage_schedule(rng: &mut Rng, bytes: &mut Vec<u8>) {
    match rng.below(6) {
        0 => bytes.truncate(rng.below(4)),
        1 => bytes[0] = rng.byte(),
        2 => bytes.truncate(rng.below(bytes.len())),
        3 => bytes.push(rng.byte()),
        4 => {
            // a length that is right and no multiple of 3
            bytes.push(1);
            let length = (bytes.len() - 3) as u16;
            bytes[1..3].copy_from_slice(&length.to_be_bytes());
        }
        _ => {
            let steps = (bytes.len() - 3) / 3;
            if steps > 0 {
                bytes[3 + 3 * rng.below(steps)] = rng.pick(&[0, 4, 5, 255]);
            }
        }
    }
}

/// One input of `trace`.
pub fn input(rng: &mut Rng) -> Vec<u8> {
    if rng.once_in(200) {
        return (0..rng.below(3)).map(|_| rng.below(2) as u8).collect();
    }
    if rng.once_in(20) {
        // the damaged plan's own length decides where the schedule begins
        let mut bytes = plans::damaged(rng);
        if rng.once_in(2) {
            bytes.extend_from_slice(&[1, 0, 3, 1, 0, 0]);
        }
        return bytes;
    }
    let plan = drawn_plan(rng);
    let mut schedule = encode(&steps(rng, &plan));
    if rng.once_in(12) {
        damage_schedule(rng, &mut schedule);
    }
    let mut bytes = plan.encode();
    bytes.extend_from_slice(&schedule);
    bytes
}
