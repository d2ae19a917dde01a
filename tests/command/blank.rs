//! The blank plan through every subcommand: the exit status, and all that stands on standard output and standard error.

use crate::tool::Tool;
use std::collections::BTreeSet;

const BLANK: &[u8] = &[1, 0, 4, 0, 0, 0, 0];
const HEAD: &str = "# link: lower module, higher module, the reading at each in tenths of a decibel\n";
const CAPTION: &str = "0 modules, 0 links, tree of cost 0, core none";
const ENDS: &str = "16: a link's lower module is not below its higher one, or the higher one is no module";
const NO_MODULE: &str = "41: there is no module of this number";
const NO_LINK: &str = "42: there is no directed link of this number";
const NO_SENDER: &str = "72: there is no module of the sender's number";
const AT_REST: &str = "0 waiting, 0 messages sent of 0 at most, at rest\n";

/// A tool, and what was run by it.
struct Tried<'a> {
    tool: &'a Tool,
    subcommands: BTreeSet<String>,
    runs: usize,
}

impl Tried<'_> {
    /// One run, with its arguments in a line.
    fn leaves(&mut self, line: &str, code: i32, out: &[u8], err: &str) {
        let args: Vec<&str> = line.split(' ').collect();
        let ran = self.tool.run(&args, BLANK);
        assert_eq!(ran.err, err, "muruapy {line}");
        assert!(ran.out == out, "muruapy {line}: {}", String::from_utf8_lossy(&ran.out));
        assert_eq!(ran.code, code, "muruapy {line}");
        self.subcommands.insert(args[0].into());
        self.runs += 1;
    }

    fn prints(&mut self, line: &str, out: &str) {
        self.leaves(line, 0, out.as_bytes(), "");
    }

    /// Refused with a message alone.
    fn says(&mut self, line: &str, message: &str) {
        self.leaves(line, 1, b"", &format!("muruapy: {message}\n"));
    }

    /// The file is there with these bytes, and no second one; it is removed.
    fn wrote(&self, name: &str, bytes: &[u8]) {
        assert_eq!(self.tool.read(name).as_deref(), Some(bytes), "{name}");
        assert!(self.tool.read(&format!("{name}.2")).is_none(), "{name}.2");
        self.tool.remove(name);
    }
}

fn read_and_drawn(t: &mut Tried) {
    for plan in ["blank", "-"] {
        t.prints(&format!("show {plan}"), "modules 0\nlinks 0\ntotal 0\ncore none\nmessages 0 of 0\nrounds 0\n");
        t.prints(&format!("check {plan}"), "taken\n");
        t.prints(&format!("text {plan}"), &format!("{HEAD}modules 0\n"));
    }
    t.prints("dot blank", &format!("graph muruapy {{\n    label=\"{CAPTION}\";\n    node [shape=circle];\n}}\n"));
    let svg = [
        "<svg xmlns=\"http://www.w3.org/2000/svg\" width=\"360\" height=\"390\" viewBox=\"0 0 360 390\" \
         font-family=\"sans-serif\" font-size=\"11\" text-anchor=\"middle\">",
        &format!("<title>{CAPTION}</title>"),
        "<rect width=\"100%\" height=\"100%\" fill=\"white\"/>",
        "<g stroke=\"gray\" stroke-width=\"1\" stroke-dasharray=\"2 4\">\n</g>",
        "<g stroke=\"black\" stroke-width=\"2\">\n</g>",
        "<g fill=\"black\" stroke=\"white\" stroke-width=\"4\" paint-order=\"stroke\">\n</g>",
        "<g fill=\"white\" stroke=\"black\">\n</g>\n<g fill=\"black\">\n</g>",
        &format!("<text x=\"180.0\" y=\"375.0\">{CAPTION}</text>\n</svg>\n"),
    ];
    t.prints("svg blank", &svg.join("\n"));
}

/// As lines and back; a link among the lines.
fn made(t: &mut Tried) {
    for lines in ["modules 0\n", "# nobody yet\n\n  modules 00", &format!("{HEAD}modules 0\n")] {
        t.tool.write("lines", lines.as_bytes());
        t.leaves("make lines", 0, BLANK, "");
        t.prints("make lines -o made", "");
        t.wrote("made", BLANK);
    }
    for (lines, place) in [
        ("modules 0\nlink 0 1 3 4\n", format!("line 2: {ENDS}: link 0 (0-1), there is no module")),
        ("link 0 1 3 2001\n\nlink 0 2 3 4\nmodules 0", format!("line 1: {ENDS}: link 0 (0-1), there is no module")),
        ("modules 0\n\nlink 0 0 3 4\n", format!("line 3: {ENDS}: link 0 (0-0), 0 is not below 0")),
        ("modules 193\n", "line 1: 14: the plan has more than 192 modules: 193 modules".into()),
    ] {
        t.tool.write("lines", lines.as_bytes());
        t.says("make lines -o made", &format!("lines: {place}"));
        assert!(t.tool.read("made").is_none(), "a refused text wrote a file");
    }
}

/// Nobody is woken, by rounds and in any drawn order: a schedule without steps is written and told.
fn rehearsed(t: &mut Tried) {
    let rest = "0 messages of 0 at most; at rest with the tree of the plan\nwritten: schedule\n";
    t.prints("rehearse blank -o schedule", &format!("0 steps, 0 rounds, {rest}"));
    t.wrote("schedule", &[1, 0, 0]);
    for seed in ["0", "7", "9223372036854775807"] {
        t.prints(&format!("rehearse blank -o schedule --seed {seed}"), &format!("seed {seed}: 0 steps, {rest}"));
        t.wrote("schedule", &[1, 0, 0]);
    }
    for named in ["0", "65535", "65536", "0 1"] {
        let first = named.split(' ').next().unwrap();
        for seed in ["", " --seed 7"] {
            t.says(&format!("rehearse blank -o schedule{seed} {named}"), &format!("wake {first}: {NO_MODULE}"));
            assert!(t.tool.read("schedule").is_none(), "a refused rehearsal wrote a file");
        }
    }
    t.tool.write("schedule", &[1, 0, 0]);
    t.prints("replay blank schedule", AT_REST);
    t.prints("replay - schedule schedule", AT_REST);
}

/// Steps in a schedule and shown before they are taken, and a cue: there is no module and no directed link.
fn refused_steps(t: &mut Tried) {
    for (kind, word, told, refusal) in
        [(1, "wake", "wake", NO_MODULE), (2, "hand", "hand over", NO_LINK), (3, "serve", "serve", NO_MODULE)]
    {
        for number in [0u16, 1, 65535] {
            let [high, low] = number.to_be_bytes();
            t.tool.write("step", &[1, 0, 3, kind, high, low]);
            let lines = format!("step 1 (step 1 of step): {told} {number}: refused {refusal}\n{AT_REST}");
            t.leaves("replay blank schedule step", 1, lines.as_bytes(), "");
            let line = format!("{told} {number}: refused {refusal}\n");
            t.leaves(&format!("preview blank {word} {number}"), 1, line.as_bytes(), "");
            t.leaves(&format!("preview blank schedule {word} {number}"), 1, line.as_bytes(), "");
            t.says(&format!("preview blank step {word} {number}"), &format!("step: step 1: {refusal}"));
        }
    }
    for sender in ["0", "1", "65535", "65536"] {
        t.says(&format!("cue blank {sender}"), &format!("cue from {sender}: {NO_SENDER}"));
    }
}

/// Nobody is at the end of a path, or near another.
fn no_paths(t: &mut Tried) {
    for module in ["0", "1", "65535", "65536", "4294967296"] {
        let told = format!("{NO_MODULE}: module {module}, there is no module");
        t.says(&format!("path blank {module} {module}"), &format!("path: {told}"));
        t.says(&format!("path - {module} 0"), &format!("path: {told}"));
        for h in ["0", "1", "4294967296"] {
            t.says(&format!("near blank {module} {h}"), &format!("near: {told}"));
        }
    }
}

/// A field of nobody is saved, found and restored; nothing goes on from it.
fn points(t: &mut Tried) {
    let line = "a: at byte 0, 16 bytes; 0 modules, 0 links; 0 waiting, 0 messages sent of 0 at most, at rest\n";
    let record = [1, 0, 0, 0, 11, 1, b'a', 1, 0, 4, 0, 0, 0, 0, 0, 0];
    t.tool.remove("store");
    for plan in ["blank", "-", "blank schedule"] {
        t.prints(&format!("save store a {plan}"), &format!("{line}written: store, 16 of 16 bytes\n"));
        assert_eq!(t.tool.read("store").as_deref(), Some(&record[..]), "the store");
    }
    t.prints("find store", &format!("{line}1 point, 16 of 16 bytes\n"));
    t.prints("find store a", line);
    t.prints("restore store a", AT_REST);
    t.prints("restore store a schedule", AT_REST);
    t.tool.write("step", &[1, 0, 3, 1, 0, 0]);
    let lines = format!("step 1 (step 1 of step): wake 0: refused {NO_MODULE}\n{AT_REST}");
    t.leaves("restore store a step", 1, lines.as_bytes(), "");
    t.says("save store b blank step", &format!("step: step 1: {NO_MODULE}"));
    let full = "78: the store is too short for the point to be saved: 16 bytes, of 15 that are free";
    t.says("save store b blank --size 31", &format!("store: {full}"));
    t.wrote("store", &record);
}

/// All that read a plan, but for `check` and `show`.
const READERS: [&str; 8] = [
    "text other",
    "dot other",
    "svg other",
    "rehearse other -o made",
    "cue other 0",
    "path other 0 0",
    "near other 0 9",
    "save store a other",
];

/// Beside it: links and no module, and more modules than there can be.
fn refused_plans(t: &mut Tried) {
    let linked = |links: u8| vec![1, 0, 12, 0, 0, 0, links, 0, 0, 0, 1, 0, 3, 0, 4];
    let length = "15: the plan has more than 600 links, or as many as do not fit its length: 2 links, length 12";
    for (bytes, told) in [
        (linked(1), format!("{ENDS}: link 0 (0-1), there is no module")),
        (linked(2), length.into()),
        (vec![1, 0, 4, 0, 193, 0, 0], "14: the plan has more than 192 modules: 193 modules".into()),
    ] {
        t.tool.write("other", &bytes);
        t.leaves("check other", 1, format!("{told}\n").as_bytes(), "");
        let number = format!("refused {}\n", &told[..2]);
        t.leaves("show other", 1, number.as_bytes(), &format!("muruapy: other: {told}\n"));
        for line in READERS {
            t.says(line, &format!("other: {told}"));
        }
        assert!(t.tool.read("store").is_none(), "a refused plan is saved");
    }
}

/// Each subcommand that the usage names is run; how many runs there were.
pub fn all(tool: &Tool) -> usize {
    let mut t = Tried { tool, subcommands: BTreeSet::new(), runs: 0 };
    tool.write("blank", BLANK);
    read_and_drawn(&mut t);
    made(&mut t);
    rehearsed(&mut t);
    refused_steps(&mut t);
    no_paths(&mut t);
    points(&mut t);
    refused_plans(&mut t);
    let usage = tool.text(&["-h"], b"");
    let named = usage.lines().filter_map(|line| line.strip_prefix("  ")).filter(|line| !line.starts_with(' '));
    let named: BTreeSet<String> = named.map(|line| line.split(' ').next().unwrap().into()).collect();
    assert_eq!(t.subcommands, named, "the subcommands that were run, and those that there are");
    t.runs
}
