use crate::{found, verdict};
use std::path::Path;

#[path = "../scan/made.rs"]
mod made;
use made::Made;

const LISTED: &str = "# comment\na:\nb: a\n";
const DEFINES: &str = "-- Head.\nuse M.{ℕ}\n\nunfoldable pub f : ℕ\nf = 0\n\nmodule _ (n : ℕ) where\n  pub f-law : ℕ\n  unfolding f\n  f-law = f\n";
const CODE: &str =
    "// Head.\nghost use Rattle.a.specs.A.{f};\n\npub fn g() -> u16\n    ensures { result ≡ f }\n{\n    0\n}\n";
const PROOF: &str =
    "-- b::g: by `f-law`.\nuse Rattle.a.specs.A.{f-law}\nuse Rattle.b.proofs.g.Goals as goal\n\npub returns : goal.returns\nreturns c = f-law\n";

/// A clean tree with one file more, or one replaced.
fn with(path: &str, text: &str) -> Made {
    let clean = [
        ("crates.txt", LISTED),
        ("crates/a/specs/Lib.antt", "-- Head.\npub mod A\n"),
        ("crates/a/src/lib.rt", ""),
        ("crates/a/specs/A.antt", DEFINES),
        ("crates/b/src/lib.rt", CODE),
        ("crates/b/proofs/g/Answers.antt", PROOF),
    ];
    let kept = clean.into_iter().filter(|(p, _)| *p != path);
    Made::new(&kept.chain([(path, text)]).collect::<Vec<_>>())
}

/// The faults of one kind as "path:line: name", if there are none of the others.
fn only(top: &Path, kind: usize) -> Vec<String> {
    let all = found(top);
    let others = all.iter().enumerate().filter(|(k, faults)| *k != kind && !faults.is_empty()).count();
    assert_eq!(others, 0, "{all:?}");
    all[kind].iter().map(|f| format!("{}:{}: {}", f.path, f.line, f.name)).collect()
}

#[test]
fn a_clean_tree_passes() {
    assert!(found(with("README.md", "").top()).iter().all(Vec::is_empty));
}

#[test]
fn an_idle_import() {
    let text = DEFINES.replace("{ℕ}", "{ℕ, ◌∷◌, k as m}\nuse N as P");
    let said = only(with("crates/a/specs/A.antt", &text).top(), 0);
    assert_eq!(said, ["crates/a/specs/A.antt:2: ◌∷◌", "crates/a/specs/A.antt:2: m", "crates/a/specs/A.antt:3: P"]);
    let said = only(with("crates/b/src/lib.rt", &CODE.replace("{f}", "{f, g}")).top(), 0);
    assert_eq!(said, ["crates/b/src/lib.rt:2: g"]);
    let passes = DEFINES.replace("-- Head.", "-- Head.\npub use M.{x}");
    assert_eq!(only(with("crates/a/specs/A.antt", &passes).top(), 0), ["crates/a/specs/A.antt:2: x"]);
}

#[test]
fn a_name_that_is_bound_is_no_use() {
    let text = DEFINES.replace("{ℕ}", "{ℕ, m}").replace("f = 0", "f = (λ m. m) 0");
    assert_eq!(only(with("crates/a/specs/A.antt", &text).top(), 0), ["crates/a/specs/A.antt:2: m"]);
}

#[test]
fn an_idle_definition() {
    let text = format!("{DEFINES}\n  pub idle : ℕ\n  idle = other\n\n  other : ℕ\n  other = idle\n");
    let said = only(with("crates/a/specs/A.antt", &text).top(), 1);
    assert_eq!(said, ["crates/a/specs/A.antt:12: idle", "crates/a/specs/A.antt:15: other"]);
    let made = with("crates/a/specs/A.antt", &text);
    std::fs::create_dir_all(made.top().join("docs")).unwrap();
    std::fs::write(made.top().join("docs/PAGE.md"), "The name `idle` is said here.\n").unwrap();
    assert!(found(made.top()).iter().all(Vec::is_empty));
    let proof = PROOF.replace("pub returns", "idle : goal.T\nidle = f-law\n\npub returns");
    assert_eq!(
        only(with("crates/b/proofs/g/Answers.antt", &proof).top(), 1),
        ["crates/b/proofs/g/Answers.antt:5: idle"]
    );
    let proof = PROOF.replace("pub returns", "pub idle : goal.T\nidle = f-law\n\npub returns");
    assert_eq!(
        only(with("crates/b/proofs/g/Answers.antt", &proof).top(), 1),
        ["crates/b/proofs/g/Answers.antt:5: idle"]
    );
}

#[test]
fn an_idle_dependency() {
    let listed = LISTED.replace("b: a", "b: a io");
    assert_eq!(only(with("crates.txt", &listed).top(), 2), ["crates.txt:3: b: io"]);
    let listed = LISTED.replace("b: a", "b staticlib: a io");
    assert_eq!(only(with("crates.txt", &listed).top(), 2), ["crates.txt:3: b: io"]);
    let made = with("crates/b/src/lib.rt", &CODE.replace("    0\n", "    let io = 0;\n    io\n"));
    std::fs::write(made.top().join("crates.txt"), listed).unwrap();
    assert_eq!(only(made.top(), 2), ["crates.txt:3: b: io"]);
}

#[test]
fn large_functions() {
    let nine = "x: u8, y: u8, z: u8, a: u8, b: u8, c: u8, d: u8, e: u8, f: u8,";
    let text = format!("{CODE}\npub fn h(\n    {nine}\n) {{\n}}\n\npub extern \"C\" fn i({nine}) {{\n}}\n");
    assert_eq!(only(with("crates/b/src/lib.rt", &text).top(), 3), ["crates/b/src/lib.rt:10: h: 9 arguments"]);
    let text = format!("{CODE}\nfn h() {{\n{}}}\n", "    g();\n".repeat(44));
    assert_eq!(only(with("crates/b/src/lib.rt", &text).top(), 4), ["crates/b/src/lib.rt:10: h: 46 lines"]);
}

#[test]
fn a_file_without_a_head() {
    assert_eq!(
        only(with("crates/a/specs/laws/C.antt", "\n-- Late.\n").top(), 5),
        ["crates/a/specs/laws/C.antt:1: no head"]
    );
    for (path, text) in [("a/specs/Lib.antt", "pub mod A\n"), ("b/src/lib.rt", &CODE[9..])] {
        assert_eq!(only(with(&format!("crates/{path}"), text).top(), 5), [format!("crates/{path}:1: no head")]);
    }
    let bare = PROOF.replace("-- b::g: by `f-law`.\n", "");
    let path = "crates/b/proofs/g/Answers.antt";
    assert_eq!(only(with(path, &bare).top(), 5), [format!("{path}:1: no head")]);
    let stale = PROOF.replace("`f-law`.", "`g-law`.");
    assert_eq!(only(with(path, &stale).top(), 5), [format!("{path}:1: the head names g-law, and the proof does not")]);
    let kept = "-- b::g: a loop; `g-kept`.\nuse Rattle.b.proofs.g.Given as goal\n\nabbrev pub keeps : goal.keeps\nkeeps l = 0\n";
    let beside = |head: &str, kept: &str| {
        let made = with(path, head);
        let other = made.top().join("crates/b/proofs/g/Invariants.antt");
        std::fs::write(other, kept).unwrap();
        made
    };
    let mends = bare.replace("f-law\n", "g-kept\n").replace("{f-law}", "{f-law as g-kept}");
    assert!(found(beside(&mends, kept).top()).iter().all(Vec::is_empty));
    let lost = kept.replace("g-kept", "h-kept");
    let other = "crates/b/proofs/g/Invariants.antt";
    assert_eq!(
        only(beside(&mends, &lost).top(), 5),
        [format!("{other}:1: the head names h-kept, and the proof does not")]
    );
    let without = kept.replace("-- b::g: a loop; `g-kept`.\n", "");
    assert_eq!(only(beside(&mends, &without).top(), 5), [format!("{path}:1: no head"), format!("{other}:1: no head")]);
    let other = PROOF.replace("b::g:", "b::h:");
    assert_eq!(only(with(path, &other).top(), 5), [format!("{path}:1: the head does not begin with b::g:")]);
    let theorems = with("crates/a/proofs/Lib.antt", "pub mod C\n");
    assert!(found(theorems.top()).iter().all(Vec::is_empty));
    std::fs::remove_file(theorems.top().join("crates/a/specs/Lib.antt")).unwrap();
    assert_eq!(only(theorems.top(), 5), ["crates/a/proofs/Lib.antt:1: no head"]);
    let lists = [
        "crates/a/specs/laws.antt",
        "crates/a/proofs/laws.antt",
        "crates/b/specs/Lib.antt",
        "crates/b/proofs/Lib.antt",
    ];
    for list in lists {
        assert!(found(with(list, "pub mod C\n").top()).iter().all(Vec::is_empty), "{list}");
    }
}

#[test]
fn crates_that_are_not_listed() {
    assert_eq!(only(with("crates/c/src/lib.rt", "// Head.\n").top(), 8), ["crates/c:1: c"]);
    assert_eq!(only(with("crates.txt", &format!("{LISTED}d:\n")).top(), 8), ["crates.txt:4: d"]);
}

#[test]
fn names_in_two_crates() {
    let code = CODE.replace("pub fn g", "pub struct f {\n    x: u8,\n}\n\npub fn g");
    let said = only(with("crates/b/src/lib.rt", &code).top(), 9);
    assert_eq!(said, ["crates/a/specs/A.antt:4: f", "crates/b/src/lib.rt:4: f"]);
}

#[test]
fn the_number_is_exact() {
    assert!(verdict(3, 3).1 && !verdict(4, 3).1 && !verdict(2, 3).1);
    assert!(verdict(2, 3).0.contains("lower the number"));
}

#[test]
fn laws_stand_apart() {
    let page = "| crates/a/specs/A.antt | `f` | 2 |\n";
    let said = only(with("docs/TRUST.md", page).top(), 7);
    assert_eq!(said, ["crates/a/specs/A.antt:8: f-law"]);
    for path in ["c/specs/laws/C.antt", "c/proofs/laws/C.antt", "c/proofs/C.antt"] {
        let said = only(with("docs/TRUST.md", &format!("| crates/{path} | `f` | 2 |\n")).top(), 6);
        assert_eq!(said, [format!("docs/TRUST.md:1: {path}")]);
    }
}

#[test]
fn a_program_reads_once_and_writes_its_text() {
    let good = "// Head.\nconst STDOUT_FILENO: i32 = 1;\n\nfn main() {\n    let i = format_text::read_input(s);\n    io::write_all(STDOUT_FILENO, text);\n}\n";
    let of = |text: &str| only(with("crates/b/src/main.rt", text).top(), 10);
    assert!(of(good).is_empty());
    let other = good.replace("FILENO, text)", "FILENO, b\"refused 11\")");
    assert_eq!(of(&other), ["crates/b/src/main.rt:1: io::write_all(STDOUT_FILENO, text) 0 times"]);
    let apart = good.replace("i32 = 1;", "i32 = 2;");
    assert_eq!(of(&apart), ["crates/b/src/main.rt:1: const STDOUT_FILENO: i32 = 1; 0 times"]);
    let foreign = good.replace("    io::", "    libc::read();\n    io::");
    assert_eq!(of(&foreign), ["crates/b/src/main.rt:1: libc:: 1 times"]);
    let twice = good.replace("    let i", "    let h = format_text::read_input(s);\n    let i");
    assert_eq!(of(&twice), ["crates/b/src/main.rt:1: format_text::read_input( 2 times"]);
}
