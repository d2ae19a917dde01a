use crate::antt::{parse, Sort};
use crate::words::Token;
use crate::{rattle, Target, Tree};

#[path = "made.rs"]
mod made;
use made::Made;

/// What an item names, as "file:name" for the tree's own.
fn named(tree: &Tree, name: &str) -> Vec<String> {
    let (f, _, _, item) = tree.all().find(|(.., item)| item.name == name).unwrap();
    let say = |t: Target| match &t {
        Target::Outside(module, name) => format!("{module}.{name}"),
        Target::Item(..) => {
            tree.item(&t).map(|(file, item)| format!("{}/{}", file.module.join("."), item.name)).unwrap()
        }
    };
    tree.names(f, item).into_iter().map(say).collect()
}

fn one_file(text: &str) -> Made {
    Made::new(&[("crates/a/specs/A.antt", text)])
}

#[test]
fn sections_and_clauses() {
    let text = "-- head\nmodule _ (p : P) where\n  pub f : ℕ → ℕ\n  f n =\n      n\n    where\n      g : ℕ\n      g = 0\n\n  module _ (q : Q) where\n    h : ℕ\n    unfolding f\n    h = f 1\n\nk : ℕ\nk = 2\n";
    let items = parse(text).items;
    let said: Vec<_> = items.iter().map(|i| (i.name.as_str(), i.line, i.lines, i.public)).collect();
    assert_eq!(said, [("f", 3, 6, true), ("h", 11, 2, false), ("k", 15, 2, false)]);
    assert_eq!(items[1].aside.len(), 1);
}

#[test]
fn what_a_section_opens() {
    let made = one_file("record R : Type 0 where\n  x : ℕ\n\nr : R\nr = record { x = 0 }\n\nmodule _ (p : P) where\n  open r use {x}\n\n  f : ℕ\n  f = 0\n\ng : ℕ\ng = 0\n");
    let tree = Tree::load(made.top());
    assert_eq!(named(&tree, "f"), ["specs.A/r", "specs.A/f"]);
    assert_eq!(named(&tree, "g"), ["specs.A/g"]);
}

#[test]
fn records_and_data() {
    let text = "pub record R (n : ℕ) : Type 0 where\n  pub a b : ℕ\n  -- note\n  pub c : a ≡ b\n\npub data D : Type 0 where\n  one : ℕ → D\n  two : D\n";
    let items = parse(text).items;
    assert_eq!((items[0].sort, items[0].members.join(" ").as_str(), items[0].lines), (Sort::Record, "a b c", 3));
    assert_eq!((items[1].sort, items[1].members.join(" ").as_str()), (Sort::Data, "one two"));
}

#[test]
fn imports() {
    let uses = parse("use M.N.{a, b as c, ◌∷◌}\npub use M.{d,\n  e}\nuse M.O as P\nuse M.Q\n").uses;
    assert_eq!(uses[0].names, [("a", "a"), ("b", "c"), ("◌∷◌", "◌∷◌")].map(|(x, y)| (x.to_string(), y.to_string())));
    assert!(uses[1].public && uses[1].names.len() == 2 && !uses[0].public);
    assert_eq!((uses[2].alias.as_deref(), uses[3].alias.as_deref()), (Some("P"), Some("Q")));
}

#[test]
fn what_is_bound_is_not_named() {
    let made = one_file("x : ℕ\nx = 0\n\ny : ℕ\ny = 0\n\nf : (x : ℕ) → ℕ\nf x = x\n\ng : ℕ → ℕ\ng n = h (λ x. x) y\n\nh : ℕ\nh = record { x = y; y = (λ y. 0) }\n\nk : ℕ\nk = (λ x. x) x\n\nm : ℕ\nm = let y = let x = 1 in y in let x = x in y\n");
    let tree = Tree::load(made.top());
    assert_eq!(named(&tree, "f"), ["specs.A/f"]);
    assert_eq!(named(&tree, "g"), ["specs.A/y", "specs.A/g", "specs.A/h"]);
    assert_eq!(named(&tree, "h"), ["specs.A/y", "specs.A/h"]);
    assert_eq!(named(&tree, "k"), ["specs.A/x", "specs.A/k"]);
    assert_eq!(named(&tree, "m"), ["specs.A/x", "specs.A/y", "specs.A/m"]);
}

#[test]
fn what_a_case_binds_is_not_named() {
    let made = one_file("x : ℕ\nx = 0\n\ny : ℕ\ny = 0\n\npub data D : Type 0 where\n  one : D\n  two : D → D\n\nf : D → ℕ\nf d = elim d [\n      | one ↦ 0\n      | two x ↦ g x (elim x [ one ↦ y | two y ↦ 0 ])\n    ]\n\ng : ℕ\ng = elim one [ two x ↦ 0 ] x\n");
    let tree = Tree::load(made.top());
    assert_eq!(named(&tree, "f"), ["specs.A/y", "specs.A/D", "specs.A/f", "specs.A/g"]);
    assert_eq!(named(&tree, "g"), ["specs.A/x", "specs.A/D", "specs.A/g"]);
}

#[test]
fn a_field_is_bound_behind_its_line() {
    let made = one_file("x : ℕ\nx = 0\n\nrecord R : Type 0 where\n  a : P x\n  x : P a\n  b : P x\n\nrecord S : Type 0 where\n  x : ℕ\n  b : P x\n");
    let tree = Tree::load(made.top());
    assert_eq!(named(&tree, "R"), ["specs.A/x", "specs.A/R"]);
    assert_eq!(named(&tree, "S"), ["specs.A/S"]);
}

#[test]
fn names_through_modules() {
    let made = Made::new(&[
        ("crates/a/specs/A.antt", "pub data D : Type 0 where\n  one : D\n\npub ◌⊕◌ : D → D → D\nx ⊕ y = x\n"),
        ("crates/a/specs/laws/B.antt", "pub use Rattle.a.specs.A.{D as E, one}\n\npub b : E\nb = one\n"),
        ("crates/c/src/lib.rt", "pub struct S {\n    pub n: u16,\n}\n\npub enum T {\n    S,\n    Two(u8),\n    Three = 3,\n    Four { n: u8 },\n}\n\npub const MOST: u16 = 9;\n"),
        ("crates/c/specs/C.antt", "use Rattle.a.specs.laws.B.{E, one}\nuse Rattle.a.specs.A.{◌⊕◌}\nuse Rattle.a.specs.laws.B as L\nuse Rattle.c.specs.declared.S.{S}\n\nf : S → E\nf one = L.b ⊕ one\n"),
        ("crates/c/proofs/C.antt", "use Rattle.c.specs.declared.T.TheVariants.{S, Two, Three, Four}\nuse Rattle.c.specs.declared.TheConstants.{MOST}\n\ng : ℕ\ng = h S Two Three Four MOST\n"),
    ]);
    let tree = Tree::load(made.top());
    let names = named(&tree, "f");
    assert_eq!(names, ["specs.A/D", "specs.A/◌⊕◌", "specs.laws.B/b", "specs.C/f", "src.lib/S"]);
    assert_eq!(named(&tree, "g"), ["proofs.C/g", "src.lib/T", "src.lib/MOST"]);
}

#[test]
fn functions_and_contracts() {
    let text = "// head\nuse plan::Plan;\nghost use M.{spec, at};\n\n// says\npub fn f<'a>(at: u16, s: &'a [u8]) -> Plan\n    requires { at < 3 }\n    ensures { result ≡ spec at\n        s.now }\n{\n    if b'{' == s[0] {\n        return g(at);\n    }\n    g(at)\n}\n\n#[unsafe(no_mangle)]\npub extern \"C\" fn g() {\n}\n";
    let source = rattle::parse(text);
    let said: Vec<_> =
        source.functions.iter().map(|f| (f.name.as_str(), f.line, f.lines, f.arguments, f.exported)).collect();
    assert_eq!(said, [("f", 6, 10, 2, false), ("g", 18, 2, 0, true)]);
    let made = Made::new(&[("crates/a/src/lib.rt", text)]);
    let tree = Tree::load(made.top());
    assert_eq!(named(&tree, "f"), ["M.spec"]);
}

#[test]
fn methods_and_attributes() {
    let text = "// head\nimpl S {\n    ghost use M.{spec, body, MOST};\n\n    // says\n    #[tactic(auto, using(crate::proofs::P::law, b::specs::B::f), unfolding(c::specs::C::g))]\n    pub fn f(self) -> u8\n        ensures { result ≡ spec }\n    {\n        body(0..d::MOST)\n    }\n}\n";
    let made = Made::new(&[("crates/a/src/lib.rt", text)]);
    let tree = Tree::load(made.top());
    assert_eq!(named(&tree, "f"), ["M.spec", "Rattle.a.proofs.P.law", "Rattle.b.specs.B.f"]);
    let words = tree.files[0].items[0].aside.iter().flat_map(|g| &g.tokens).filter_map(|t| match &t.token {
        Token::Word(path) if path.len() > 1 => Some(path.join("::")),
        _ => None,
    });
    let said = ["d::MOST", "crate::proofs::P::law", "b::specs::B::f", "c::specs::C::g"];
    assert_eq!(words.collect::<Vec<_>>(), said);
}

#[test]
fn clauses_with_names() {
    let text = "fn f(s: &mut [u8], k: u8)\n    ghost top: { T }\n    requires* free { held top }\n    requires low { b' < k }\n    ensures high {\n        let x = s.new in result ≡ x\n    }\n    ensures { b' ≡ k }\n{\n    g(b'\\'', b'}')\n}\n\nfn g() {\n}\n";
    let uses = "// head\nghost use M.{T, held, top, low, free, high, result, x, b', s};\n\n";
    let made = Made::new(&[("crates/a/src/lib.rt", &format!("{uses}{text}"))]);
    let tree = Tree::load(made.top());
    assert_eq!(named(&tree, "f"), ["M.T", "M.b'", "M.held"]);
    let said: Vec<_> = tree.files[0].functions.iter().map(|f| (f.name.as_str(), f.lines, f.arguments)).collect();
    assert_eq!(said, [("f", 11, 2), ("g", 2, 0)]);
}

#[test]
fn imports_of_code() {
    let uses = rattle::parse("use a::B;\npub use a::{C, d::{e, F as G},\n    H};\nuse k as l;\n").parsed.uses;
    let said: Vec<_> = uses.iter().map(|u| (u.path.join("::"), u.alias.clone().unwrap(), u.public)).collect();
    let want = [("a::B", "B", false), ("a::C", "C", true), ("a::d::e", "e", true), ("a::d::F", "G", true)];
    let want = want.into_iter().chain([("a::H", "H", true), ("k", "l", false)]);
    assert_eq!(said, want.map(|(p, a, public)| (p.to_string(), a.to_string(), public)).collect::<Vec<_>>());
}

#[test]
fn the_listing() {
    let made = Made::new(&[("crates.txt", "# Of all.\na:\nb staticlib: a io\n")]);
    let listed = Tree::load(made.top()).listed;
    let said: Vec<_> = listed.iter().map(|(line, name, named)| (*line, name.as_str(), named.join(" "))).collect();
    assert_eq!(said, [(2, "a", String::new()), (3, "b", "a io".to_string())]);
}
