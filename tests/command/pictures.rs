//! `dot` and `svg`: every module and link is there, drawn as the tree and the core have it.

use crate::tool::Tool;
use oracle::kruskal;
use oracle::plan::Plan;
use oracle::report::report;
use std::collections::{BTreeMap, BTreeSet};

/// The two numbers of each of the report's lines `core`, in their order; none for a part of one.
fn core(plan: &Plan) -> Vec<u16> {
    let report = report(&plan.encode());
    let lines = report.lines().filter_map(|l| l.strip_prefix("core "));
    lines.flat_map(|l| l.split(' ').filter_map(|word| word.parse().ok())).collect()
}

fn caption(plan: &Plan, tree: &[u8], core: &[u16]) -> String {
    let total: u32 = (0..tree.len()).filter(|k| tree[*k] == 1).map(|k| plan.cost(k as u16)).sum();
    let cores: String = core.chunks(2).map(|ends| format!(", core {} {}", ends[0], ends[1])).collect();
    let cores = if core.is_empty() { ", core none" } else { &cores };
    format!("{} modules, {} links, tree of cost {total}{cores}", plan.modules, plan.links.len())
}

/// The lines of `dot`, one by one.
pub fn dot(tool: &Tool, plan: &Plan) -> String {
    let (tree, core) = (kruskal::tree(plan), core(plan));
    let mut expected = vec!["graph muruapy {".to_string()];
    expected.push(format!("    label=\"{}\";", caption(plan, &tree, &core)));
    expected.push("    node [shape=circle];".into());
    for v in 0..plan.modules {
        let mark = if core.contains(&v) { " [shape=doublecircle]" } else { "" };
        expected.push(format!("    {v}{mark};"));
    }
    for (k, link) in plan.links.iter().enumerate() {
        let solid = format!("label=\"{}\"", plan.cost(k as u16));
        let look = if tree[k] == 1 { solid } else { "style=dotted".into() };
        expected.push(format!("    {} -- {} [{look}];", link.lower, link.higher));
    }
    expected.push("}\n".into());
    let printed = tool.text(&["dot", "-"], &plan.encode());
    assert_eq!(printed, expected.join("\n"));
    printed
}

/// An element: its name, its attributes with those of the groups around it, its text.
struct Element {
    name: String,
    attributes: BTreeMap<String, String>,
    text: String,
}

impl Element {
    /// An attribute in tenths: digits, a point, one digit.
    fn tenths(&self, name: &str) -> i64 {
        let (whole, tenth) = self.attributes[name].split_once('.').expect("one decimal");
        assert!(tenth.len() == 1 && !whole.starts_with('-'), "{name}");
        whole.parse::<i64>().unwrap() * 10 + tenth.parse::<i64>().unwrap()
    }
}

/// The attributes of a tag, each `name="value"` and there once.
fn attributes(tag: &str) -> BTreeMap<String, String> {
    let mut found = BTreeMap::new();
    let mut rest = tag;
    while let Some((name, more)) = rest.split_once("=\"") {
        let (value, behind) = more.split_once('"').expect("a closing quote");
        assert!(!value.contains(['<', '&']), "{value}");
        let name = name.strip_prefix(' ').expect("a space").to_string();
        assert!(name.chars().all(|c| c.is_ascii_alphanumeric() || c == '-'), "{name}");
        assert!(found.insert(name, value.to_string()).is_none());
        rest = behind;
    }
    assert_eq!(rest, "", "a tag's end");
    found
}

/// Reads XML of elements, attributes and text, and panics where it is not well-formed.
fn elements(text: &str) -> Vec<Element> {
    let (mut all, mut open): (Vec<Element>, Vec<usize>) = (Vec::new(), Vec::new());
    let mut rest = text;
    while let Some((before, more)) = rest.split_once('<') {
        assert!(!before.contains(['&', '>']));
        match open.last() {
            Some(i) => all[*i].text += before,
            None => assert_eq!(before.trim(), ""),
        }
        let (tag, behind) = more.split_once('>').expect("a tag's end");
        rest = behind;
        if let Some(name) = tag.strip_prefix('/') {
            let i = open.pop().expect("an open element");
            assert_eq!(all[i].name, name);
            continue;
        }
        let (tag, empty) = (tag.strip_suffix('/').unwrap_or(tag), tag.ends_with('/'));
        let (name, behind) = tag.split_at(tag.find(' ').unwrap_or(tag.len()));
        let mut own = attributes(behind);
        for (name, value) in open.last().map(|i| all[*i].attributes.clone()).unwrap_or_default() {
            own.entry(name).or_insert(value);
        }
        assert!(!open.is_empty() || all.is_empty(), "one element holds all");
        all.push(Element { name: name.into(), attributes: own, text: String::new() });
        if !empty {
            open.push(all.len() - 1);
        }
    }
    assert!(open.is_empty() && rest.trim().is_empty());
    all
}

/// A picture with what it should show.
struct Picture<'a> {
    plan: &'a Plan,
    tree: Vec<u8>,
    core: Vec<u16>,
    all: Vec<Element>,
}

type Point = (i64, i64);

impl Picture<'_> {
    fn named<'b>(&'b self, name: &'b str) -> impl Iterator<Item = &'b Element> {
        self.all.iter().filter(move |e| e.name == name)
    }

    /// The numbers of the links that are in the tree, or of those that are not.
    fn links(&self, tree: bool) -> impl Iterator<Item = usize> + '_ {
        (0..self.tree.len()).filter(move |k| (self.tree[*k] == 1) == tree)
    }

    /// Texts are the costs, then the modules' numbers, then the caption.
    fn texts(&self) -> (Vec<&Element>, Vec<&Element>, &Element) {
        let mut costs: Vec<&Element> = self.named("text").collect();
        assert_eq!(costs.len(), self.links(true).count() + self.plan.modules as usize + 1);
        let caption = costs.pop().unwrap();
        let modules = costs.split_off(costs.len() - self.plan.modules as usize);
        (costs, modules, caption)
    }

    /// Where each module stands: its number within its disc, two rings at the core's ends, all of it in the picture.
    fn places(&self) -> Vec<Point> {
        let size: Vec<i64> = self.all[0].attributes["viewBox"].split(' ').map(|w| w.parse().unwrap()).collect();
        let inside = |x: i64, y: i64| (0..=10 * size[2]).contains(&x) && (0..=10 * size[3]).contains(&y);
        let discs: Vec<_> = self.named("circle").map(|e| (e.tenths("cx"), e.tenths("cy"), e.tenths("r"))).collect();
        assert_eq!(discs.len(), self.plan.modules as usize + self.core.len());
        let place = |(v, e): (usize, &&Element)| {
            assert_eq!(e.text, v.to_string());
            let near = |d: &&(i64, i64, i64)| d.0 == e.tenths("x") && (d.1 - e.tenths("y")).abs() < 60;
            let rings: Vec<_> = discs.iter().filter(near).collect();
            assert_eq!(rings.len(), 1 + self.core.contains(&(v as u16)) as usize, "rings of module {v}");
            let (x, y, r) = *rings[0];
            assert!(inside(x - r, y - r) && inside(x + r, y + r), "module {v} is outside");
            (x, y)
        };
        self.texts().1.iter().enumerate().map(place).collect()
    }

    /// The lines of the tree are solid, those of other links dotted; each joins its modules, in the links' order.
    fn check_lines(&self, at: &[Point]) {
        let line = |e: &Element| ((e.tenths("x1"), e.tenths("y1")), (e.tenths("x2"), e.tenths("y2")));
        for tree in [false, true] {
            let drawn = self.named("line").filter(|e| e.attributes.contains_key("stroke-dasharray") != tree).map(line);
            let links = self.links(tree).map(|k| self.plan.links[k]);
            assert!(drawn.eq(links.map(|l| (at[l.lower as usize], at[l.higher as usize]))), "the lines");
        }
    }
}

/// No two modules meet.
fn check_apart(at: &[Point]) {
    for (v, a) in at.iter().enumerate() {
        for b in &at[..v] {
            let (dx, dy) = (a.0 - b.0, a.1 - b.1);
            assert!(dx * dx + dy * dy > 500 * 500, "module {v} is too near to another");
        }
    }
}

pub fn svg(tool: &Tool, plan: &Plan) {
    let printed = tool.text(&["svg", "-"], &plan.encode());
    let picture = Picture { plan, tree: kruskal::tree(plan), core: core(plan), all: elements(&printed) };
    let first = &picture.all[0];
    assert!(first.name == "svg" && first.attributes["xmlns"] == "http://www.w3.org/2000/svg");
    assert!(!["href", "url", "script", "style"].iter().any(|w| printed.contains(w)), "another resource");
    let (costs, _, last) = picture.texts();
    assert_eq!(last.text, caption(plan, &picture.tree, &picture.core));
    let at = picture.places();
    check_apart(&at);
    picture.check_lines(&at);
    let expected = picture.links(true).map(|k| plan.cost(k as u16).to_string());
    assert!(costs.iter().map(|e| e.text.clone()).eq(expected), "the costs");
    let places: BTreeSet<Point> = costs.iter().map(|e| (e.tenths("x"), e.tenths("y"))).collect();
    assert_eq!(places.len(), costs.len(), "two costs stand at one place");
}
