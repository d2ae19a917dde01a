//! `text` and `make`: a plan as lines and back, and lines that are refused, read once more here.

use crate::places;
use crate::tool::Tool;
use oracle::plan::Plan;
use oracle::rng::Rng;

/// What `text` prints.
fn lines(plan: &Plan) -> String {
    let links = plan.links.iter().map(|l| format!("link {} {} {} {}\n", l.lower, l.higher, l.at_lower, l.at_higher));
    let head = "# link: lower module, higher module, the reading at each in tenths of a decibel";
    format!("{head}\nmodules {}\n{}", plan.modules, links.collect::<String>())
}

/// Bytes to lines to bytes, and lines to bytes to lines.
pub fn there_and_back(tool: &Tool, plan: &Plan) {
    let bytes = plan.encode();
    let text = tool.text(&["text", "-"], &bytes);
    assert_eq!(text, lines(plan));
    assert_eq!(tool.done(&["make", "-"], text.as_bytes()), bytes);
    assert_eq!(tool.text(&["text", "-"], &bytes), text);
}

fn numbers<const COUNT: usize>(words: &[&[u8]]) -> Option<[u16; COUNT]> {
    let number = |word: &&[u8]| {
        let digits = word.iter().all(u8::is_ascii_digit);
        digits.then(|| std::str::from_utf8(word).unwrap().parse::<u16>().ok()).flatten()
    };
    let read: Option<Vec<u16>> = words.iter().map(number).collect();
    read?.try_into().ok()
}

/// A text as a plan, or the number of the line that is refused.
fn read(text: &[u8]) -> Result<Plan, usize> {
    let (mut modules, mut links, mut last) = (None, Vec::new(), 1);
    let ends_line = |i: &usize| text[*i] == b'\r' && text.get(i + 1) == Some(&b'\n');
    let text: Vec<u8> = (0..text.len()).filter(|i| !ends_line(i)).map(|i| text[i]).collect();
    let whole = text.strip_suffix(b"\n").unwrap_or(&text);
    for (i, line) in whole.split(|c| *c == b'\n').enumerate() {
        last = i + 1;
        let content = line.split(|c| *c == b'#').next().unwrap();
        let words: Vec<&[u8]> = content.split(|c| b" \t".contains(c)).filter(|w| !w.is_empty()).collect();
        if line.contains(&0) || content.len() > 255 {
            return Err(last);
        }
        match words.first() {
            None => {}
            Some(&b"modules") if modules.is_none() => {
                let [n] = numbers(&words[1..]).ok_or(last)?;
                modules = Some((n, last));
            }
            Some(&b"link") if links.len() < 600 => {
                let [lower, higher, at_lower, at_higher] = numbers(&words[1..]).ok_or(last)?;
                links.push((oracle::plan::Link { lower, higher, at_lower, at_higher }, last));
            }
            Some(_) => return Err(last),
        }
    }
    let (n, first) = modules.ok_or(last)?;
    let plan = Plan { modules: n, links: links.iter().map(|l| l.0).collect() };
    match plan.check() {
        Ok(()) => Ok(plan),
        Err(14) => Err(first),
        Err(number) => Err(links[places::of_value(number, &plan).1.unwrap()].1),
    }
}

/// Compares what `make` says of a text; true where it is taken.
pub fn compare(tool: &Tool, text: &[u8]) -> bool {
    let ran = tool.run(&["make", "-"], text);
    let shown = || String::from_utf8_lossy(text);
    match read(text) {
        Ok(plan) => assert_eq!((ran.code, ran.out), (0, plan.encode()), "{} {}", ran.err, shown()),
        Err(line) => {
            assert_eq!((ran.code, ran.out.len()), (1, 0), "{}", shown());
            let begin = format!("muruapy: standard input: line {line}: ");
            assert!(ran.err.starts_with(&begin), "{} is not of line {line}: {}", ran.err, shown());
        }
    }
    ran.code == 0
}

/// The lines of a plan as somebody else may write them: spaces, zeros, comments, either line end, `modules` last.
pub fn otherwise_written(rng: &mut Rng, plan: &Plan) -> Vec<u8> {
    let mut out: Vec<String> = Vec::new();
    for line in lines(plan).lines().skip(1) {
        let space = rng.pick(&[" ", "  ", "\t", " \t "]);
        let number = |w: &str| if w.starts_with(|c: char| c.is_ascii_digit()) { format!("00{w}") } else { w.into() };
        let words: Vec<String> = line.split(' ').map(number).collect();
        let behind = rng.pick(&["", " ", "# a comment", "\t# \u{e9} # x"]);
        out.push(format!("{}{}{behind}", rng.pick(&["", " "]), words.join(space)));
        if rng.once_in(3) {
            out.push(rng.pick(&["", "   ", "#", "# modules 3", &"#".repeat(5000)]).into());
        }
    }
    if rng.once_in(2) {
        let first = out.remove(0);
        out.push(first);
    }
    let end = rng.pick(&["\n", "\r\n"]);
    let last = if rng.once_in(2) { end } else { "" };
    (out.join(end) + last).into_bytes()
}

/// Damages a text: a byte, a word, a line.
pub fn damage(rng: &mut Rng, text: &[u8]) -> Vec<u8> {
    let mut lines: Vec<Vec<u8>> = text.split(|c| *c == b'\n').map(<[u8]>::to_vec).collect();
    let i = rng.below(lines.len());
    match rng.below(9) {
        0 => drop(lines.remove(i)),
        1 => lines.insert(i, lines[i].clone()),
        2 => lines.insert(i, rng.pick::<&[u8]>(&[b"modules 3", b"module 3", b"link", b"link 0 1 2", b"x"]).to_vec()),
        3 => lines[i].extend(rng.pick::<&[u8]>(&[b"0", b" 1", b" -1", b" 1.5", b"99999", b" x", b"\0", b"#\0"])),
        4 => lines[i] = lines[i].split(|c| *c == b' ').next().unwrap().to_vec(),
        5 => lines[i].extend(vec![b' '; rng.pick(&[200, 240, 256, 5000])]),
        6 => {
            let j = rng.below(lines.len());
            lines.swap(i, j);
        }
        _ => {
            let at = rng.below(lines[i].len().max(1));
            if let Some(byte) = lines[i].get_mut(at) {
                *byte = rng.pick::<u8>(b"0123456789 \t\r\r\x0b\x0c#-.lm\xff\x01");
            }
        }
    }
    lines.join(&b'\n')
}
