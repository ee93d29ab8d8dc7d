//! Names of any bytes do no harm: nothing of them becomes markup, moves the cursor or passes the 80th column.

mod common;

use common::markup::sections;
use common::{report, Random, Scratch};

/// A tally in which every function is called.
fn tally() -> String {
    let counts: String = (1..256).map(|function| format!("{function} {}\n", 1000 - function)).collect();
    format!("outcome page fixed\ntaken 0 0\nfunction calls\n{counts}")
}

/// Page and text of the tally with these names of the functions 1, 2, ...
fn reports(names: &[Vec<u8>]) -> [String; 2] {
    let lines =
        names.iter().enumerate().map(|(place, name)| [format!("{} ", place + 1).as_bytes(), name, b"\n"].concat());
    let names = Scratch::new(&lines.collect::<Vec<_>>().concat());
    let prices = Scratch::new((1..256).map(|f| format!("{f} 4294967295\n")).collect::<String>().as_bytes());
    let arguments = ["--names", names.name(), "--prices", prices.name(), "--text"];
    [&arguments[..4], &arguments].map(|arguments| report(arguments, tally().as_bytes()).whole())
}

/// Columns of a terminal, counted more generously than a terminal does: two for every character that may be wide.
fn columns(line: &str) -> usize {
    line.chars().map(|c| if u32::from(c) < 0x1100 || c == '\u{fffd}' { 1 } else { 2 }).sum()
}

const MARKUP: [&str; 14] = [
    "<script>alert(1)</script>", "</td></tr></table><h1>", "\"><img src=x onerror=alert(1)>",
    "' onmouseover='alert(1)", "&lt;b&gt; &amp; &#x3c; &", "<!-- ", "-->", "]]>", "</style><style>*{display:none}",
    "</title>", "{{name}} ${name} %s %n", "javascript:alert(1)", "\u{202f}thin 1\u{202f}000", "=cmd|' /C calc'!A0",
];

#[test]
fn markup_stays_text() {
    let names: Vec<Vec<u8>> = MARKUP.iter().map(|name| name.as_bytes().to_vec()).collect();
    let [page, text] = reports(&names);
    let sections = sections(&page);
    for part in ["Functions by calls", "Energy"] {
        let section = sections.iter().find(|section| section.heading == part).unwrap();
        for (place, name) in MARKUP.iter().enumerate() {
            let row = format!("\n{}\n{}\n", place + 1, name.trim());
            assert!(format!("\n{}", section.text).contains(&row), "{name}");
        }
    }
    let coverage = sections.iter().find(|section| section.heading == "Coverage").unwrap();
    let titles: Vec<&str> = coverage.tags.iter().filter_map(|tag| tag.attribute("title")).collect();
    for (place, name) in MARKUP.iter().enumerate() {
        assert_eq!(titles[place + 1], format!("{} {name}: {} calls", place + 1, 999 - place));
    }
    assert!(text.lines().all(|line| columns(line) <= 80));
}

#[test]
fn bytes_that_are_not_to_be_shown() {
    const GONE: &str = "\u{fffd}";
    let pairs: [(&[u8], String); 18] = [
        (b"a\0b", format!("a{GONE}b")),
        (b"a\x1b[2Jb", format!("a{GONE}[2Jb")),
        (b"a\rb", format!("a{GONE}b")),
        (b"a\x08b", format!("a{GONE}b")),
        (b"a\x7fb", format!("a{GONE}b")),
        (b"a\tb", format!("a{GONE}b")),
        (b"a\xffb", format!("a{GONE}b")),
        (b"a\xe5\x90", format!("a{GONE}")),
        (b"a\xed\xa0\x80b", format!("a{GONE}{GONE}{GONE}b")),
        ("a\u{85}b".as_bytes(), format!("a{GONE}b")),
        ("a\u{9b}2Jb".as_bytes(), format!("a{GONE}2Jb")),
        ("a\u{202e}b".as_bytes(), format!("a{GONE}b")),
        ("a\u{2066}b".as_bytes(), format!("a{GONE}b")),
        ("a\u{200f}b".as_bytes(), format!("a{GONE}b")),
        ("a\u{2028}b".as_bytes(), format!("a{GONE}b")),
        ("a\u{ffff}b".as_bytes(), format!("a{GONE}b")),
        ("a\u{1fffe}b".as_bytes(), format!("a{GONE}b")),
        ("a\u{fdd0}b".as_bytes(), format!("a{GONE}b")),
    ];
    let names: Vec<Vec<u8>> = pairs.iter().map(|(name, _)| name.to_vec()).collect();
    let [page, text] = reports(&names);
    for (place, (name, shown)) in pairs.iter().enumerate() {
        let function = place + 1;
        assert!(page.contains(&format!("\">{function}</th><td class=\"name\"><span>{shown}</span></td>")), "{name:?}");
        assert!(page.contains(&format!("title=\"{function} {shown}: ")), "{name:?}");
        let row = |line: &str| {
            line.split_whitespace().next() == Some(&function.to_string()) && line.ends_with(&format!("  {shown}"))
        };
        assert_eq!(text.lines().filter(|line| row(line)).count(), 2, "{name:?}");
    }
    assert!([&page, &text].iter().all(|report| report.chars().all(|c| c == '\n' || !c.is_control())));
}

/// On a page 80 characters of a name are shown, and the whole is in its tooltip.
#[test]
fn long_names() {
    let signs = ["x", "ü", "名", "😀", "\u{301}", "word ", "ｆ"];
    let names: Vec<Vec<u8>> = signs.iter().map(|sign| sign.repeat(3000).into_bytes()).collect();
    let [page, text] = reports(&names);
    for (name, sign) in names.iter().zip(signs) {
        let whole = String::from_utf8(name.clone()).unwrap();
        let shown: String = sign.repeat(80).chars().take(80).collect();
        let cell = format!("<td class=\"name\" title=\"{whole}\"><span>{shown}…</span></td>");
        assert_eq!(page.matches(&cell).count(), 2, "by calls and by energy");
        assert_eq!(page.matches(&whole).count(), 3, "in tooltips alone, that of the map too");
    }
    let just: Vec<Vec<u8>> = vec!["y".repeat(80).into_bytes()];
    assert!(reports(&just)[0].contains(&format!("<td class=\"name\"><span>{}</span></td>", "y".repeat(80))));
    // Also the sentence about the most called function.
    assert!(text.lines().all(|line| columns(line) <= 80));
    assert!(text.matches("...\n").count() >= 2 * names.len() && text.contains("xxx...) was called"), "cut in a text");
}

#[test]
fn names_of_random_bytes() {
    for seed in 0..30 {
        let mut random = Random(seed);
        let name = |random: &mut Random| {
            let length = 1 + random.below(200);
            let any = (0..length).map(|_| match random.below(4) {
                0 => random.draw() as u8,
                1 => random.pick(b"<>&\"' ;=/"),
                2 => random.pick(&[0xe5, 0x90, 0x8d, 0xf0, 0x9f, 0x98, 0x80, 0xcc, 0x81]),
                _ => b'a' + random.below(26) as u8,
            });
            any.map(|byte| if byte == b'\n' { b'?' } else { byte }).collect()
        };
        let names: Vec<Vec<u8>> = (1..256).map(|_| name(&mut random)).collect();
        let [page, text] = reports(&names);
        assert_eq!(sections(&page).iter().filter(|section| section.heading == "Coverage").count(), 1);
        assert!(text.lines().all(|line| columns(line) <= 80));
        assert!([&page, &text].iter().all(|report| report.chars().all(|c| c == '\n' || !c.is_control())));
    }
}

#[test]
fn a_file_with_a_hostile_name() {
    let file = Scratch::new(tally().as_bytes());
    let folder = file.0.parent().unwrap();
    let name = folder.join("<b>&\u{1b}[2J\n'\"x".to_string() + &"n".repeat(150));
    std::fs::copy(&file.0, &name).unwrap();
    let path = name.to_str().unwrap();
    let page = report(&[path], b"").whole();
    let text = report(&["--text", path], b"").whole();
    let wrong = report(&["--names", path], b"");
    let _ = std::fs::remove_file(&name);
    assert!(sections(&page)[0].text.contains("<b>&\u{fffd}[2J\u{fffd}'\"xnnn"));
    assert!(text.lines().all(|line| columns(line) <= 80 && !line.contains('\u{1b}')));
    assert!(wrong.complaint().contains("line 1: ") && !wrong.error.contains('\u{1b}'));
}
