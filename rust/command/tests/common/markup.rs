//! Reads a page strictly: what is not well formed fails the test.

/// A tag with its attributes.
#[derive(Clone, Debug)]
pub struct Tag {
    pub name: String,
    pub attributes: Vec<(String, String)>,
}

impl Tag {
    pub fn attribute(&self, name: &str) -> Option<&str> {
        self.attributes.iter().find(|(own, _)| own == name).map(|(_, value)| value.as_str())
    }
}

/// A part of the page with its heading. What stands before the first has none.
#[derive(Default, Debug)]
pub struct Section {
    pub heading: String,
    /// The text outside the tags, a line for each stretch of it, without the heading.
    pub text: String,
    pub tags: Vec<Tag>,
}

const VOID: [&str; 2] = ["meta", "input"];
const KNOWN: [&str; 30] = [
    "html", "head", "meta", "title", "style", "body", "main", "header", "h1", "h2", "p", "div", "section", "ul", "li",
    "b", "span", "table", "caption", "thead", "tbody", "tr", "th", "td", "input", "label", "svg", "path", "rect",
    "footer",
];

/// The page's parts. Tags are closed in their order, attributes quoted, and nothing runs or comes from elsewhere.
pub fn sections(page: &str) -> Vec<Section> {
    let mut rest = page.strip_prefix("<!DOCTYPE html>\n").expect("the page says that it is HTML");
    let mut open: Vec<String> = vec![];
    let mut sections = vec![Section::default()];
    while let Some(start) = rest.find('<') {
        let text = decoded(&rest[..start]);
        let section = sections.last_mut().expect("there is one from the beginning on");
        match open.last().map(String::as_str) {
            Some("h2") => section.heading += &text,
            _ if text.trim().is_empty() => {}
            _ => section.text += &format!("{}\n", text.trim()),
        }
        let end = start + rest[start..].find('>').expect("a tag ends");
        let tag = &rest[start + 1..end];
        rest = &rest[end + 1..];
        if let Some(name) = tag.strip_prefix('/') {
            assert_eq!(open.pop().as_deref(), Some(name), "closed in their order");
            continue;
        }
        let alone = tag.ends_with('/');
        let tag = read(tag.trim_end_matches('/'));
        let name = tag.name.clone();
        if name == "section" || name == "footer" {
            sections.push(Section::default());
        }
        sections.last_mut().expect("as above").tags.push(tag);
        if name == "style" {
            rest = style(rest);
        } else if !alone && !VOID.contains(&name.as_str()) {
            open.push(name);
        }
    }
    assert!(open.is_empty() && rest.trim().is_empty(), "everything is closed");
    sections
}

/// Skips the style sheet.
fn style(rest: &str) -> &str {
    let (style, rest) = rest.split_once("</style>").expect("the style sheet ends");
    assert!(!style.contains('<') && !style.contains("url(") && !style.contains("@import"), "it needs nothing else");
    rest
}

fn read(tag: &str) -> Tag {
    let (name, mut rest) = tag.split_once(' ').unwrap_or((tag, ""));
    assert!(!name.is_empty() && KNOWN.contains(&name), "an unknown tag: {tag}");
    let mut attributes = vec![];
    while !rest.trim().is_empty() {
        let (name, value) = rest.trim_start().split_once("=\"").expect("a quoted attribute");
        let (value, after) = value.split_once('"').expect("the quotes end");
        let known = [
            "lang", "charset", "name", "content", "http-equiv", "class", "style", "title", "scope", "type", "id", "for",
        ];
        let drawn =
            ["role", "aria-label", "aria-hidden", "viewBox", "preserveAspectRatio", "d", "x", "y", "width", "height"];
        assert!(
            known.contains(&name) || drawn.contains(&name) || name == "stroke-width",
            "an unknown attribute: {name}"
        );
        attributes.push((name.to_string(), decoded(value)));
        rest = after;
    }
    Tag { name: name.to_string(), attributes }
}

fn decoded(text: &str) -> String {
    assert!(!text.contains(['<', '>', '"', '\'']), "not escaped: {text}");
    let mut parts = text.split('&');
    let mut plain = parts.next().unwrap_or("").to_string();
    for part in parts {
        let (entity, after) = part.split_once(';').expect("an entity ends");
        plain += match entity {
            "amp" => "&",
            "lt" => "<",
            "gt" => ">",
            "quot" => "\"",
            "#39" => "'",
            _ => panic!("an unknown entity: {entity}"),
        };
        plain += after;
    }
    plain
}
