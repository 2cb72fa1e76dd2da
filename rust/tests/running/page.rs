//! A page as a tree of elements, and what every page keeps to.

use std::collections::BTreeSet;

/// An element: its name, its attributes with their values, and what stands in it.
#[derive(Debug, Default)]
pub struct Element {
    pub name: String,
    pub attributes: Vec<(String, String)>,
    pub inside: Vec<Node>,
}

#[derive(Debug)]
pub enum Node {
    Element(Element),
    Text(String),
}

const ENTITIES: [(&str, char); 5] = [("amp;", '&'), ("lt;", '<'), ("gt;", '>'), ("quot;", '"'), ("#39;", '\'')];

/// A text without its entities. It has no bare &.
fn plain(text: &str) -> String {
    let mut parts = text.split('&');
    let mut s = parts.next().unwrap_or("").to_string();
    for part in parts {
        let (name, c) = ENTITIES.iter().find(|(name, _)| part.starts_with(name)).unwrap_or_else(|| panic!("a bare & in {text}"));
        s.push(*c);
        s.push_str(&part[name.len()..]);
    }
    s
}

/// The name and the attributes of a tag.
fn element(tag: &str) -> Element {
    let (name, rest) = tag.split_once(' ').unwrap_or((tag, ""));
    let parts: Vec<&str> = rest.split('"').collect();
    assert!(parts.len() % 2 == 1 && parts.last().is_some_and(|last| last.trim().is_empty()), "attributes in quotes: {tag}");
    let pair = |pair: &[&str]| {
        let name = pair[0].trim().strip_suffix('=').unwrap_or_else(|| panic!("an attribute: {tag}"));
        assert!(name.bytes().all(|b| b.is_ascii_alphanumeric() || b == b'-') && !name.is_empty(), "the name of an attribute: {tag}");
        (name.to_string(), plain(pair[1]))
    };
    assert!(name.bytes().all(|b| b.is_ascii_alphanumeric()) && !name.is_empty(), "the name of a tag: {tag}");
    Element { name: name.to_string(), attributes: parts.chunks_exact(2).map(pair).collect(), inside: Vec::new() }
}

/// The tree of a page, in which every tag is closed.
pub fn parse(text: &str) -> Element {
    let mut rest = text.strip_prefix("<!doctype html>\n").expect("the first line");
    let mut open = vec![Element::default()];
    while let Some(at) = rest.find('<') {
        let end = at + rest[at..].find('>').expect("a tag's end");
        let (before, tag) = (&rest[..at], &rest[at + 1..end]);
        rest = &rest[end + 1..];
        let top = open.last_mut().expect("an element");
        assert!(!before.contains('>') || top.name == "style", "a bare > in {before}");
        top.inside.push(Node::Text(plain(before)));
        if let Some(name) = tag.strip_prefix('/') {
            let done = open.pop().expect("an element");
            assert_eq!(done.name, name, "a closing tag");
            open.last_mut().expect("a tag that is closed was opened").inside.push(Node::Element(done));
        } else if let Some(tag) = tag.strip_suffix('/') {
            open.last_mut().expect("an element").inside.push(Node::Element(element(tag)));
        } else {
            open.push(element(tag));
        }
    }
    assert!(open.len() == 1 && rest.trim().is_empty(), "every tag is closed: {:?}", open.last().map(|e| &e.name));
    open.pop().expect("the page")
}

impl Element {
    pub fn value(&self, name: &str) -> &str {
        self.attributes.iter().find(|(n, _)| n == name).map_or("", |(_, value)| value)
    }

    /// The elements in it, each before those in it.
    pub fn each(&self) -> Vec<&Element> {
        let mut all = Vec::new();
        for node in &self.inside {
            if let Node::Element(e) = node {
                all.push(e);
                all.extend(e.each());
            }
        }
        all
    }

    pub fn all(&self, name: &str) -> Vec<&Element> {
        self.each().into_iter().filter(|e| e.name == name).collect()
    }

    pub fn of_class(&self, class: &str) -> Vec<&Element> {
        self.each().into_iter().filter(|e| e.value("class").split(' ').any(|c| c == class)).collect()
    }

    pub fn of_id(&self, id: &str) -> &Element {
        self.each().into_iter().find(|e| e.value("id") == id).unwrap_or_else(|| panic!("nothing has the id {id}"))
    }

    /// All words in it, with one space between.
    pub fn words(&self) -> String {
        let mut s = String::new();
        self.put_words(&mut s);
        s.split_whitespace().collect::<Vec<&str>>().join(" ")
    }

    fn put_words(&self, s: &mut String) {
        for node in &self.inside {
            match node {
                Node::Text(text) => s.push_str(text),
                Node::Element(e) => {
                    let gap = if ["a", "strong", "span", "code"].contains(&e.name.as_str()) { "" } else { " " };
                    s.push_str(gap);
                    e.put_words(s);
                    s.push_str(gap);
                }
            }
        }
    }

    /// The words of each cell of each line of the tables in it, without the titles.
    pub fn lines(&self) -> Vec<Vec<String>> {
        let lines = self.all("tbody").into_iter().flat_map(|body| body.all("tr"));
        lines.map(|line| line.all("td").into_iter().map(Element::words).collect()).collect()
    }
}

/// The names in `url(#...)`.
fn named_in(text: &str) -> Vec<&str> {
    text.split("url(").skip(1).map(|rest| rest.split(')').next().unwrap_or("")).collect()
}

/// Each name is there once, and every link leads to one of them.
fn links_lead_somewhere(page: &Element) {
    let ids: Vec<&str> = page.each().into_iter().map(|e| e.value("id")).filter(|id| !id.is_empty()).collect();
    let names: BTreeSet<&str> = ids.iter().copied().collect();
    assert_eq!(ids.len(), names.len(), "each id is there once");
    let mut links: Vec<String> = Vec::new();
    for e in page.each() {
        links.extend((!e.value("href").is_empty()).then(|| e.value("href").to_string()));
        let style = if e.name == "style" { e.words() } else { String::new() };
        let values = e.attributes.iter().map(|(_, value)| value.as_str()).chain([style.as_str()]);
        links.extend(values.flat_map(named_in).map(str::to_string));
    }
    for link in links {
        assert!(link.strip_prefix('#').is_some_and(|name| names.contains(name)), "the link {link} leads to no place of the page");
    }
}

/// Nothing runs, and nothing comes from elsewhere.
fn is_whole(page: &Element) {
    const NOT_THERE: [&str; 12] =
        ["script", "link", "img", "iframe", "object", "embed", "audio", "video", "base", "form", "image", "foreignObject"];
    for e in page.each() {
        assert!(!NOT_THERE.contains(&e.name.as_str()), "{e:?}");
        for (name, value) in &e.attributes {
            assert!(!name.starts_with("on") && !["src", "style", "srcset", "action"].contains(&name.as_str()), "{name} of {}", e.name);
            assert!(!value.contains("://") || name == "xmlns", "{name} of {}: {value}", e.name);
            assert!(!value.contains("javascript:") && !value.contains("data:"), "{value}");
        }
    }
    let style = page.all("style").into_iter().map(Element::words).collect::<String>();
    assert!(!style.contains("@import") && !style.contains("://") && !style.contains("@font-face"), "{style}");
    assert_eq!(page.all("style").len(), 1);
}

/// Headings go down by one level at a time; tables have titles; pictures have a name.
fn is_told_to_everyone(page: &Element) {
    assert_eq!(page.all("html")[0].value("lang"), "en");
    assert!(page.all("title")[0].words().starts_with("Storage races in "));
    let mut level = 0;
    for e in page.each() {
        if let Some(new) = e.name.strip_prefix('h').and_then(|digit| digit.parse::<u32>().ok()) {
            assert!(new <= level + 1 && !e.words().is_empty(), "the heading {} behind one of level {level}", e.words());
            level = new;
        }
    }
    assert_eq!(page.all("h1").len(), 1);
    for table in page.all("table") {
        let heads = table.all("th");
        assert!(
            !heads.is_empty() && heads.iter().all(|th| ["row", "col"].contains(&th.value("scope")) && !th.words().is_empty()),
            "{table:?}"
        );
    }
    for svg in page.all("svg").into_iter().filter(|svg| svg.value("aria-hidden") != "true") {
        let first = svg.each()[0];
        assert!(svg.value("role") == "img" && first.name == "title" && !first.words().is_empty(), "{svg:?}");
    }
}

/// The tree of a page that keeps to all this.
pub fn well_kept(text: &str) -> Element {
    let page = parse(text);
    links_lead_somewhere(&page);
    is_whole(&page);
    is_told_to_everyone(&page);
    page
}
