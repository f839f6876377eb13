//! A page of HTML in one file: nothing is loaded from outside, and it prints on A4.

use crate::pictures::canvas::escaped;
use crate::told::Line;

/// How a page looks, on the screen and on paper.
const STYLE: &str = "\
    body { font: 16px/1.45 sans-serif; color: #000; background: #fff; max-width: 62rem; \
    margin: 2rem auto; padding: 0 1.5rem }\n\
    h1 { font-size: 1.7rem } h2 { font-size: 1.3rem; margin-top: 2.2rem; border-bottom: 2px solid }\n\
    h3 { font-size: 1.05rem }\n\
    p.warning, li.warning { font-weight: bold; border-left: .5rem solid; padding-left: .6rem }\n\
    pre { font: 13px/1.35 monospace; white-space: pre-wrap; overflow-wrap: anywhere; orphans: 4; \
    widows: 4 }\n\
    pre.columns { columns: 2; column-gap: 1.5rem; white-space: pre; orphans: 3; widows: 3 }\n\
    table { border-collapse: collapse; font-size: .92rem } th, td { border: 1px solid #888; \
    padding: .2rem .6rem; text-align: left; vertical-align: top }\n\
    figure { margin: 1rem 0; break-inside: avoid } svg { max-width: 100%; \
    max-height: 13.5cm; width: auto; height: auto; border: 1px solid #ccc }\n\
    figure.small svg { max-height: 9.4cm }\n\
    h2, h3, h2 + p, pre:has(+ figure), figure + pre { break-after: avoid }\n\
    p, tr, .whole { break-inside: avoid }\n\
    @page { size: A4; margin: 16mm }\n\
    @media print { body { font-size: 10.5pt; max-width: none; margin: 0; padding: 0 } \
    pre { font-size: 8pt } pre.columns { font-size: 7.2pt } }\n";

/// Sections of a page in the making.
#[derive(Default)]
pub struct Sections {
    body: String,
}

impl Sections {
    /// A heading.
    pub fn heading(&mut self, words: &str) {
        self.body += &format!("<h2>{}</h2>\n", escaped(words));
    }

    /// A heading below one.
    pub fn smaller_heading(&mut self, words: &str) {
        self.body += &format!("<h3>{}</h3>\n", escaped(words));
    }

    /// A paragraph.
    pub fn paragraph(&mut self, words: &str) {
        self.body += &format!("<p>{}</p>\n", escaped(words));
    }

    /// A line as a paragraph; a warning is one that nobody can miss.
    pub fn told(&mut self, line: &Line) {
        let class = if line.warns() { " class=\"warning\"" } else { "" };
        self.body += &format!("<p{class}>{}</p>\n", escaped(&line.to_string()));
    }

    /// Lines as they are printed, those of a warning heavy.
    pub fn lines<'a>(&mut self, lines: impl IntoIterator<Item = &'a Line>) {
        let line = |line: &Line| match line.warns() {
            true => format!("<b>{}</b>\n", escaped(&line.to_string())),
            false => format!("{}\n", escaped(&line.to_string())),
        };
        let words: Vec<String> = lines.into_iter().map(line).collect();
        let whole = whole(words.len());
        self.body += &format!("<pre{whole}>{}</pre>\n", words.concat());
    }

    /// Short lines, in columns.
    pub fn columns(&mut self, words: &[String]) {
        let words: Vec<String> = words.iter().map(|line| escaped(line)).collect();
        self.body += &format!("<pre class=\"columns\">{}</pre>\n", words.join("\n"));
    }

    /// A picture, which says its captions itself.
    pub fn picture(&mut self, svg: &str) {
        self.body += &format!("<figure>{svg}</figure>\n");
    }

    /// A picture that need not be large.
    pub fn small_picture(&mut self, svg: &str) {
        self.body += &format!("<figure class=\"small\">{svg}</figure>\n");
    }

    /// A table with these headings.
    pub fn table(&mut self, headings: &[&str], rows: &[Vec<String>]) {
        let cells = |tag: &str, cells: Vec<String>| -> String {
            let cell = |cell: &String| format!("<{tag}>{}</{tag}>", escaped(cell));
            format!("<tr>{}</tr>\n", cells.iter().map(cell).collect::<String>())
        };
        let head = cells("th", headings.iter().map(|word| word.to_string()).collect());
        let body: String = rows.iter().map(|row| cells("td", row.clone())).collect();
        let whole = whole(rows.len());
        self.body += &format!("<table{whole}>\n<thead>{head}</thead>\n{body}</table>\n");
    }
}

/// The class of what has so many lines: what is short stands on one page.
fn whole(lines: usize) -> &'static str {
    if lines <= 9 {
        " class=\"whole\""
    } else {
        ""
    }
}

/// The whole file of these sections.
pub fn page(title: &str, sections: &Sections) -> String {
    let title = escaped(title);
    let body = &sections.body;
    format!(
        "<!DOCTYPE html>\n<html lang=\"en\">\n<head>\n<meta charset=\"utf-8\">\n\
         <meta name=\"viewport\" content=\"width=device-width\">\n<title>{title}</title>\n\
         <style>\n{STYLE}</style>\n</head>\n<body>\n<h1>{title}</h1>\n{body}</body>\n</html>\n"
    )
}
