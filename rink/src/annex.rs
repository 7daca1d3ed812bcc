//! The annex to a contract as one page: the annex program's text, what its numbers stand for, the drawing, the file's bytes.

use crate::boxes;
use crate::draw::{self, escaped};
use crate::net::{homes, place_words, transition_words, translated, Home, Net};
use crate::plant::{Count, Plant};
use crate::play::words::list_words;
use crate::structure::killers;
use crate::text::{item_lines, row_lines, time_text};
use effbd::{refusal, Refusal};
use std::fmt::Write;

/// Looks for screen and paper; nothing is fetched from elsewhere.
const STYLE: &str = "\
@page { size: A4; margin: 15mm; }
@page wide { size: A4 landscape; margin: 10mm; }
body { font: 10pt/1.35 'DejaVu Sans', Helvetica, Arial, sans-serif; color: #000; background: #fff; max-width: 180mm; margin: 1em auto; padding: 0 1em; }
h1 { font-size: 18pt; margin: 0 0 .2em; }
h2 { font-size: 12pt; margin: 1.4em 0 .5em; border-bottom: 1px solid #000; break-after: avoid; }
p { margin: .4em 0; }
pre { font: 8pt/1.35 'DejaVu Sans Mono', 'Courier New', monospace; margin: 0; white-space: pre-wrap; }
table { border-collapse: collapse; width: 100%; font-size: 8pt; }
caption { text-align: left; font-weight: bold; padding: .2em 0; }
thead { display: table-header-group; }
tr { break-inside: avoid; }
th, td { border-bottom: 1px solid #bbb; padding: .15em .4em; text-align: left; vertical-align: top; }
td.n { text-align: right; white-space: nowrap; }
tr.never td { color: #777; }
.drawing svg { max-width: 100%; height: auto; display: block; }
.net { display: flow-root; }
.net pre { float: left; width: 33%; border-right: 1px solid #000; padding-right: 2%; box-sizing: border-box; }
.net .names { margin-left: 36%; }
table + table { margin-top: 1em; }
.text { width: auto; }
.text td { border: 0; padding: 0 .6em; }
.bytes { break-inside: avoid; }
@media print {
  body { max-width: none; margin: 0; padding: 0; }
  .drawing { break-after: page; }
  .drawing.wide { page: wide; }
  .drawing svg { max-height: 230mm; margin: 0 auto; }
  .drawing.wide svg { max-height: 160mm; }
}
";

/// The page of a plant and its file; with the net's drawing, if wanted.
pub fn page(plant: &Plant, file: &[u8], with_net: bool) -> Result<String, Refusal> {
    let net_file = translated(file)?;
    let net = Net::taken_apart(&net_file);
    let annex = String::from_utf8_lossy(&effbd::annex_text(file)).into_owned();
    let title = escaped(plant.title.as_deref().unwrap_or("Plant"));
    let heading = format!(
        "<h1>Annex: {title}</h1>\n<p>{} rows{}, {} items{}; the net has {} places and {} transitions. A tick is 0.1 s.</p>\n",
        plant.rows.len(),
        among(&[
            (killers(plant).len(), "killing branch", "killing branches"),
            (boxes::all(plant).len(), "box", "boxes"),
        ]),
        plant.items.len(),
        among(&[(plant.triggers().count(), "trigger", "triggers")]),
        net.marks.len(),
        net.transitions.len(),
    );
    let sections = [
        drawing_section(&heading, &draw::diagram_sheet(plant)),
        section("", &rows_section(plant)),
        section("", &net_section(plant, &net, &annex, net_file.len())),
        match with_net {
            true => drawing_section("<h2>Net, drawn</h2>\n", &draw::net_sheet(plant, &net)),
            false => String::new(),
        },
        section("", &bytes_section(file)),
    ];
    Ok(format!(
        "<!DOCTYPE html>\n<html lang=\"en\">\n<head>\n<meta charset=\"utf-8\"/>\n<title>Annex: {title}</title>\n\
         <style>\n{STYLE}</style>\n</head>\n<body>\n{}</body>\n</html>\n",
        sections.concat()
    ))
}

/// How many of those just counted are special, of each sort: what one is called, and more; nothing where none is.
fn among(sorts: &[(usize, &str, &str)]) -> String {
    let there = sorts.iter().filter(|(number, ..)| *number > 0);
    let words = there.map(|(number, one, more)| match number {
        1 => format!("1 {one}"),
        _ => format!("{number} {more}"),
    });
    let words: Vec<String> = words.collect();
    match words.is_empty() {
        true => String::new(),
        false => format!(", {} among them", list_words(words)),
    }
}

fn section(class: &str, content: &str) -> String {
    format!("<section class=\"{class}\">\n{content}</section>\n")
}

/// A drawing on a sheet of paper of its own, laid across where that suits it.
fn drawing_section(heading: &str, sheet: &draw::Sheet) -> String {
    let class = if sheet.width > sheet.height {
        "drawing wide"
    } else {
        "drawing"
    };
    section(class, &format!("{heading}{}", sheet.svg()))
}

/// Items and rows as the text has them, each with its number.
fn rows_section(plant: &Plant) -> String {
    let line = |(number, line): (usize, &String)| {
        let line = escaped(line);
        format!("<tr><td class=\"n\">{number}</td><td><pre>{line}</pre></td></tr>\n")
    };
    let table = |caption: &str, lines: &[String]| {
        let lines: String = lines.iter().enumerate().map(line).collect();
        match lines.as_str() {
            "" => String::new(),
            lines => format!(
                "<table class=\"text\">\n<caption>{caption}</caption>\n<tbody>\n{lines}</tbody>\n</table>\n"
            ),
        }
    };
    format!(
        "<h2>Items and rows</h2>\n{}{}",
        table("Items", &item_lines(plant)),
        table("Rows", &row_lines(plant, true))
    )
}

/// What is said of a net of so many bytes where the annex program does not print it.
pub fn unprinted(length: usize) -> Option<String> {
    let room = effbd::ANNEX_NET_ROOM;
    let words = format!(
        "the net has {length} bytes and is not printed: the annex program has room for {room}, and says \"refused {} {length}\"",
        refusal::AREA_SHORT
    );
    (length > room).then_some(words)
}

/// What the lines of the annex program's text say.
const LINES: &str = "\
    <code>marks</code> has the mark of every place as the plant starts, <code>t</code> a transition's number, label (row) and interval in \
    ticks, then what it takes, clears and gives: place and number of tokens, of a clear the first and last place";

/// The annex program's text as it stands, and beside it the names of the net's places and transitions.
fn net_section(plant: &Plant, net: &Net, annex: &str, length: usize) -> String {
    let told = unprinted(length).map_or(LINES.to_string(), |words| escaped(&words));
    format!(
        "<h2>Net</h2>\n<p>On the left the annex program's text: {told}.</p>\n\
         <div class=\"net\">\n<pre class=\"annex\">{}</pre>\n<div class=\"names\">\n{}{}</div>\n</div>\n",
        escaped(annex),
        places_table(plant, net),
        transitions_table(plant, net)
    )
}

fn places_table(plant: &Plant, net: &Net) -> String {
    let mut table = String::from(
        "<table class=\"places\">\n<caption>Places</caption>\n\
         <thead><tr><th>place</th><th>of</th><th>a token says</th><th>at start</th></tr></thead>\n<tbody>\n",
    );
    for ((place, mark), home) in net.marks.iter().enumerate().zip(homes(plant)) {
        let of = match home {
            Home::Row { row, which } => format!("row {row}, {}", ["P", "Q", "R"][which]),
            Home::Count(Count::Item(item)) => format!("item {item}"),
            Home::Count(Count::Copy { item, row }) => format!("item {item}, row {row}"),
        };
        let (class, words) = if net.used(place) {
            ("", escaped(&place_words(plant, place)))
        } else {
            (" class=\"never\"", "never marked".to_string())
        };
        let _ = writeln!(
            table,
            "<tr{class}><td class=\"n\">{place}</td><td>{of}</td><td>{words}</td><td class=\"n\">{mark}</td></tr>"
        );
    }
    table + "</tbody>\n</table>\n"
}

fn transitions_table(plant: &Plant, net: &Net) -> String {
    let mut table = String::from(
        "<table class=\"transitions\">\n<caption>Transitions</caption>\n\
         <thead><tr><th>t</th><th>row</th><th>its firing</th><th>after</th></tr></thead>\n<tbody>\n",
    );
    for (number, transition) in net.transitions.iter().enumerate() {
        let words = escaped(&transition_words(plant, net, number));
        let label = transition.label;
        let time = match (transition.from, transition.to) {
            (0, 0) => "at once".to_string(),
            (from, to) => format!("{} to {}", time_text(from, true), time_text(to, true)),
        };
        let _ = writeln!(
            table,
            "<tr><td class=\"n\">{number}</td><td class=\"n\">{label}</td><td>{words}</td><td>{time}</td></tr>"
        );
    }
    table + "</tbody>\n</table>\n"
}

fn bytes_section(file: &[u8]) -> String {
    let mut lines = String::new();
    for (number, bytes) in file.chunks(16).enumerate() {
        let shown: Vec<String> = bytes.iter().map(|byte| format!("{byte:02x}")).collect();
        let _ = writeln!(lines, "{:04x}  {}", 16 * number, shown.join(" "));
    }
    format!(
        "<h2>Diagram file</h2>\n<p>{} bytes, in hexadecimal; before each line its offset.</p>\n<pre class=\"bytes\">{lines}</pre>\n",
        file.len()
    )
}
