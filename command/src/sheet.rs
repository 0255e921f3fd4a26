//! The sheet that a buyer of *Certified* gets: one page to print, with no script and nothing loaded.

use crate::findings::Findings;
use crate::markup::{escaped, shortened};
use crate::picture;
use std::fmt::Write;

const STYLE: &str = "
@page { size: A4; margin: 12mm; }
html { background: #fff; color: #222; color-scheme: light; }
body { font: 10pt/1.35 Helvetica, Arial, sans-serif; max-width: 186mm; margin: 0 auto; padding: 8px; }
h1 { font-size: 1.4em; margin: 0; overflow-wrap: anywhere; }
p { margin: 2mm 0; }
.about { color: #555; overflow-wrap: anywhere; }
table { border-collapse: collapse; min-width: 60%; margin: 3mm 0; }
th, td { text-align: right; padding: 0.4mm 3mm; border-bottom: 0.3mm solid #ccc; font-variant-numeric: tabular-nums; }
th:last-child, td:last-child { text-align: left; }
svg { display: block; width: 100%; max-height: 112mm; margin: 3mm 0; }
pre { font: 6pt/1.3 monospace; margin: 1mm 0; overflow-x: auto; }
footer { color: #555; font-size: 8pt; border-top: 0.3mm solid #ccc; }
@media print { body { padding: 0; font-size: 9pt; } pre { overflow: hidden; } }
";

/// The most characters of a channel's name, so that eight of them leave room for the rest of the page.
const LONGEST_SHOWN: usize = 24;

/// What the error promises.
const PROMISE: &str = "The error beside each variance is a bound and no estimate: the exact covariances of these readings take the \
    axis's direction to the printed variance times that direction, up to a difference no longer than the error, which is proved of every \
    job (theorem <code>Certificate</code>). So the readings have a true principal variance within the error of each printed one; how well \
    the samples stand for the field, and how well they were read, no error here can say.";

pub fn html(field: &str, date: Option<&str>, findings: &Findings) -> String {
    let name = escaped(field);
    let report = &findings.report;
    let names = findings.channels.iter();
    let names: Vec<String> = names.map(|name| shortened(name, LONGEST_SHOWN)).collect();
    let date = date.map_or_else(String::new, |date| format!("{} · ", escaped(date)));
    let mut page = format!(
        "<!DOCTYPE html>\n<html lang=\"en\">\n<head>\n<meta charset=\"utf-8\">\n\
         <meta name=\"viewport\" content=\"width=device-width, initial-scale=1\">\n\
         <title>{name}: principal axes, certified</title>\n<style>{STYLE}</style>\n</head>\n<body>\n\
         <h1>{name}</h1>\n\
         <p class=\"about\">{date}Principal axes, certified · {} samples · {} channels: {}</p>\n",
        report.samples,
        findings.channels.len(),
        escaped(&names.join(", "))
    );
    page.push_str("<table>\n<tr><th>Axis</th><th>Variance</th><th>Error</th><th>Share of the whole</th><th></th></tr>\n");
    for axis in &findings.axes {
        let remark = if axis.determined {
            ""
        } else {
            "not determined"
        };
        let _ = writeln!(
            page,
            "<tr><td>{}</td><td>{}</td><td>{}</td><td>{}</td><td>{remark}</td></tr>",
            axis.number, axis.variance, axis.error, axis.share
        );
    }
    let _ = writeln!(
        page,
        "</table>\n<p>The channels' variances together: {}. {}</p>",
        findings.whole,
        findings.close_in_words().join(" ")
    );
    page.push_str(&picture::inline(field, findings));
    let _ = writeln!(
        page,
        "<p>{PROMISE}</p>\n<footer>\n\
         <p>The proved library's report: figure and error in 1/1024 of the table's unit, directions in 1/2<sup>30</sup>. \
         It is certified; its reading from a spreadsheet and this page are not proved.</p>\n<pre>{}</pre>\n</footer>\n</body>\n</html>",
        escaped_lines(&findings.raw)
    );
    page
}

/// The report's lines, with a blank for each tab.
fn escaped_lines(raw: &str) -> String {
    let lines: Vec<String> = raw
        .lines()
        .map(|line| escaped(&line.replace('\t', " ")))
        .collect();
    lines.join("\n")
}
