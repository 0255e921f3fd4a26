//! The picture of a report: a row for each axis, strongest first, with its variance and error as a bar, and its direction as bars by channel.

use crate::findings::{Findings, Shown};
use crate::markup::{escaped, fitted, width_of};
use std::fmt::Write;

const WIDTH: f64 = 720.0;
/// Where the bars of variance begin and end.
const BARS: (f64, f64) = (66.0, 350.0);
/// Where the directions begin and end.
const DIRECTIONS: (f64, f64) = (386.0, 708.0);
/// The height above the rows, of a row, and of a direction's number 1.
const HEAD: f64 = 42.0;
const ROW: f64 = 58.0;
const ONE: f64 = 18.0;
/// How much of a slanted name's width stands above the rows: the sine of its 35 degrees.
const SLANTED: f64 = 0.574;
/// The size of letters, and the widest name that has room.
const LETTERS: f64 = 11.0;
const WIDEST: f64 = 112.0;

/// A file of its own.
pub fn svg(field: &str, findings: &Findings) -> String {
    format!(
        "<?xml version=\"1.0\" encoding=\"UTF-8\"?>\n{}",
        inline(field, findings)
    )
}

/// An element, to stand in a file or in a page.
pub fn inline(field: &str, findings: &Findings) -> String {
    let names = findings.channels.iter();
    let names: Vec<String> = names.map(|name| fitted(name, LETTERS, WIDEST)).collect();
    let step = (DIRECTIONS.1 - DIRECTIONS.0) / names.len() as f64;
    let widths = names.iter().map(|name| width_of(name, LETTERS));
    let widest = widths.fold(0.0, f64::max);
    let slanted = widest > step - 4.0;
    let head = HEAD + if slanted { widest * SLANTED } else { 0.0 };
    let height = head + ROW * findings.axes.len() as f64 + 10.0;
    let mut svg = format!(
        "<svg xmlns=\"http://www.w3.org/2000/svg\" viewBox=\"0 0 {WIDTH} {height:.0}\" role=\"img\" \
         font-family=\"Helvetica, Arial, sans-serif\" font-size=\"{LETTERS}\" fill=\"#222\">\n\
         <title>Principal axes of {}</title>\n\
         <rect width=\"{WIDTH}\" height=\"{height:.0}\" fill=\"#fff\"/>\n\
         <text x=\"{}\" y=\"16\" font-weight=\"bold\">Variance along each axis, with its error</text>\n\
         <text x=\"{}\" y=\"16\" font-weight=\"bold\">Direction by channel, −1 to 1</text>\n",
        escaped(field),
        BARS.0,
        DIRECTIONS.0
    );
    for (at, name) in names.iter().enumerate() {
        let x = DIRECTIONS.0 + step * (at as f64 + 0.5);
        let y = head - 8.0;
        let turned = if slanted {
            format!(" text-anchor=\"end\" transform=\"rotate(35 {x:.1} {y:.1})\"")
        } else {
            " text-anchor=\"middle\"".to_string()
        };
        let _ = writeln!(
            svg,
            "<text x=\"{x:.1}\" y=\"{y:.1}\"{turned}>{}</text>",
            escaped(name)
        );
    }
    let scale = Scale::of(&findings.axes);
    for (at, axis) in findings.axes.iter().enumerate() {
        let top = head + ROW * at as f64;
        variance(&mut svg, axis, top, &scale);
        direction(&mut svg, axis, top, step);
    }
    let bottom = height - 10.0;
    let zero = scale.x(0.0);
    let _ = writeln!(
        svg,
        "<path d=\"M{zero:.1} {head:.1}V{bottom:.1}\" stroke=\"#222\" fill=\"none\"/>\n</svg>"
    );
    svg
}

/// From variances to places; the least is 0 or what an error reaches below it.
struct Scale {
    least: f64,
    most: f64,
}

impl Scale {
    fn of(axes: &[Shown]) -> Scale {
        let ends = axes
            .iter()
            .map(|axis| (axis.place.0 - axis.place.1, axis.place.0 + axis.place.1));
        let ends: Vec<(f64, f64)> = ends.collect();
        let least = ends.iter().fold(0.0, |least: f64, end| least.min(end.0));
        let most = ends.iter().fold(0.0, |most: f64, end| most.max(end.1));
        // Of samples that are all the same there is nothing to draw.
        let most = if most > least { most } else { 1.0 };
        Scale { least, most }
    }

    fn x(&self, variance: f64) -> f64 {
        BARS.0 + (BARS.1 - BARS.0) * (variance - self.least) / (self.most - self.least)
    }
}

/// A bar, hollow where the figure is not determined, and the error's bar across its end.
fn variance(svg: &mut String, axis: &Shown, top: f64, scale: &Scale) {
    let (variance, error, _) = axis.place;
    let middle = top + 36.0;
    let (zero, end) = (scale.x(0.0), scale.x(variance));
    let (from, to) = (scale.x(variance - error), scale.x(variance + error));
    let (left, width) = (zero.min(end), (end - zero).abs());
    let (fill, remark) = if axis.determined {
        ("#3b6ea5", "")
    } else {
        ("none", ", not determined")
    };
    let _ = writeln!(
        svg,
        "<text x=\"8\" y=\"{:.1}\" font-weight=\"bold\">axis {}</text>\n\
         <text x=\"8\" y=\"{:.1}\" fill=\"#555\">{}</text>\n\
         <text x=\"{:.1}\" y=\"{:.1}\">{} ± {}{remark}</text>\n\
         <rect x=\"{left:.1}\" y=\"{:.1}\" width=\"{width:.1}\" height=\"16\" fill=\"{fill}\" stroke=\"#3b6ea5\"/>\n\
         <path d=\"M{from:.1} {middle:.1}H{to:.1}M{from:.1} {:.1}v22M{to:.1} {:.1}v22\" stroke=\"#111\" fill=\"none\"/>",
        middle,
        axis.number,
        middle + 13.0,
        axis.share,
        BARS.0 + 4.0,
        top + 20.0,
        with_minus(&axis.variance),
        axis.error,
        middle - 8.0,
        middle - 11.0,
        middle - 11.0,
    );
}

/// A bar up or down for each channel.
fn direction(svg: &mut String, axis: &Shown, top: f64, step: f64) {
    let middle = top + ROW / 2.0;
    let _ = writeln!(
        svg,
        "<path d=\"M{} {middle:.1}H{}\" stroke=\"#999\" fill=\"none\"/>",
        DIRECTIONS.0, DIRECTIONS.1
    );
    let width = (step * 0.5).min(36.0);
    for (at, number) in axis.place.2.iter().enumerate() {
        let x = DIRECTIONS.0 + step * (at as f64 + 0.5);
        let size = number.abs() * ONE;
        let (y, label, fill) = if *number < 0.0 {
            (middle, middle + size + 9.0, "#d98c2b")
        } else {
            (middle - size, middle - size - 2.0, "#3b6ea5")
        };
        let _ = writeln!(
            svg,
            "<rect x=\"{:.1}\" y=\"{y:.1}\" width=\"{width:.1}\" height=\"{size:.1}\" fill=\"{fill}\"/>\n\
             <text x=\"{x:.1}\" y=\"{label:.1}\" font-size=\"9\" text-anchor=\"middle\">{}</text>",
            x - width / 2.0,
            two_decimals(*number),
        );
    }
}

/// Two decimals have room; the report has more.
fn two_decimals(number: f64) -> String {
    let hundredths = (number * 100.0).round();
    // A zero has no sign.
    with_minus(&format!(
        "{:.2}",
        if hundredths == 0.0 {
            0.0
        } else {
            hundredths / 100.0
        }
    ))
}

fn with_minus(number: &str) -> String {
    number.replace('-', "−")
}
