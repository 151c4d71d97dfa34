//! A picture as SVG: the strip of the selected rows, and the histogram of their values.

use std::fmt::{self, Write};

use super::Strip;
use crate::error::visible;
use crate::progress::grouped;

const WIDTH: f64 = 760.0;
const MARGIN: f64 = 40.0;
/// The strip and its cells begin and end at whole units.
const STRIP_LEFT: usize = 40;
const STRIP_WIDTH: usize = 680;
const STRIP_TOP: f64 = 80.0;
const STRIP_HEIGHT: f64 = 36.0;
const CHART_TOP: f64 = 176.0;
const CHART_HEIGHT: f64 = 200.0;
const CHART_LEFT: f64 = MARGIN + 40.0;
/// The approximate width of a character of an axis.
const CHARACTER: f64 = 6.5;
/// The number of characters that are shown of the file's name, of the condition and of a column's
/// name.
const FILE: usize = 60;
const CONDITION: usize = 90;
const NAME: usize = 30;

/// The contents of a picture.
#[derive(Clone, Debug)]
pub struct Picture<'a> {
    /// The title, which a viewer may show next to the picture.
    pub title: String,
    /// The first line.
    pub file: String,
    /// The second line.
    pub counts: String,
    /// The third line, if there is a condition.
    pub condition: Option<&'a str>,
    /// The selected rows.
    pub strip: &'a Strip,
    /// The number of rows.
    pub rows: u64,
    /// The name of a column, and the edge of each bin of its values with their number.
    pub histogram: Option<(String, Vec<(String, u64)>)>,
}

/// Returns a picture as the text of an SVG file.
#[must_use]
pub fn svg(picture: &Picture<'_>) -> String {
    let mut out = String::new();
    draw(&mut out, picture).map_or_else(|_| String::new(), |()| out)
}

fn draw(out: &mut String, picture: &Picture<'_>) -> fmt::Result {
    let has_chart = picture.histogram.is_some();
    let height = if has_chart {
        CHART_TOP + CHART_HEIGHT + 56.0
    } else {
        CHART_TOP - 30.0
    };
    let title = escaped(&picture.title);
    writeln!(
        out,
        "<svg xmlns=\"http://www.w3.org/2000/svg\" viewBox=\"0 0 {WIDTH} {height}\" \
         role=\"img\" font-family=\"sans-serif\" font-size=\"11\" fill=\"#333\">"
    )?;
    writeln!(out, "<title>{title}</title>")?;
    writeln!(
        out,
        "<rect width=\"{WIDTH}\" height=\"{height}\" fill=\"#fff\"/>"
    )?;
    let file = fitted(&picture.file, FILE);
    text(out, (MARGIN, 28.0), "start", " font-size=\"16\"", &file)?;
    text(out, (MARGIN, 48.0), "start", "", &picture.counts)?;
    if let Some(condition) = picture.condition {
        let condition = fitted(&format!("where {condition}"), CONDITION);
        text(out, (MARGIN, 66.0), "start", "", &condition)?;
    }
    strip(out, picture)?;
    if let Some((name, bins)) = &picture.histogram {
        chart(out, name, bins, picture.condition.is_some())?;
    }
    writeln!(out, "</svg>")
}

/// Draws the strip of rows. Its cells begin at whole units and aren't blurred: blurred cells would
/// show a gap between them.
fn strip(out: &mut String, picture: &Picture<'_>) -> fmt::Result {
    let shares: Vec<f64> = picture.strip.shares().collect();
    writeln!(
        out,
        "<g shape-rendering=\"crispEdges\">\n<rect x=\"{STRIP_LEFT}\" y=\"{STRIP_TOP}\" \
         width=\"{STRIP_WIDTH}\" height=\"{STRIP_HEIGHT}\" fill=\"#eef2f5\"/>"
    )?;
    let start = |cell: usize| STRIP_LEFT + cell * STRIP_WIDTH / shares.len();
    for (cell, share) in shares.iter().enumerate().filter(|(_, share)| **share > 0.0) {
        let (x, end) = (start(cell), start(cell + 1));
        writeln!(
            out,
            "<rect class=\"cell\" x=\"{x}\" y=\"{STRIP_TOP}\" width=\"{}\" \
             height=\"{STRIP_HEIGHT}\" fill=\"#2f6f9f\" fill-opacity=\"{share:.3}\"/>",
            end - x
        )?;
    }
    writeln!(out, "</g>")?;
    legend(out, picture)
}

/// Draws the text below the strip.
fn legend(out: &mut String, picture: &Picture<'_>) -> fmt::Result {
    let below = STRIP_TOP + STRIP_HEIGHT + 16.0;
    let last = format!("row {}", grouped(picture.rows));
    text(out, (MARGIN, below), "start", "", "row 1")?;
    text(
        out,
        (WIDTH / 2.0, below),
        "middle",
        "",
        "the darker, the more rows are kept",
    )?;
    text(out, (WIDTH - MARGIN, below), "end", "", &last)
}

#[allow(clippy::cast_precision_loss, reason = "a label is short")]
fn chart(out: &mut String, name: &str, bins: &[(String, u64)], is_part: bool) -> fmt::Result {
    let most = bins.iter().map(|bin| bin.1).max().unwrap_or(0);
    let bottom = CHART_TOP + CHART_HEIGHT;
    bars(out, bins, most.max(1))?;
    writeln!(
        out,
        "<path d=\"M{CHART_LEFT} {CHART_TOP}V{bottom}H{}\" stroke=\"#888\" fill=\"none\"/>",
        WIDTH - MARGIN
    )?;
    let (left, count) = (CHART_LEFT - 6.0, grouped(most));
    let end = (count.len() as f64 * CHARACTER).max(left);
    text(out, (end, CHART_TOP + 10.0), "end", "", &count)?;
    text(out, (left, bottom), "end", "", "0")?;
    let (name, of) = (
        fitted(name, NAME),
        if is_part { " of the kept rows" } else { "" },
    );
    let caption = format!("{name}{of}: how many are in each bin, by where it begins");
    text(out, (WIDTH / 2.0, bottom + 38.0), "middle", "", &caption)
}

/// Draws the bars, with as many of their edges below as fit.
#[allow(
    clippy::cast_precision_loss,
    reason = "a height needs no more than four digits"
)]
fn bars(out: &mut String, bins: &[(String, u64)], most: u64) -> fmt::Result {
    let slot = (WIDTH - MARGIN - CHART_LEFT) / bins.len().max(1) as f64;
    let (width, bottom) = ((slot - 1.0).max(0.5), CHART_TOP + CHART_HEIGHT);
    let longest = bins.iter().map(|bin| bin.0.len()).max().unwrap_or(0);
    let label = (longest + 1) as f64 * CHARACTER;
    let each = (label / slot).ceil().max(1.0);
    for (place, (edge, count)) in bins.iter().enumerate() {
        let height = CHART_HEIGHT * *count as f64 / most as f64;
        let (x, y) = (CHART_LEFT + place as f64 * slot, bottom - height);
        let (count, title) = (grouped(*count), escaped(edge));
        writeln!(
            out,
            "<rect class=\"bar\" x=\"{x:.2}\" y=\"{y:.2}\" width=\"{width:.2}\" \
             height=\"{height:.2}\" fill=\"#2f6f9f\"><title>{count} from {title} on</title></rect>"
        )?;
        if place as f64 % each == 0.0 && x + label / 2.0 <= WIDTH {
            text(out, (x, bottom + 16.0), "middle", "", edge)?;
        }
    }
    Ok(())
}

fn text(out: &mut String, (x, y): (f64, f64), anchor: &str, more: &str, text: &str) -> fmt::Result {
    let text = escaped(text);
    writeln!(
        out,
        "<text x=\"{x:.2}\" y=\"{y:.2}\" text-anchor=\"{anchor}\"{more}>{text}</text>"
    )
}

/// Returns the beginning of a text, about as wide as `most` letters. The last character of a longer
/// text becomes dots. Characters of East Asia are as wide as two letters.
fn fitted(text: &str, most: usize) -> String {
    let (mut fitted, mut left) = (String::new(), most);
    for character in text.chars() {
        let width = if character < '\u{1100}' { 1 } else { 2 };
        if left < width {
            fitted.pop();
            fitted.push('…');
            break;
        }
        left -= width;
        fitted.push(character);
    }
    fitted
}

/// Returns a text for use between tags. Replaces characters that XML can't have.
fn escaped(text: &str) -> String {
    let mut escaped = String::with_capacity(text.len());
    for character in text.chars() {
        match character {
            '&' => escaped.push_str("&amp;"),
            '<' => escaped.push_str("&lt;"),
            '>' => escaped.push_str("&gt;"),
            '"' => escaped.push_str("&quot;"),
            '\u{FFFE}' | '\u{FFFF}' => escaped.push('?'),
            _ => escaped.push(visible(character)),
        }
    }
    escaped
}

#[cfg(test)]
mod tests {
    use super::*;

    fn picture(strip: &Strip) -> Picture<'_> {
        let bins = vec![
            ("1".to_string(), 3),
            ("2".to_string(), 0),
            ("5".to_string(), 6),
        ];
        Picture {
            title: "a<b>.csv: 1 row".to_string(),
            file: "a<b>.csv".to_string(),
            counts: "1 row".to_string(),
            condition: Some("x = '\u{1}&'"),
            strip,
            rows: 1000,
            histogram: Some(("x".to_string(), bins)),
        }
    }

    #[test]
    fn bars_are_as_high_as_their_counts() {
        let strip = Strip::new(1000, 10);
        let svg = svg(&picture(&strip));
        let bars: Vec<&str> = svg
            .lines()
            .filter(|line| line.contains("\"bar\""))
            .collect();
        let heights = bars
            .iter()
            .map(|bar| bar.split("height=\"").nth(1).unwrap());
        let heights: Vec<&str> = heights.map(|it| it.split('"').next().unwrap()).collect();
        assert_eq!(heights, ["100.00", "0.00", "200.00"]);
        assert!(!svg.contains("\"cell\""));
    }

    #[test]
    fn texts_are_escaped() {
        let strip = Strip::new(0, 10);
        let svg = svg(&picture(&strip));
        assert!(svg.contains("<title>a&lt;b&gt;.csv: 1 row</title>"));
        assert!(svg.contains(">where x = '␁&amp;'</text>"));
    }

    #[test]
    fn long_texts_end_in_dots() {
        assert_eq!(fitted("abcd", 4), "abcd");
        assert_eq!(fitted("abcde", 4), "abc…");
        assert_eq!(fitted("表計算", 6), "表計算");
        assert_eq!(fitted("a表計", 4), "a…");
    }
}
