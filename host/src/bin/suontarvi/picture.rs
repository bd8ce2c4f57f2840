//! The matrix before and after permutation and scaling, as SVG: magnitudes as shades of one scale, matched entries
//! marked. If a matrix has more columns than cells, a cell shows a square of entries and has the shade of their
//! largest.

use std::collections::BTreeMap;
use std::fmt::Write;

/// The most cells along a side, the width of a panel and the space around it.
const CELLS: usize = 256;
const WIDTH: f64 = 440.0;
const MARGIN: f64 = 30.0;
const HEAD: f64 = 62.0;
/// Below it, cells touch.
const LARGE: f64 = 6.0;

/// From faint to dark.
const SHADES: [&str; 10] =
    ["#e3e8ee", "#cfd7e1", "#bac5d3", "#a4b3c5", "#8da0b6", "#768da6", "#5f7894", "#48627f", "#324b68", "#1c3450"];
const MARK: &str = "#d8342b";

/// One side of the picture.
pub struct Panel {
    /// Two lines above it.
    pub title: String,
    pub subtitle: String,
    /// Row, column and magnitude of each entry; zeros are not drawn.
    pub entries: Vec<(usize, usize, f64)>,
    /// Row and column of each matched entry.
    pub matched: Vec<(usize, usize)>,
}

impl Panel {
    fn sizes(&self) -> impl Iterator<Item = f64> {
        self.entries.iter().map(|(_, _, size)| *size).filter(|size| *size > 0.0)
    }

    /// What its entries are like, for a subtitle.
    pub fn magnitudes(entries: &[(usize, usize, f64)]) -> String {
        let sizes = || entries.iter().map(|(_, _, size)| *size).filter(|size| *size > 0.0);
        let (least, largest) = (sizes().fold(f64::INFINITY, f64::min), sizes().fold(0.0, f64::max));
        match least <= largest {
            true if least == largest => format!("all of magnitude {}", short(least)),
            true => format!("magnitudes from {} to {}", short(least), short(largest)),
            false => "none other than zero".into(),
        }
    }
}

/// A number with two digits; those near 1 without an exponent.
fn short(size: f64) -> String {
    match (1e-3..1e4).contains(&size) {
        true => format!("{:.2e}", size).parse::<f64>().unwrap_or(size).to_string(),
        false => format!("{size:.1e}"),
    }
}

/// The least and the largest magnitude other than zero of both panels.
struct Range {
    least: f64,
    largest: f64,
}

impl Range {
    /// None if there is nothing to tell apart.
    fn of(panels: &[Panel]) -> Option<Range> {
        let sizes = || panels.iter().flat_map(Panel::sizes);
        let (least, largest) = (sizes().fold(f64::INFINITY, f64::min), sizes().fold(0.0, f64::max));
        (least < largest).then_some(Range { least, largest })
    }

    fn shade(&self, size: f64) -> usize {
        let [least, largest, size] = [self.least, self.largest, size].map(f64::log10);
        let part = (size - least) / (largest - least);
        ((part * (SHADES.len() - 1) as f64).round() as usize).min(SHADES.len() - 1)
    }
}

/// The picture of an n by n matrix.
pub fn svg(n: usize, panels: &[Panel]) -> String {
    let width = MARGIN + panels.len() as f64 * (WIDTH + MARGIN);
    let height = HEAD + WIDTH + 70.0;
    let mut text = format!(
        "<svg xmlns=\"http://www.w3.org/2000/svg\" viewBox=\"0 0 {width} {height}\" width=\"{width}\" \
         height=\"{height}\" font-family=\"sans-serif\" font-size=\"13\">\n\
         <rect width=\"100%\" height=\"100%\" fill=\"white\"/>\n"
    );
    let range = Range::of(panels);
    for (at, panel) in panels.iter().enumerate() {
        let left = MARGIN + at as f64 * (WIDTH + MARGIN);
        let _ = writeln!(text, "<g transform=\"translate({left} 0)\">");
        draw(panel, n, range.as_ref(), &mut text);
        text.push_str("</g>\n");
    }
    legend(n, range.as_ref(), panels, &mut text);
    text + "</svg>\n"
}

fn draw(panel: &Panel, n: usize, range: Option<&Range>, text: &mut String) {
    let cells = n.clamp(1, CELLS);
    let side = WIDTH / cells as f64;
    let cell = |index: usize| (index * cells).checked_div(n).unwrap_or(0);
    let mut sizes: BTreeMap<(usize, usize), f64> = BTreeMap::new();
    for &(row, column, size) in panel.entries.iter().filter(|(_, _, size)| *size > 0.0) {
        let largest = sizes.entry((cell(row), cell(column))).or_insert(size);
        *largest = largest.max(size);
    }
    let mut by_shade: BTreeMap<usize, Vec<(usize, usize)>> = BTreeMap::new();
    for (place, size) in sizes {
        // without a scale, one shade in the middle
        by_shade.entry(range.map_or(SHADES.len() / 2, |range| range.shade(size))).or_default().push(place);
    }
    let (title, subtitle) = (escaped(&panel.title), escaped(&panel.subtitle));
    let _ = writeln!(text, "<text y=\"28\" font-size=\"16\">{title}</text><text y=\"48\">{subtitle}</text>");
    let _ = writeln!(text, "<g transform=\"translate(0 {HEAD})\">");
    for (shade, places) in by_shade {
        shaded(&places, side, SHADES.get(shade).unwrap_or(&MARK), text);
    }
    let mut marks: Vec<_> = panel.matched.iter().map(|&(row, column)| (cell(row), cell(column))).collect();
    marks.sort_unstable();
    marks.dedup();
    marked(&marks, side, text);
    let frame = "fill=\"none\" stroke=\"#888\"";
    let _ = writeln!(text, "<rect width=\"{WIDTH}\" height=\"{WIDTH}\" {frame}/></g>");
}

/// The cells of one shade as one path, in units of cells; of small ones, neighbours in a row are one rectangle.
fn shaded(places: &[(usize, usize)], side: f64, colour: &str, text: &mut String) {
    let _ = write!(text, "<path fill=\"{colour}\" transform=\"scale({side})\" d=\"");
    let mut rest = places.iter().copied().peekable();
    while let Some((row, column)) = rest.next() {
        let mut end = column + 1;
        while side < LARGE && rest.next_if_eq(&(row, end)).is_some() {
            end += 1;
        }
        let length = end - column;
        match side < LARGE {
            true => _ = write!(text, "M{column} {row}h{length}v1h-{length}z"),
            // large cells stand apart
            false => _ = write!(text, "M{column} {row}h.98v.98h-.98z"),
        }
    }
    text.push_str("\"/>\n");
}

/// Squares in the middle of their cells, as one path.
fn marked(places: &[(usize, usize)], side: f64, text: &mut String) {
    if places.is_empty() {
        return;
    }
    let size = (side * 0.4).clamp(1.6, 12.0);
    let inset = (side - size) / 2.0;
    let _ = write!(text, "<path fill=\"{MARK}\" d=\"");
    for &(row, column) in places {
        let (x, y) = (column as f64 * side + inset, row as f64 * side + inset);
        let _ = write!(text, "M{x:.2} {y:.2}h{size:.2}v{size:.2}h-{size:.2}z");
    }
    text.push_str("\"/>\n");
}

/// What the shades, the marks and the cells mean, below both panels.
fn legend(n: usize, range: Option<&Range>, panels: &[Panel], text: &mut String) {
    let top = HEAD + WIDTH + 22.0;
    let _ = writeln!(text, "<g transform=\"translate({MARGIN} {top})\">");
    let mut x = 0;
    if let Some(range) = range {
        let _ = writeln!(text, "<text y=\"13\">magnitude {}</text>", short(range.least));
        for (at, shade) in SHADES.iter().enumerate() {
            let _ = writeln!(text, "<rect x=\"{}\" width=\"22\" height=\"16\" fill=\"{shade}\"/>", 136 + 22 * at);
        }
        let _ = writeln!(text, "<text x=\"366\" y=\"13\">{}, in both</text>", short(range.largest));
        x = 490;
    }
    if panels.iter().any(|panel| !panel.matched.is_empty()) {
        let _ = writeln!(
            text,
            "<rect x=\"{x}\" y=\"3\" width=\"10\" height=\"10\" fill=\"{MARK}\"/>\
             <text x=\"{}\" y=\"13\">matched</text>",
            x + 16
        );
        x += 100;
    }
    if n > CELLS {
        let along = n.div_ceil(CELLS);
        let most = if n % CELLS == 0 { "" } else { "up to " };
        let _ = writeln!(
            text,
            "<text x=\"{x}\" y=\"13\">each cell stands for {most}{} entries, {along} by {along}</text>",
            along * along
        );
    }
    text.push_str("</g>\n");
}

fn escaped(text: &str) -> String {
    text.replace('&', "&amp;").replace('<', "&lt;").replace('>', "&gt;")
}

#[cfg(test)]
mod tests {
    use super::*;

    fn panel(entries: &[(usize, usize, f64)]) -> Panel {
        let subtitle = Panel::magnitudes(entries);
        Panel { title: "a<b>&c".into(), subtitle, entries: entries.to_vec(), matched: vec![(0, 0)] }
    }

    #[test]
    fn one_scale_for_both() {
        let text = svg(2, &[panel(&[(0, 0, 1e-5), (1, 1, 1.0)]), panel(&[(0, 0, 1e9), (1, 1, 1.0)])]);
        assert!(text.contains("magnitude 1.0e-5<") && text.contains(">1.0e9, in both<"));
        assert_eq!(text.matches("magnitude 1.0e-5").count(), 1);
        // 1 has the same shade on both sides: 5 of 14 decades
        assert_eq!(text.matches("M1 1h.98v.98h-.98z").count(), 2);
        assert_eq!(text.matches(&format!("<path fill=\"{}\"", SHADES[3])).count(), 2);
        assert!(text.contains("a&lt;b&gt;&amp;c") && text.contains("magnitudes from 1.0e-5 to 1"));
    }

    #[test]
    fn no_scale_without_differences() {
        for entries in [&[(0, 0, 1.0), (1, 1, 1.0)][..], &[]] {
            let text = svg(2, &[panel(entries), panel(entries)]);
            assert!(!text.contains("in both") && !text.contains("magnitude 1.0e"), "{text}");
        }
        assert!(svg(2, &[panel(&[(0, 0, 1.0)])]).contains("all of magnitude 1<"));
        assert!(svg(2, &[panel(&[(0, 0, 0.0)])]).contains("none other than zero"));
    }

    #[test]
    fn cells_of_large_matrices() {
        let text = svg(4096, &[panel(&[(0, 0, 1.0), (4095, 4095, 2.0), (4080, 16, 3.0)])]);
        assert!(text.contains("each cell stands for 256 entries, 16 by 16"));
        assert!(text.contains("M255 255h1v1h-1z") && text.contains("M1 255h1v1h-1z"));
        assert!(svg(257, &[panel(&[])]).contains("each cell stands for up to 4 entries, 2 by 2"));
        assert!(!svg(256, &[panel(&[])]).contains("each cell"));
        let row: Vec<_> = (0..200).map(|column| (3, column, 1.0)).collect();
        assert!(svg(200, &[panel(&row)]).contains("M0 3h200v1h-200z"));
    }

    #[test]
    fn extremes_have_shades() {
        let range = Range { least: 5e-324, largest: f64::INFINITY };
        for size in [5e-324, 1.0, f64::MAX, f64::INFINITY] {
            assert!(range.shade(size) < SHADES.len());
        }
        assert_eq!([short(1.0), short(0.0625), short(12345.0), short(1e-7)], ["1", "0.0625", "1.2e4", "1.0e-7"]);
    }
}
