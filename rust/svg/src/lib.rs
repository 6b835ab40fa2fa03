//! The few shapes that plots and pictures are drawn with, as SVG text. Places are written with one
//! decimal, so that the file is the same wherever it is made.

use std::fmt::Write;

pub type Point = (f64, f64);

/// A rectangle: its upper left corner, its width and its height.
#[derive(Clone, Copy, Debug)]
pub struct Rect {
    pub at: Point,
    pub width: f64,
    pub height: f64,
}

/// The begin of a picture of this size. `</svg>` ends it.
pub fn head((width, height): (f64, f64), font_size: u32, title: &str) -> String {
    format!(
        "<svg xmlns=\"http://www.w3.org/2000/svg\" width=\"{0}\" height=\"{1}\" \
         viewBox=\"0 0 {0} {1}\" font-family=\"sans-serif\" font-size=\"{2}\" role=\"img\">\n\
         <title>{3}</title>\n",
        width,
        height,
        font_size,
        escaped(title)
    )
}

/// Text with the marks of XML written so that they are text.
pub fn escaped(text: &str) -> String {
    let mut escaped = String::with_capacity(text.len());
    for character in text.chars() {
        match character {
            '&' => escaped += "&amp;",
            '<' => escaped += "&lt;",
            '>' => escaped += "&gt;",
            '"' => escaped += "&quot;",
            // XML 1.0 has no place for these.
            control if control.is_control() => escaped.push('\u{fffd}'),
            other => escaped.push(other),
        }
    }
    escaped
}

/// Where a text's place is in it: its start, its middle or its end.
#[derive(Clone, Copy)]
pub enum Anchor {
    Start,
    Middle,
    End,
}

pub fn text((x, y): Point, anchor: Anchor, colour: &str, words: &str) -> String {
    let anchor = match anchor {
        Anchor::Start => "start",
        Anchor::Middle => "middle",
        Anchor::End => "end",
    };
    format!(
        "<text x=\"{:.1}\" y=\"{:.1}\" text-anchor=\"{}\" fill=\"{}\">{}</text>\n",
        x,
        y,
        anchor,
        colour,
        escaped(words)
    )
}

/// `style` has further attributes.
pub fn line(points: &[Point], colour: &str, style: &str) -> String {
    let point = |(x, y): &Point| format!("{:.1},{:.1}", x, y);
    let points: Vec<String> = points.iter().map(point).collect();
    format!(
        "<polyline points=\"{}\" fill=\"none\" stroke=\"{}\" {}/>\n",
        points.join(" "),
        colour,
        style
    )
}

pub fn dot((x, y): Point, colour: &str) -> String {
    format!(
        "<circle cx=\"{:.1}\" cy=\"{:.1}\" r=\"3\" fill=\"{}\"/>\n",
        x, y, colour
    )
}

/// Rectangles of one colour as one shape, `style` as above. Written as short as can be, since a picture
/// may have tens of thousands.
pub fn rects(rects: &[Rect], colour: &str, style: &str) -> String {
    let mut path = String::new();
    for rect in rects {
        let Rect {
            at: (x, y),
            width,
            height,
        } = *rect;
        let [x, y, width, height] = [x, y, width, height].map(short);
        write!(path, "M{} {}h{}v{}h-{}z", x, y, width, height, width)
            .expect("a string takes all that is written");
    }
    format!("<path d=\"{}\" fill=\"{}\" {}/>\n", path, colour, style)
}

/// Level lines of one colour as one shape: where each begins, and how far to the right it goes.
pub fn levels(lines: &[(Point, f64)], colour: &str, style: &str) -> String {
    let mut path = String::new();
    for &((x, y), right) in lines {
        let [x, y, right] = [x, y, right].map(short);
        write!(path, "M{} {}H{}", x, y, right).expect("a string takes all that is written");
    }
    format!(
        "<path d=\"{}\" fill=\"none\" stroke=\"{}\" {}/>\n",
        path, colour, style
    )
}

/// With one decimal, or with none where it would be 0.
fn short(number: f64) -> String {
    let written = format!("{:.1}", number);
    match written.strip_suffix(".0") {
        Some(whole) => whole.to_string(),
        None => written,
    }
}

#[cfg(test)]
mod tests {
    use super::*;

    #[test]
    fn text_is_escaped() {
        let written = text((1.0, 2.0), Anchor::End, "red", "a < b && \"c\"\u{7}");
        assert!(written.contains(">a &lt; b &amp;&amp; &quot;c&quot;\u{fffd}</text>"));
    }

    #[test]
    fn rectangles_are_written_short() {
        let one = Rect {
            at: (1.0, 2.25),
            width: 10.0,
            height: 0.5,
        };
        let path = rects(&[one, one], "red", "");
        assert_eq!(
            path,
            "<path d=\"M1 2.2h10v0.5h-10zM1 2.2h10v0.5h-10z\" fill=\"red\" />\n"
        );
    }
}
