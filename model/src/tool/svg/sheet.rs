//! An SVG in the making: lines, boxes and words.

use std::fmt::Write;

pub struct Sheet {
    text: String,
}

#[derive(Clone, Copy)]
pub enum Anchor {
    Start,
    Middle,
    End,
}

impl Anchor {
    fn word(self) -> &'static str {
        match self {
            Anchor::Start => "start",
            Anchor::Middle => "middle",
            Anchor::End => "end",
        }
    }
}

impl Sheet {
    pub fn new(width: f64, height: f64) -> Sheet {
        let mut text = String::new();
        let _ = writeln!(
            text,
            "<svg xmlns=\"http://www.w3.org/2000/svg\" width=\"{width:.0}\" height=\"{height:.0}\" \
             viewBox=\"0 0 {width:.0} {height:.0}\" font-family=\"sans-serif\">"
        );
        let _ = writeln!(
            text,
            "<rect width=\"100%\" height=\"100%\" fill=\"white\"/>"
        );
        Sheet { text }
    }

    pub fn line(&mut self, from: (f64, f64), to: (f64, f64), style: &str) {
        let _ = writeln!(
            self.text,
            "<line x1=\"{:.1}\" y1=\"{:.1}\" x2=\"{:.1}\" y2=\"{:.1}\" {style}/>",
            from.0, from.1, to.0, to.1
        );
    }

    /// A line through all the points.
    pub fn path(&mut self, points: &[(f64, f64)], style: &str) {
        let _ = write!(self.text, "<polyline fill=\"none\" points=\"");
        for (x, y) in points {
            let _ = write!(self.text, "{x:.1},{y:.1} ");
        }
        let _ = writeln!(self.text, "\" {style}/>");
    }

    pub fn dot(&mut self, at: (f64, f64), radius: f64, style: &str) {
        let (x, y) = at;
        let _ = writeln!(
            self.text,
            "<circle cx=\"{x:.1}\" cy=\"{y:.1}\" r=\"{radius:.1}\" {style}/>"
        );
    }

    /// A box, its words shown when pointed at.
    pub fn bar(&mut self, at: (f64, f64), size: (f64, f64), fill: &str, words: &str) {
        let _ = writeln!(
            self.text,
            "<rect x=\"{:.1}\" y=\"{:.1}\" width=\"{:.1}\" height=\"{:.1}\" fill=\"{fill}\">\
             <title>{}</title></rect>",
            at.0,
            at.1,
            size.0,
            size.1,
            escaped(words)
        );
    }

    pub fn text(&mut self, at: (f64, f64), anchor: Anchor, size: u32, words: &str) {
        let _ = writeln!(
            self.text,
            "<text x=\"{:.1}\" y=\"{:.1}\" font-size=\"{size}\" text-anchor=\"{}\" fill=\"#222\">{}</text>",
            at.0,
            at.1,
            anchor.word(),
            escaped(words)
        );
    }

    pub fn finish(mut self) -> String {
        self.text += "</svg>\n";
        self.text
    }
}

/// Words that hold no sign of the markup.
fn escaped(words: &str) -> String {
    let shown = words.chars().filter(|c| !c.is_control());
    let mut text = String::new();
    for c in shown {
        match c {
            '&' => text += "&amp;",
            '<' => text += "&lt;",
            '>' => text += "&gt;",
            _ => text.push(c),
        }
    }
    text
}
