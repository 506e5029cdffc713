//! A few shapes of SVG.

use std::fmt::Write;

/// A picture that is being drawn.
pub struct Svg {
    body: String,
    width: f64,
    height: f64,
}

/// A number with at most one place after the point.
fn n(x: f64) -> String {
    let text = format!("{x:.1}");
    match text.strip_suffix(".0") {
        Some(whole) => whole.to_string(),
        None => text,
    }
}

/// Text with the characters that SVG keeps for itself written otherwise.
fn escaped(text: &str) -> String {
    text.replace('&', "&amp;")
        .replace('<', "&lt;")
        .replace('>', "&gt;")
}

/// How a text stands at its place.
#[derive(Clone, Copy)]
pub struct Style {
    /// The height of the letters.
    pub size: f64,
    /// The colour.
    pub fill: &'static str,
    /// Whether the letters are bold.
    pub bold: bool,
    /// `start`, `middle` or `end`.
    pub anchor: &'static str,
}

impl Style {
    /// Plain text of a size.
    pub fn plain(size: f64) -> Style {
        Style {
            size,
            fill: "#263238",
            bold: false,
            anchor: "start",
        }
    }

    /// The same in bold.
    pub fn bold(self) -> Style {
        Style { bold: true, ..self }
    }

    /// The same in a colour.
    pub fn fill(self, fill: &'static str) -> Style {
        Style { fill, ..self }
    }

    /// The same with another anchor.
    pub fn anchor(self, anchor: &'static str) -> Style {
        Style { anchor, ..self }
    }
}

impl Svg {
    /// An empty picture.
    pub fn new(width: f64, height: f64) -> Svg {
        Svg {
            body: String::new(),
            width,
            height,
        }
    }

    /// Anything, with its attributes.
    fn element(&mut self, text: String) {
        self.body.push_str(&text);
        self.body.push('\n');
    }

    /// A rectangle with round corners; `more` are further attributes.
    pub fn rectangle(&mut self, place: (f64, f64), size: (f64, f64), round: f64, more: &str) {
        self.element(format!(
            r#"<rect x="{}" y="{}" width="{}" height="{}" rx="{}" {more}/>"#,
            n(place.0),
            n(place.1),
            n(size.0),
            n(size.1),
            n(round)
        ));
    }

    /// A circle.
    pub fn circle(&mut self, place: (f64, f64), radius: f64, more: &str) {
        self.element(format!(
            r#"<circle cx="{}" cy="{}" r="{}" {more}/>"#,
            n(place.0),
            n(place.1),
            n(radius)
        ));
    }

    /// A line through points.
    pub fn line(&mut self, points: &[(f64, f64)], more: &str) {
        let points: Vec<String> = points
            .iter()
            .map(|p| format!("{},{}", n(p.0), n(p.1)))
            .collect();
        self.element(format!(
            r#"<polyline points="{}" fill="none" {more}/>"#,
            points.join(" ")
        ));
    }

    /// A path as SVG writes it.
    pub fn path(&mut self, path: &str, more: &str) {
        self.element(format!(r#"<path d="{path}" {more}/>"#));
    }

    /// Rules for the classes of groups.
    pub fn style(&mut self, rules: &str) {
        self.element(format!("<style>{rules}</style>"));
    }

    /// A group of a class, with what stands in it as SVG writes it.
    pub fn group(&mut self, class: &str, inside: &str) {
        self.element(format!(r#"<g class="{class}">{inside}</g>"#));
    }

    /// A text.
    pub fn text(&mut self, place: (f64, f64), style: Style, text: &str) {
        let weight = if style.bold { "bold" } else { "normal" };
        self.element(format!(
            r#"<text x="{}" y="{}" font-size="{}" font-weight="{weight}" fill="{}" text-anchor="{}">{}</text>"#,
            n(place.0),
            n(place.1),
            n(style.size),
            style.fill,
            style.anchor,
            escaped(text)
        ));
    }

    /// The whole picture.
    pub fn finished(self) -> String {
        let mut text = String::new();
        writeln!(
            text,
            r#"<svg xmlns="http://www.w3.org/2000/svg" width="{0}" height="{1}" viewBox="0 0 {0} {1}" font-family="DejaVu Sans, Helvetica, Arial, sans-serif">"#,
            n(self.width),
            n(self.height)
        )
        .unwrap();
        writeln!(
            text,
            r##"<rect width="{}" height="{}" fill="#fbfaf7"/>"##,
            n(self.width),
            n(self.height)
        )
        .unwrap();
        text + &self.body + "</svg>\n"
    }
}
