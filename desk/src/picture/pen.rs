//! Shapes as SVG text. Every shape has a class; colours and lines are the style sheet's.
use std::fmt::{Display, Write};

/// SVG while it is written.
#[derive(Clone, Debug, Default)]
pub struct Pen {
    pub text: String,
}

/// Text as it stands in XML.
pub fn escaped(text: &str) -> String {
    text.replace('&', "&amp;").replace('<', "&lt;").replace('>', "&gt;").replace('"', "&quot;")
}

impl Pen {
    pub fn put(&mut self, text: impl Display) {
        write!(self.text, "{text}").unwrap();
    }

    pub fn rect(&mut self, class: &str, x: i32, y: i32, width: i32, height: i32) {
        self.put(format_args!("<rect class=\"{class}\" x=\"{x}\" y=\"{y}\" width=\"{width}\" height=\"{height}\"/>"));
    }

    pub fn line(&mut self, class: &str, from: (i32, i32), to: (i32, i32)) {
        let ((x1, y1), (x2, y2)) = (from, to);
        self.put(format_args!("<line class=\"{class}\" x1=\"{x1}\" y1=\"{y1}\" x2=\"{x2}\" y2=\"{y2}\"/>"));
    }

    pub fn path(&mut self, class: &str, d: impl Display) {
        self.put(format_args!("<path class=\"{class}\" d=\"{d}\"/>"));
    }

    pub fn words(&mut self, class: &str, x: i32, y: i32, text: impl Display) {
        self.put(format_args!("<text class=\"{class}\" x=\"{x}\" y=\"{y}\">{}</text>", escaped(&text.to_string())));
    }

    pub fn dot(&mut self, class: &str, x: i32, y: i32, r: i32) {
        self.put(format_args!("<circle class=\"{class}\" cx=\"{x}\" cy=\"{y}\" r=\"{r}\"/>"));
    }

    pub fn square(&mut self, class: &str, x: i32, y: i32) {
        self.rect(class, x - 4, y - 4, 8, 8);
    }

    pub fn diamond(&mut self, class: &str, x: i32, y: i32) {
        self.path(class, format_args!("M{} {y}L{x} {}L{} {y}L{x} {}Z", x - 6, y - 6, x + 6, y + 6));
    }

    /// An arrow that bends a little, so that several from one point can be told apart.
    pub fn arrow(&mut self, class: &str, from: (i32, i32), to: (i32, i32)) {
        let ((x, y), (to_x, to_y)) = (from, to);
        let back = if to_x > x { -5 } else { 5 };
        self.path(
            class,
            format_args!("M{x} {y}C{} {to_y} {} {to_y} {} {to_y}", x + (to_x - x) / 4, x + (to_x - x) / 2, to_x + back),
        );
        let tip = format!("M{to_x} {to_y}l{back} -3v6Z");
        self.path("tip", tip);
    }

    /// What belongs together.
    pub fn group(&mut self, attributes: impl Display, draw: impl FnOnce(&mut Pen)) {
        self.put(format_args!("<g {attributes}>"));
        draw(self);
        self.put("</g>\n");
    }
}
