//! Boxes and words of a picture. Colours are the page's, by class.

use crate::page::html::escaped;

pub fn picture(width: f64, height: f64, label: &str, inside: &str) -> String {
    format!(
        "<div class=\"picture\"><svg viewBox=\"0 0 {width:.0} {height:.0}\" width=\"{width:.0}\" height=\"{height:.0}\" role=\"img\" \
         aria-label=\"{}\">\n{inside}</svg></div>\n",
        escaped(label)
    )
}

pub fn rect(x: f64, y: f64, width: f64, height: f64, class: &str) -> String {
    format!("<rect x=\"{x:.1}\" y=\"{y:.1}\" width=\"{width:.1}\" height=\"{height:.1}\" class=\"{class}\"/>\n")
}

/// Words around a point, or from it on for the class `start`.
pub fn text(x: f64, y: f64, class: &str, words: &str) -> String {
    format!(
        "<text x=\"{x:.1}\" y=\"{y:.1}\" class=\"{class}\">{}</text>\n",
        escaped(words)
    )
}

pub fn link(anchor: &str, inside: &str) -> String {
    format!("<a href=\"#{anchor}\">{inside}</a>")
}
