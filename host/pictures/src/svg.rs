//! A picture in SVG, readable on light and dark screens; it is printed light.

use std::fmt::Write;

/// What a picture is printed on: as wide as the page, or a sheet of its own.
pub enum Paper {
    Page,
    A4,
}

/// The start of a picture: its size, what it shows, its styles, and where they differ on dark screens.
pub fn open(width: f64, height: f64, shows: &str, paper: Paper, light: &str, dark: &str) -> String {
    let size = match paper {
        Paper::Page => "",
        Paper::A4 => " width=\"210mm\" height=\"297mm\"",
    };
    let mut svg = format!(
        "<svg xmlns=\"http://www.w3.org/2000/svg\"{size} viewBox=\"0 0 {width} {height}\" role=\"img\" aria-label=\"{shows}\">\n  <style>\n"
    );
    for style in [
        "text { font: 14px system-ui, sans-serif; fill: #1f2328 }",
        ".title { font-size: 17px; font-weight: 600 }",
        ".panel { fill: #ffffff }",
    ]
    .into_iter()
    .chain(light.lines())
    {
        line(&mut svg, &format!("  {}", style.trim()));
    }
    line(&mut svg, "  @media screen and (prefers-color-scheme: dark) {");
    for style in ["text { fill: #e6edf3 }", ".panel { fill: #0d1117 }"].into_iter().chain(dark.lines()) {
        line(&mut svg, &format!("    {}", style.trim()));
    }
    line(&mut svg, "  }");
    line(&mut svg, "</style>");
    line(&mut svg, &format!("<rect class=\"panel\" width=\"{width}\" height=\"{height}\" rx=\"8\"/>"));
    svg
}

pub fn text(svg: &mut String, x: f64, y: f64, class: &str, anchor: &str, words: &str) {
    line(
        svg,
        &format!("<text class=\"{class}\" x=\"{x:.1}\" y=\"{y:.1}\" text-anchor=\"{anchor}\">{words}</text>"),
    );
}

pub fn line(svg: &mut String, element: &str) {
    writeln!(svg, "  {element}").expect("a string takes all");
}
