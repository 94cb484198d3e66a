//! Text that becomes part of an SVG file.

/// A place or a length: tenths are enough.
pub fn tenths(length: f64) -> f64 {
    (length * 10.0).round() / 10.0
}

pub fn group(attributes: &str, body: &str) -> String {
    format!("<g {attributes}>\n{body}</g>\n")
}

/// An element with more attributes.
pub fn with(attributes: &str, element: &str) -> String {
    element.replacen(' ', &format!(" {attributes} "), 1)
}

pub fn rect(x: f64, y: f64, width: f64, height: f64) -> String {
    let [x, y, width, height] = [x, y, width, height].map(tenths);
    format!("<rect x=\"{x}\" y=\"{y}\" width=\"{width}\" height=\"{height}\"/>\n")
}

/// A line of text whose middle is at this height.
pub fn label(x: f64, y: f64, text: &str) -> String {
    let [x, y] = [x, y].map(tenths);
    format!(
        "<text x=\"{x}\" y=\"{y}\" dy=\".35em\">{}</text>\n",
        escaped(text)
    )
}

/// The same, read from below; its middle is at this place, or its beginning where its group says so.
pub fn upright(x: f64, y: f64, text: &str) -> String {
    with("transform=\"rotate(-90)\"", &label(-y, x, text))
}

fn escaped(text: &str) -> String {
    text.replace('&', "&amp;").replace('<', "&lt;")
}

/// Shown where an element is pointed at, and read out.
pub fn title(text: &str) -> String {
    format!("<title>{}</title>\n", escaped(text))
}

/// A whole file, with what is read out in place of the picture. It has a background of its own, whatever is around it.
pub fn document(width: f64, height: f64, [title, description]: [&str; 2], body: &str) -> String {
    let [title, description] = [title, description].map(escaped);
    format!(
        "<svg xmlns=\"http://www.w3.org/2000/svg\" width=\"{width}\" height=\"{height}\" viewBox=\"0 0 {width} {height}\" \
         role=\"img\" aria-labelledby=\"title\" aria-describedby=\"description\" font-family=\"system-ui, sans-serif\">\n\
         <title id=\"title\">{title}</title>\n<desc id=\"description\">{description}</desc>\n\
         <rect width=\"{width}\" height=\"{height}\" rx=\"6\" fill=\"#fff\"/>\n{body}</svg>\n"
    )
}
