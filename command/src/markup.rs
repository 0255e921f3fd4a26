//! Text inside SVG and HTML.

/// A text that stands for itself in both: signs of the markup are escaped, and what XML can't hold is replaced.
pub fn escaped(text: &str) -> String {
    let mut escaped = String::with_capacity(text.len());
    for c in text.chars() {
        match c {
            '&' => escaped.push_str("&amp;"),
            '<' => escaped.push_str("&lt;"),
            '>' => escaped.push_str("&gt;"),
            '"' => escaped.push_str("&quot;"),
            '\'' => escaped.push_str("&#39;"),
            '\u{FFFE}' | '\u{FFFF}' => escaped.push('\u{FFFD}'),
            c if c.is_control() => escaped.push('\u{FFFD}'),
            c => escaped.push(c),
        }
    }
    escaped
}

/// The first characters of a text; where some are left out, the last one says so.
pub fn shortened(text: &str, most: usize) -> String {
    if text.chars().count() <= most {
        return text.to_string();
    }
    let start: String = text.chars().take(most.saturating_sub(1)).collect();
    start + "…"
}

/// About the width of a text in letters of a size, rather more than less.
pub fn width_of(text: &str, size: f64) -> f64 {
    text.chars().map(|c| width_of_one(c) * size).sum()
}

fn width_of_one(c: char) -> f64 {
    match c {
        'i' | 'j' | 'l' | '.' | ',' | ':' | ';' | '|' | '\'' => 0.29,
        'W' | 'M' | 'm' | 'w' | '@' | '%' | '…' => 1.0,
        c if c.is_uppercase() => 0.75,
        // Letters of East Asia and signs are as wide as they are high.
        c if c >= '\u{1100}' => 1.05,
        _ => 0.58,
    }
}

/// The first characters of a text that fit a width; where some are left out, the last one says so.
pub fn fitted(text: &str, size: f64, widest: f64) -> String {
    let number = text.chars().count();
    let fits = |text: &String| width_of(text, size) <= widest;
    let shorter = (1..=number).rev().map(|most| shortened(text, most));
    shorter.into_iter().find(fits).unwrap_or_default()
}

#[cfg(test)]
mod tests {
    use super::*;

    #[test]
    fn markup_stands_for_itself() {
        assert_eq!(
            escaped("<b>\"K & 'N'\"</b>"),
            "&lt;b&gt;&quot;K &amp; &#39;N&#39;&quot;&lt;/b&gt;"
        );
        assert_eq!(escaped("a\u{0}b\u{FFFE}"), "a\u{FFFD}b\u{FFFD}");
        assert_eq!(shortened("phosphate", 9), "phosphate");
        assert_eq!(shortened("phosphates", 9), "phosphat…");
    }

    #[test]
    fn texts_fit() {
        assert_eq!(fitted("phosphate", 11.0, 112.0), "phosphate");
        for name in [
            "W".repeat(40),
            "水".repeat(40),
            "i".repeat(40),
            "nitrate".repeat(5),
        ] {
            let shown = fitted(&name, 11.0, 112.0);
            assert!(
                shown.ends_with('…') && width_of(&shown, 11.0) <= 112.0,
                "{shown}"
            );
            assert!(width_of(&shown, 11.0) > 90.0, "{shown}");
        }
    }
}
