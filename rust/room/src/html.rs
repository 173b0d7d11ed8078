//! Text in HTML and SVG.

/// Text that no browser takes for anything else, between tags and in quoted attributes. Characters that cannot be seen are shown as
/// one that can.
pub fn escaped(text: &str) -> String {
    let mut shown = String::new();
    for c in text.chars() {
        match c {
            '&' => shown += "&amp;",
            '<' => shown += "&lt;",
            '>' => shown += "&gt;",
            '"' => shown += "&quot;",
            '\'' => shown += "&#39;",
            '\n' => shown.push('\n'),
            c if c.is_control() || turns_text_round(c) => shown.push('\u{fffd}'),
            c => shown.push(c),
        }
    }
    shown
}

/// Characters that change the direction of the text behind them.
fn turns_text_round(c: char) -> bool {
    matches!(c, '\u{202a}'..='\u{202e}' | '\u{2066}'..='\u{2069}')
}

#[cfg(test)]
mod tests {
    use super::escaped;

    #[test]
    fn signs_and_controls() {
        let text = "<a href=\"x\" b='y'>&amp;\n\u{1b}[1m\u{202e}é 麦";
        let expected =
            "&lt;a href=&quot;x&quot; b=&#39;y&#39;&gt;&amp;amp;\n\u{fffd}[1m\u{fffd}é 麦";
        assert_eq!(escaped(text), expected);
    }
}
