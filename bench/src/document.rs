//! A document whose figures stand between two marks.

const START: &str = "<!-- figures";
const END: &str = "<!-- end of figures -->";

/// The document with other figures, or none where a mark is missing.
pub fn with_figures(document: &str, figures: &str) -> Option<String> {
    let mark = document.find(START)?;
    let start = mark + document[mark..].find("-->")? + "-->".len();
    let end = start + document[start..].find(END)?;
    let (before, after) = (&document[..start], &document[end..]);
    Some(format!("{before}\n\n{}\n\n{after}", figures.trim()))
}

#[cfg(test)]
mod tests {
    use super::*;

    #[test]
    fn only_what_stands_between_the_marks_is_replaced() {
        let document = "a\n<!-- figures: as printed -->\nold\n<!-- end of figures -->\nb\n";
        let other = "a\n<!-- figures: as printed -->\n\nnew\n\n<!-- end of figures -->\nb\n";
        assert_eq!(with_figures(document, "new\n").as_deref(), Some(other));
        assert_eq!(with_figures(other, "new").as_deref(), Some(other));
        assert_eq!(with_figures("a\nold\n", "new"), None);
    }
}
