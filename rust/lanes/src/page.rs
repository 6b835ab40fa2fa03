//! The two places of docs/lanes.md that the program writes, each between a pair of comments.

use crate::counts::Counts;
use crate::table::table;

const TABLE: &str = "rounds of the examples on 1 to 8 lanes";
const PLOT: &str = "plot of rounds against lanes";

/// The plot stands beside the page.
const LINK: &str = "![The examples' speed, work divided by rounds, on 1 to 8 lanes](lanes.svg)\n";

/// The page with both places written anew.
pub fn filled(page: &str, counts: &[Counts]) -> Result<String, String> {
    let page = replaced(page, TABLE, &table(counts))?;
    replaced(&page, PLOT, LINK)
}

fn replaced(page: &str, name: &str, text: &str) -> Result<String, String> {
    let mark = |side| format!("<!-- {}: {} -->\n", name, side);
    let (begin, end) = (mark("begin"), mark("end"));
    let missing = || format!("no '{}' with its end", begin.trim_end());
    let (before, rest) = page.split_once(&begin).ok_or_else(missing)?;
    let (_, after) = rest.split_once(&end).ok_or_else(missing)?;
    // A comment and a table with no empty line between them are one paragraph to some readers.
    Ok([before, &begin, "\n", text, "\n", &end, after].concat())
}

#[cfg(test)]
mod tests {
    use super::*;

    #[test]
    fn only_the_marked_place_changes() {
        let page = "a\n<!-- x: begin -->\nold\n<!-- x: end -->\nb\n";
        let expected = "a\n<!-- x: begin -->\n\nnew\n\n<!-- x: end -->\nb\n";
        assert_eq!(replaced(page, "x", "new\n").as_deref(), Ok(expected));
        assert_eq!(replaced(expected, "x", "new\n").as_deref(), Ok(expected));
    }

    #[test]
    fn a_page_without_the_marks_is_refused() {
        for page in [
            "",
            "<!-- x: begin -->\n",
            "<!-- x: end -->\n<!-- x: begin -->\n",
        ] {
            assert!(replaced(page, "x", "new\n").is_err(), "{}", page);
        }
    }
}
