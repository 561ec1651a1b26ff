//! The document that shows the step table.

/// The lines between which the table stands.
const BEGIN: &str = "<!-- step table: made by tests/draw -->";
const END: &str = "<!-- end of the step table -->";

/// The document with this table in the place of the one that it has. Both marker lines stay, and
/// all else.
pub fn with_table(document: &str, table: &str) -> Result<String, String> {
    let begin = find(document, BEGIN)?;
    let end = find(document, END)?;
    let start = begin + BEGIN.len();
    if end < start {
        return Err(format!("the line '{END}' stands before '{BEGIN}'"));
    }
    let (before, after) = (&document[..start], &document[end..]);
    Ok(format!("{before}\n\n{table}\n{after}"))
}

/// Where the one line begins that has this text.
fn find(document: &str, text: &str) -> Result<usize, String> {
    let mut begin = 0;
    let mut found = Vec::new();
    for line in document.split_inclusive('\n') {
        if line.trim_end_matches(['\r', '\n']) == text {
            found.push(begin);
        }
        begin += line.len();
    }
    match found[..] {
        [begin] => Ok(begin),
        [] => Err(format!("the line '{text}' is missing")),
        _ => Err(format!("the line '{text}' stands there more than once")),
    }
}

#[cfg(test)]
mod tests {
    use super::*;

    fn document(between: &str) -> String {
        format!("# Title\n\n{BEGIN}\n{between}{END}\n\nMore.\n")
    }

    #[test]
    fn what_stands_between_the_markers_is_replaced() {
        let right = document("\n| new |\n\n");
        for between in ["", "\n", "| old |\n", "\n| old |\n| older |\n\n"] {
            assert_eq!(
                with_table(&document(between), "| new |\n"),
                Ok(right.clone())
            );
        }
        assert_eq!(with_table(&right, "| new |\n"), Ok(right));
    }

    #[test]
    fn a_missing_marker_is_refused() {
        let whole = document("");
        for marker in [BEGIN, END] {
            let without = whole.replace(marker, "");
            let other = whole.replace(marker, "<!-- step table -->");
            let within = whole.replace(marker, &format!("see {marker}"));
            for text in [without, other, within] {
                let error = format!("the line '{marker}' is missing");
                assert_eq!(with_table(&text, "| new |\n"), Err(error));
            }
        }
    }

    #[test]
    fn markers_that_stand_twice_or_in_the_wrong_order_are_refused() {
        let twice = document("").repeat(2);
        let turned = format!("{END}\n{BEGIN}\n");
        assert!(with_table(&twice, "| new |\n").is_err());
        assert!(with_table(&turned, "| new |\n").is_err());
    }
}
