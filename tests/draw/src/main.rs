//! Draws what the protocol's document shows: `draw FOLDER` writes the diagram of the states and
//! ladder diagrams into the folder, and the step table into the folder's PROTOCOL.md.
//!
//! All of it is computed from what the reference does, so that the document cannot say anything
//! else. The output depends on nothing else, byte for byte.

mod condition;
mod document;
mod end;
mod kind;
mod label;
mod ladder;
mod name;
mod outcome;
mod plane;
mod probe;
mod run;
mod states;
mod svg;
mod table;

use ladder::LADDERS;
use std::env;
use std::fs;
use std::path::{Path, PathBuf};
use std::process::ExitCode;

/// The file with the step table, and the one with the diagram of the states.
const DOCUMENT: &str = "PROTOCOL.md";
const STATES: &str = "states.svg";

fn main() -> ExitCode {
    let arguments: Vec<_> = env::args_os().skip(1).collect();
    let result = match &arguments[..] {
        [folder] => draw(Path::new(folder)),
        _ => Err("usage: draw FOLDER".to_string()),
    };
    match result {
        Ok(()) => ExitCode::SUCCESS,
        Err(error) => {
            eprintln!("draw: {error}");
            ExitCode::FAILURE
        }
    }
}

/// Makes all files of the folder. Nothing is written before all are made.
fn draw(folder: &Path) -> Result<(), String> {
    let path = folder.join(DOCUMENT);
    let document = fs::read_to_string(&path).map_err(|error| about(&path, error))?;
    for (path, text) in files(folder, &document)? {
        fs::write(&path, text).map_err(|error| about(&path, error))?;
    }
    Ok(())
}

/// The files of the folder whose document this is.
fn files(folder: &Path, document: &str) -> Result<Vec<(PathBuf, String)>, String> {
    let rows = table::rows()?;
    let table = table::markdown(&rows)?;
    let document = document::with_table(document, &table);
    let document = document.map_err(|error| format!("{DOCUMENT}: {error}"))?;
    let mut files = vec![
        (folder.join(STATES), states::picture(&rows)?),
        (folder.join(DOCUMENT), document),
    ];
    for ladder in LADDERS {
        files.push((folder.join(ladder.file), ladder.picture()?));
    }
    Ok(files)
}

/// An error about a file.
fn about(path: &Path, error: impl std::fmt::Display) -> String {
    format!("{}: {error}", path.display())
}

#[cfg(test)]
mod tests {
    use super::*;

    const EMPTY: &str = "\
<!-- step table: made by tests/draw -->
<!-- end of the step table -->
";

    #[test]
    fn the_files_are_the_same_each_time() {
        let folder = Path::new("docs");
        let once = files(folder, EMPTY).unwrap();
        let names: Vec<_> = once.iter().map(|(path, _)| path.file_name()).collect();
        let expected = [
            STATES,
            DOCUMENT,
            "opening.svg",
            "refused-call.svg",
            "hung-up.svg",
            "restarted.svg",
        ];
        assert_eq!(names, expected.map(|name| Some(name.as_ref())));
        let (_, document) = &once[1];
        assert_eq!(files(folder, document), Ok(once));
    }

    #[test]
    fn a_document_without_markers_is_refused() {
        let error = files(Path::new("docs"), "# Title\n").unwrap_err();
        assert!(error.starts_with("PROTOCOL.md: the line '<!-- step table"));
        assert!(error.ends_with("is missing"));
    }
}
