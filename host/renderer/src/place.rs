//! Where a piece and its report are written to.

use crate::answers::{self, Listed, listed};
use crate::checksum;
use crate::folder::{Folder, Identity};
use crate::playing::Playing;
use std::fs;
use std::path::{Path, PathBuf};

pub struct Place {
    /// Held against other runs.
    _folder: Folder,
    /// The piece, and the file of its aux output where it is one of its own.
    pub files: Vec<PathBuf>,
    pub report: PathBuf,
    /// What an earlier run wrote here, and is as it was.
    pub known: Vec<Listed>,
}

impl Place {
    /// Holds the folder of the piece, and looks that nothing is written over which no run wrote.
    pub fn hold(asked: &Playing, read: Identity) -> Result<Self, String> {
        let parent = asked.piece.parent().filter(|path| !path.as_os_str().is_empty());
        let folder = Folder::hold(parent.unwrap_or(Path::new(".")), (asked.score.clone(), read))?;
        let files: Vec<PathBuf> = [&asked.piece].into_iter().chain(&asked.aux).cloned().collect();
        let report = asked.piece.with_file_name(format!("{}.report.csv", name(&asked.piece)));
        folder.look_at_sheet()?;
        folder.look_at(&name(&report), answers::is_ours)?;
        let known = known(&report);
        for path in &files {
            let shown = path.display();
            if folder.is_sheet(path) {
                return Err(format!("{shown} is the score itself: name another file"));
            }
            let is_known = known.iter().any(|listed| listed.name == name(path));
            if fs::symlink_metadata(path).is_ok() && !is_known && !asked.is_forced {
                return Err(format!(
                    "{shown} is there, and not as a run wrote it: move it away, name another file, or play with --force"
                ));
            }
        }
        Ok(Place { _folder: folder, files, report, known })
    }
}

/// The files that a report lists, and that are as it lists them.
fn known(report: &Path) -> Vec<Listed> {
    let mut known = fs::read(report).map_or(vec![], |text| listed(&text));
    known.retain(|listed| {
        let file = report.with_file_name(&listed.name);
        checksum::of_file(&file).is_ok_and(|found| found == listed.checksum)
    });
    known
}

/// The name of a file without its folder.
pub fn name(path: &Path) -> String {
    path.file_name().unwrap_or_default().to_string_lossy().into_owned()
}
