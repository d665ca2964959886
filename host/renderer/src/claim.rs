//! The names of files: which a note may take.

use crate::catalogue::file_of;
use crate::checksum;
use crate::folder::Folder;
use crate::format::Format;
use crate::known::Known;
use crate::order::Order;
use crate::outcome::{Outcome, Rendered};
use std::fs;

/// Why a rendered note may not take its file's name.
pub fn in_the_way(
    order: &Order,
    rendered: &Rendered,
    folder: &Folder,
    known: &Known,
    format: Format,
    is_forced: bool,
) -> Option<Outcome> {
    let file = file_of(order.name(), format);
    let path = folder.file(&file);
    if fs::symlink_metadata(&path).is_err() {
        return None;
    }
    if folder.is_sheet(&path) {
        let reason =
            format!("its file would be the sheet itself, {file}: rename the one or the other");
        return Some(Outcome::Failed(reason));
    }
    // The same file as would be written is as good as one that is known.
    let is_ours = is_forced
        || known.has(&file)
        || checksum::of_file(&path).is_ok_and(|checksum| checksum == rendered.checksum);
    (!is_ours).then(|| {
        Outcome::Failed(format!(
            "{file} is there, and no run wrote it: move it away, or render with --force"
        ))
    })
}
