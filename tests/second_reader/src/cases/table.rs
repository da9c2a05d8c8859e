//! The table of published responses for tests/README.md.

use std::collections::BTreeMap;
use std::fs;
use std::path::Path;

use super::aim::at_each;
use super::published::{read_folder, Published};
use crate::check::{judge, Answer};
use crate::oid;
use crate::time;

/// A line of MANIFEST.tsv: file, package, version, member, octets.
struct Source {
    package: String,
    version: String,
    octets: usize,
}

fn manifest(folder: &Path) -> Result<BTreeMap<String, Source>, String> {
    let path = folder.join("MANIFEST.tsv");
    let text = fs::read_to_string(&path).map_err(|error| format!("{}: {error}", path.display()))?;
    let mut sources = BTreeMap::new();
    for line in text.lines().skip(1) {
        let fields: Vec<&str> = line.split('\t').collect();
        let [file, package, version, _, octets] = fields[..] else {
            return Err(format!("MANIFEST.tsv has a line of another form: {line}"));
        };
        let octets = octets.parse().map_err(|_| format!("no number of octets: {line}"))?;
        let source = Source { package: package.into(), version: version.into(), octets };
        sources.insert(file.to_string(), source);
    }
    Ok(sources)
}

/// The table, by source, as markdown.
pub fn text(folder: &Path) -> Result<String, String> {
    let mut sources = manifest(folder)?;
    let mut by_source: BTreeMap<String, Vec<String>> = BTreeMap::new();
    for published in read_folder(folder)? {
        let source = sources
            .remove(&published.name)
            .ok_or_else(|| format!("{} is not in the manifest", published.name))?;
        if source.octets != published.octets.len() {
            return Err(format!("{} has not the octets of the manifest", published.name));
        }
        let heading = format!("{} {}", source.package, source.version);
        by_source.entry(heading).or_default().push(row(&published));
    }
    if let Some(name) = sources.keys().next() {
        return Err(format!("{name} is in the manifest and not in the folder"));
    }
    let mut text = String::new();
    for (heading, rows) in by_source {
        text += &format!("### {heading}\n\n| File | Octets | Gives | Why |\n|---|---|---|---|\n");
        text += &rows.concat();
        text.push('\n');
    }
    Ok(text)
}

fn row(published: &Published) -> String {
    let aims = at_each(&published.octets);
    let aim = &aims[0];
    let (gives, why) = match judge(&aim.question, &published.octets) {
        Ok(answer) => {
            let (kind, this_update, next_update) = match &answer {
                Answer::Good { this_update, next_update, .. } => ("good", this_update, next_update),
                Answer::Unknown { this_update, next_update, .. } => {
                    ("unknown", this_update, next_update)
                }
                Answer::Revoked { this_update, next_update, .. } => {
                    ("revoked", this_update, next_update)
                }
                Answer::Refused { .. } => panic!("an accepted answer is no refusal"),
            };
            let entries = match aims.len() {
                1 => "its entry".to_string(),
                count => format!("the first of {count} entries"),
            };
            (
                kind.to_string(),
                format!("{entries}, {} to {}", shown(*this_update), shown(*next_update)),
            )
        }
        Err(refusal) => {
            let number = match refusal.status {
                0 => format!("refusal {}", refusal.number),
                status => format!("refusal {}, status {status}", refusal.number),
            };
            let place = refusal.misfit.map_or(String::new(), |misfit| {
                format!(" (place {}, {})", misfit.place, misfit.kind.words())
            });
            let other_hash = aim.entry.as_ref().is_some_and(|e| e.id.algorithm.oid != oid::SHA_1);
            let more = if refusal.number == 10 && other_hash {
                ": \"An entry is for the card if its algorithm is SHA-1 (content 2B 0E 03 02 1A, \
                 parameters absent or 05 00), both hashes and the serial are equal.\""
            } else {
                ""
            };
            (number + &place, format!("\"{}\"{more}", refusal.why))
        }
    };
    format!("| {} | {} | {gives} | {why} |\n", published.name, published.octets.len())
}

fn shown(seconds: u64) -> String {
    String::from_utf8_lossy(&time::write(seconds)).into_owned()
}
