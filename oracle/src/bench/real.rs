//! Packets of real servers and clients, from the stored lists.

use crate::format;
use crate::packet::extension_fields::ExtensionHeaderVersion as Version;
use crate::packets::Packet;
use std::path::Path;

const LISTS: [&str; 3] = ["captured.txt", "ntpsec.txt", "interop.txt"];

/// The packets that are read with answer 0, each with its one plaintext if it has a sealed field.
pub fn packets(folder: &Path) -> Vec<Packet> {
    let mut found = Vec::new();
    for list in LISTS {
        let text = std::fs::read_to_string(folder.join(list)).expect("the stored list is there");
        let mut name = String::new();
        for line in text.lines() {
            if let Some(title) = line.strip_prefix("# ") {
                name = title.to_string();
            }
            found.extend(accepted(line, &name));
        }
    }
    found
}

/// The packet of a case `read 4 48 PACKET RESULTS PLAIN => 0 ..`.
fn accepted(line: &str, name: &str) -> Option<Packet> {
    let (case, answer) = line.strip_prefix("read 4 48 ")?.split_once(" => ")?;
    if !answer.starts_with("0 ") {
        return None;
    }
    let words: Vec<&str> = case.split(' ').collect();
    let [bytes, results, plain] = words[..] else {
        return None;
    };
    let plain = format::bytes(plain).ok()?;
    Some(Packet {
        name: name.to_string(),
        version: Version::V4,
        bytes: format::bytes(bytes).ok()?,
        plain: (results != "-").then_some(plain),
    })
}
