//! What a key chooser sees before it opens a sealed field: the context that the binding's one call gives its closure,
//! beside what ntp-proto hands to a `CipherProvider`.

use crate::packet::answer::domain::MOST_FIELDS;
use crate::packet::contexts::{Key, Opener, contexts, request_message};
use crate::packet::extension_fields::ExtensionHeaderVersion as Theirs;
use crate::read::{Case, Result, name};
use lobzhinar::{Context, ExtensionField, ExtensionHeaderVersion};

/// The fields of a context in words: kind and message of each.
pub fn ours(context: Context) -> Vec<String> {
    context
        .map(|item| {
            let field = item.field();
            let says = match field {
                ExtensionField::InvalidNtsEncryptedField => vec![],
                ExtensionField::ReferenceIdRequest(request) => {
                    request_message(request.payload_len().0, request.filter_offset().0)
                }
                _ => item.message().to_vec(),
            };
            format!("{} {says:?}", name(&field))
        })
        .collect()
}

/// What ntp-proto hands out for each sealed field of a packet with this answer. Nothing where the packet is refused, or
/// has more items than a table holds, each sealed field counted as one: the binding has no contexts then.
pub fn theirs(case: &Case, answer: &str) -> Option<Vec<Vec<String>>> {
    let words: Vec<&str> = answer.split(' ').collect();
    let ["0" | "5", outer, ..] = words[..] else {
        return None;
    };
    let outer = outer.split(',').filter(|entry| *entry != "-");
    let opened = case.results.iter().filter(|result| result.verdict > 1);
    if outer.count() + opened.count() > MOST_FIELDS {
        return None;
    }
    let version = match case.version {
        ExtensionHeaderVersion::V4 => Theirs::V4,
        ExtensionHeaderVersion::V5 => Theirs::V5,
    };
    let keys = case.results.iter().map(|result| key(case, result));
    Some(contexts(
        &case.packet,
        case.header_size,
        version,
        keys.collect(),
    ))
}

fn key(case: &Case, result: &Result) -> Key {
    let (start, len) = (result.start as usize, result.len as usize);
    match result.verdict {
        0 => Key::None,
        1 => Key::Some(Opener(None)),
        _ => {
            let end = start.checked_add(len);
            let plaintext = end.and_then(|end| case.plaintexts.get(start..end));
            Key::Some(Opener(plaintext.map(<[u8]>::to_vec)))
        }
    }
}
