//! Writing through the binding: in two stages, and in one call. Both have to tell the same.

use crate::answers::{Answer, request_of, version, wrote};
use crate::format::{self, NotACase, Parsed, Words, hex};
use crate::raw;
use lobzhinar::{
    Between, Ciphertext, EncryptResult, ExtensionHeaderVersion, FieldsToWrite, Full, ListToWrite,
    Nonce, Output, ReferenceIdResponse, Refusal, serialize, stage_one, stage_one_without_cipher,
};

/// More fields than a drawn case has in a list.
const FIELDS: usize = 512;

/// More bytes than the fields of a drawn case have together.
const DATA: usize = 800_000;

/// The room that docs/REPLAY.md gives the plaintext.
pub const PLAINTEXT: usize = 65_535;

/// A case `write`.
pub struct Case<'a> {
    pub version: ExtensionHeaderVersion,
    pub has_cipher: bool,
    pub nonce: Vec<u8>,
    pub ciphertext: Vec<u8>,
    pub at: usize,
    pub out: Vec<u8>,
    pub authenticated: Vec<Vec<&'a str>>,
    pub encrypted: Vec<Vec<&'a str>>,
    pub untrusted: Vec<Vec<&'a str>>,
}

impl<'a> Case<'a> {
    fn of(words: &mut Words<'a>) -> Parsed<Self> {
        let case = Self {
            version: version(words)?,
            has_cipher: words.flag()?,
            nonce: words.bytes()?,
            ciphertext: words.bytes()?,
            at: words.number::<u64>()? as usize,
            out: words.bytes()?,
            authenticated: words.list()?,
            encrypted: words.list()?,
            untrusted: words.list()?,
        };
        words.end()?;
        Ok(case)
    }
}

pub fn write(words: &mut Words) -> Parsed<Answer> {
    let case = Case::of(words)?;
    let mut data = vec![0; DATA];
    let mut fields = FieldsToWrite::<FIELDS>::with_capacity(&mut data);
    let added = [
        add(&mut fields.authenticated(), &case.authenticated)?,
        add(&mut fields.encrypted(), &case.encrypted)?,
        add(&mut fields.untrusted(), &case.untrusted)?,
    ];
    if added.contains(&Added::Not) {
        return Ok(Answer::raw(raw::write(&case)?));
    }
    if added.contains(&Added::Full) {
        return Ok(Answer::public("a list is full".to_string()));
    }
    let answer = in_two_stages(&case, &fields);
    if case.has_cipher {
        let at_once = at_once(&case, &fields);
        if at_once != answer {
            return Ok(Answer::public(format!("in one call: {at_once}")));
        }
    }
    Ok(Answer::public(answer))
}

/// Whether all fields of a list were added. The binding has no marker to write, and no request without an offset.
#[derive(PartialEq)]
enum Added {
    All,
    Full,
    Not,
}

fn add(list: &mut ListToWrite<FIELDS>, entries: &[Vec<&str>]) -> Parsed<Added> {
    for parts in entries {
        let added = match parts[..] {
            ["unknown", type_id, data] => {
                list.unknown(format::number(type_id)?, &format::bytes(data)?)
            }
            ["uid", data] => list.unique_identifier(&format::bytes(data)?),
            ["cookie", data] => list.nts_cookie(&format::bytes(data)?),
            ["placeholder", length] => list.nts_cookie_placeholder(format::number(length)?),
            ["draft", text] => list.draft_identification(&format::bytes(text)?),
            ["padding", length] => list.padding(format::number(length)?),
            ["request", payload, offset] => {
                let request = request_of(format::number(payload)?, format::number(offset)?);
                let Some(request) = request else {
                    return Ok(Added::Not);
                };
                list.reference_id_request(request)
            }
            ["response", data] => {
                list.reference_id_response(ReferenceIdResponse::decode(&format::bytes(data)?))
            }
            ["marker"] => return Ok(Added::Not),
            _ => return Err(NotACase),
        };
        if matches!(added, Err(Full)) {
            return Ok(Added::Full);
        }
    }
    Ok(Added::All)
}

fn in_two_stages(case: &Case, fields: &FieldsToWrite<FIELDS>) -> String {
    let mut out = case.out.clone();
    let mut room = vec![0; PLAINTEXT];
    let output = Output::with_header(case.version, case.at, &mut out);
    let stage = if case.has_cipher {
        stage_one(fields, output, &mut room)
    } else {
        stage_one_without_cipher(fields, output)
    };
    let (plaintext, packet_len) = match stage {
        Err(refusal) => (vec![], Err(refusal)),
        Ok(stage) => {
            let plaintext = stage.plaintext().to_vec();
            let (nonce, ciphertext) = (Nonce(&case.nonce), Ciphertext(&case.ciphertext));
            let packet_len = if stage.owes_seal() {
                stage.stage_two(nonce, ciphertext)
            } else {
                stage.stage_two_without_seal()
            };
            (plaintext, packet_len)
        }
    };
    told(case, packet_len, &plaintext, &out)
}

fn at_once(case: &Case, fields: &FieldsToWrite<FIELDS>) -> String {
    let mut out = case.out.clone();
    let output = Output::with_header(case.version, case.at, &mut out);
    let between = Between {
        plaintext: &mut vec![0; PLAINTEXT],
        nonce: &mut vec![0; case.nonce.len()],
        ciphertext: &mut vec![0; case.ciphertext.len()],
    };
    let mut plaintext = vec![];
    let packet_len = serialize(fields, output, between, |work| {
        plaintext = work.plaintext.to_vec();
        work.nonce.copy_from_slice(&case.nonce);
        work.ciphertext.copy_from_slice(&case.ciphertext);
        Some(EncryptResult {
            nonce_length: case.nonce.len(),
            ciphertext_length: case.ciphertext.len(),
        })
    });
    told(case, packet_len, &plaintext, &out)
}

fn told(case: &Case, packet_len: Result<usize, Refusal>, plaintext: &[u8], out: &[u8]) -> String {
    match packet_len {
        Err(refusal) => wrote(Err(refusal), out),
        Ok(packet_len) => {
            let count = packet_len - case.at;
            format!("0 {count} {} {}", hex(plaintext), hex(out))
        }
    }
}
