//! The binding's side: a packet read through its public interface, step by step and in one call.

use crate::packet::extension_fields::ExtensionHeaderVersion as Version;
use crate::packets;
use crate::port::ends;
use lobzhinar::{
    Context, ExtensionField, ExtensionFieldData, Opening, Packet, ReadError, Results, SealTable,
    Sealed, Tables, Workspace, deserialize, survey,
};

/// A packet whose one sealed field opens to a stored plaintext.
pub struct Reader<'a> {
    packet: Packet<'a>,
    stored: Vec<u8>,
    plaintexts: Vec<u8>,
    seals: SealTable,
    tables: Tables,
    workspace: Workspace,
}

impl<'a> Reader<'a> {
    pub fn new(packet: &'a packets::Packet) -> Self {
        let stored = packet.plain.clone().unwrap_or_default();
        Self {
            packet: match packet.version {
                Version::V4 => Packet::v4(&packet.bytes),
                Version::V5 => Packet::v5(&packet.bytes),
            },
            plaintexts: stored.clone(),
            stored,
            seals: SealTable::new(),
            tables: Tables::new(),
            workspace: Workspace::new(),
        }
    }

    /// Survey, results, reading and all fields. The plaintext is there already, as it is for the library's functions.
    pub fn step_by_step(&mut self) -> u64 {
        let plaintext_len = self.stored.len();
        let survey = survey(self.packet, &mut self.seals);
        let mut results = Results::new(&survey, &mut self.plaintexts, &mut self.tables);
        let mut sum = 0;
        for sealed in &survey {
            sum += looked_at(&sealed);
            let opened = results.opened(&sealed, plaintext_len);
            opened.expect("it is its turn");
        }
        sum + all(results.deserialize())
    }

    /// The one call, with a closure that says that the plaintext is there.
    pub fn at_once(&mut self) -> u64 {
        let plaintext_len = self.stored.len();
        self.by(|_, _, _| Opening::Opened { plaintext_len })
    }

    /// The one call, with a closure that copies the plaintext.
    pub fn at_once_copying(&mut self) -> u64 {
        let stored = std::mem::take(&mut self.stored);
        let sum = self.by(|_, _, room| {
            room[..stored.len()].copy_from_slice(&stored);
            Opening::Opened {
                plaintext_len: stored.len(),
            }
        });
        self.stored = stored;
        sum
    }

    /// The one call, with a closure that looks for an identifier in the context, as a server looks for a cookie.
    pub fn at_once_with_context(&mut self) -> u64 {
        let plaintext_len = self.stored.len();
        self.by(|_, mut context, _| {
            let is_there = |field| matches!(field, ExtensionField::UniqueIdentifier(_));
            if context.any(|item| is_there(item.field())) {
                Opening::Opened { plaintext_len }
            } else {
                Opening::NoKey
            }
        })
    }

    fn by(&mut self, mut open: impl FnMut(Sealed, Context, &mut [u8]) -> Opening) -> u64 {
        let mut sum = 0;
        let read = deserialize(
            self.packet,
            &mut self.workspace,
            &mut self.plaintexts,
            |sealed, context, room| {
                sum += looked_at(&sealed);
                open(sealed, context, room)
            },
        );
        all(read) + sum
    }
}

fn looked_at(sealed: &Sealed) -> u64 {
    ends(sealed.nonce()) + ends(sealed.ciphertext())
}

fn all(read: Result<ExtensionFieldData, ReadError>) -> u64 {
    match read {
        Ok(data) => {
            let authenticated: u64 = data.authenticated().map(|f| ends(f.message())).sum();
            let untrusted: u64 = data.untrusted().map(|f| ends(f.message())).sum();
            let encrypted: u64 = data.encrypted().map(|f| ends(f.message())).sum();
            authenticated + untrusted + encrypted
        }
        Err(error) => u64::from(error.number()),
    }
}
