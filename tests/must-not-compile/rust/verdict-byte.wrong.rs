// A closure says by a bare number that a sealed field opened.
use lobzhinar::{Opening, Packet, Workspace, deserialize};

pub fn host(packet: &[u8], workspace: &mut Workspace, room: &mut [u8]) -> bool {
    let read = deserialize(Packet::v4(packet), workspace, room, |_, _, room| {
        let plaintext_len = room.len();
        match plaintext_len {
            0 => Opening::Failed,
            _ => 2, //~ E0308
        }
    });
    read.is_ok()
}
