//! How much stack each function of the library takes, called through the binding.

use crate::packets::{self, HEADER, NTP4_HEADER, NTP5_HEADER};
use crate::port::AnyHeader;
use crate::stack::depth;
use lobzhinar::{
    Ciphertext, Cut, FieldsToWrite, FilterOffset, Journal, Mac, Nonce, NtpHeaderV3V4, NtpHeaderV5,
    Opening, Output, Packet, PayloadLen, ReferenceIdRequest, ReferenceIdResponse, Results,
    SealTable, Survey, Tables, Workspace, deserialize, stage_one, survey,
};
use std::hint::black_box;

fn row(functions: &str, bytes: usize) {
    println!("| {functions} | {bytes} |");
}

pub fn print() {
    println!("\n## Stack of each function, in bytes\n");
    println!("| Function | stack |");
    println!("|---|---|");
    reading();
    writing();
    let functions = ["header_read", "header_write", "reading"];
    header::<NtpHeaderV5>(&NTP5_HEADER, functions);
    let functions = ["header_v3v4_read", "header_v3v4_write", "reading_v3v4"];
    header::<NtpHeaderV3V4>(&NTP4_HEADER, functions);
    journal();
    cuts();
    rest();
}

fn cuts() {
    let request = &packets::all()[1];
    let packet = Packet::v4(&request.bytes);
    let (offsets, lengths) = ([48, 84, 188], [36, 104, 40]);
    let cut = |i: usize| Cut {
        field_offset: offsets[i],
        wire_length: lengths[i],
    };
    let cuts = [0, 1, 2].map(cut);
    let judged = depth(|| {
        let is_cut = packet.is_cut(black_box(&cuts));
        assert!(is_cut && packet.is_cut_lists(black_box(&offsets), black_box(&lengths)));
    });
    row("`ntp_raw_is_cut_table`, `ntp_raw_is_cut`", judged);
}

fn journal() {
    // A header of which the first stores are there: it is torn.
    let mut image = [0xff; 256];
    image[2..40].fill(7);
    let recovered = depth(|| {
        assert!(black_box(Journal::recover(&mut image)).is_ok());
    });
    row(
        "`ntp_raw_journal_find`, `ntp_raw_journal_recovery_store`, `ntp_raw_journal_store`",
        recovered,
    );
    let mut journal = Journal::recover(&mut image).expect("it is short enough");
    let appended = depth(|| {
        assert!(black_box(journal.append_header(&NTP4_HEADER)).is_ok());
    });
    row(
        "`ntp_raw_journal_start`, `ntp_raw_journal_append_store`, `ntp_raw_journal_store`",
        appended,
    );
    let shown = depth(|| {
        black_box(journal.entries().count());
    });
    row("`ntp_raw_journal_entry`", shown);
}

fn reading() {
    let response = &packets::all()[2];
    let packet = Packet::v4(&response.bytes);
    let stored = response.plain.clone().unwrap_or_default();
    let plaintext_len = stored.len();
    let (mut seals, mut tables) = (SealTable::new(), Tables::new());
    let surveyed = depth(|| {
        black_box(survey(packet, &mut seals).iter().count());
    });
    row("`ntp_raw_survey_128`, `ntp_raw_seal_128`", surveyed);
    let survey = survey(packet, &mut seals);
    let mut plaintexts = stored.clone();
    let results = opened(&survey, &mut plaintexts, &mut tables, plaintext_len);
    let read = depth(|| {
        black_box(results.deserialize().is_ok());
    });
    row("`ntp_raw_read_128`", read);
    let results = opened(&survey, &mut plaintexts, &mut tables, plaintext_len);
    let read = results.deserialize();
    let Ok(data) = read else {
        unreachable!("it is read")
    };
    let outer = depth(|| {
        black_box(data.authenticated().count());
    });
    row("`ntp_raw_authenticated_field_128`", outer);
    let inner = depth(|| {
        black_box(data.encrypted().count());
    });
    row("`ntp_raw_encrypted_field_128`", inner);
    let (mut workspace, mut plaintexts) = (Workspace::new(), stored);
    let at_once = depth(|| {
        let opening = Opening::Opened { plaintext_len };
        let read = deserialize(packet, &mut workspace, &mut plaintexts, |_, _, _| opening);
        black_box(read.is_ok());
    });
    row("the binding's `deserialize`, all of these", at_once);
}

/// Results by which each sealed field opened.
fn opened<'packet, 'plain, 'tables>(
    survey: &Survey<'packet, '_>,
    plaintexts: &'plain mut [u8],
    tables: &'tables mut Tables,
    plaintext_len: usize,
) -> Results<'packet, 'plain, 'tables> {
    let mut results = Results::new(survey, plaintexts, tables);
    for sealed in survey {
        let added = results.opened(&sealed, plaintext_len);
        added.expect("it is its turn");
    }
    results
}

fn writing() {
    let mut data = [0; 256];
    let mut fields = FieldsToWrite::<2>::with_capacity(&mut data);
    let added = fields.authenticated().nts_cookie(&[7; 100]).is_ok();
    assert!(added && fields.untrusted().nts_cookie(&[7; 100]).is_ok());
    let (mut out, mut plaintext) = ([0; 512], [0; 256]);
    let first = depth(|| {
        let staged = stage_one(&fields, Output::v4(&mut out), &mut plaintext);
        black_box(staged.is_ok());
    });
    row("`ntp_raw_stage_one`", first);
    let staged = stage_one(&fields, Output::v4(&mut out), &mut plaintext).expect("there is room");
    let second = depth(|| {
        let packet_len = staged.stage_two(Nonce(&[1; 16]), Ciphertext(&[2; 16]));
        black_box(packet_len).expect("there is room");
    });
    row("`ntp_raw_stage_two`", second);
}

/// The functions' names are without the `ntp_raw_` that they begin with.
fn header<H: AnyHeader + Sync>(bytes: &[u8], [read, write, reading]: [&str; 3]) {
    let header = H::deserialized(bytes);
    let mut out = [0; HEADER];
    let depth_of_read = depth(|| {
        black_box(H::deserialized(black_box(bytes)));
    });
    row(&format!("`ntp_raw_{read}`"), depth_of_read);
    let depth_of_write = depth(|| {
        black_box(header.serialized(&mut out));
    });
    row(&format!("`ntp_raw_{write}`"), depth_of_write);
    let depth_of_reading = depth(|| {
        black_box(black_box(&header).distance_seconds());
    });
    row(&format!("`ntp_raw_{reading}`"), depth_of_reading);
}

fn rest() {
    let mut out = [0; 64];
    let mac = depth(|| {
        let mac = Mac::deserialize(black_box(&[7; 20])).expect("a MAC");
        black_box(mac.serialize(&mut out, 0)).expect("there is room");
    });
    row("`ntp_raw_mac_read`, `ntp_raw_mac_write`", mac);
    let request = depth(|| {
        let request = ReferenceIdRequest::new(PayloadLen(8), FilterOffset(4)).expect("a request");
        black_box(request.serialize(&mut out, 0)).expect("there is room");
        black_box(ReferenceIdRequest::decode(black_box(&[0; 8]))).expect("a request");
    });
    row(
        "`ntp_raw_request_new`, `ntp_raw_request_write`, `ntp_raw_request_read`",
        request,
    );
    let response = depth(|| {
        let request = ReferenceIdRequest::new(PayloadLen(8), FilterOffset(4)).expect("a request");
        let cut = request.to_response(&[7; 12]).expect("it lies inside");
        black_box(cut.serialize(&mut out, 0)).expect("there is room");
        black_box(ReferenceIdResponse::new(black_box(&[7; 8]))).expect("a response");
    });
    row(
        "`ntp_raw_response_cut`, `ntp_raw_response_write`, `ntp_raw_response_new`",
        response,
    );
}
