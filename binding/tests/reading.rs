//! Reading: what the comparison with ntp-proto can't see.

use lobzhinar::{
    Authenticated, Context, ExtensionField, ExtensionHeaderVersion, Field, NotItsTurn, Opening,
    Packet, ReadError, Refusal, Results, SealTable, Tables, Workspace, deserialize, survey,
};

const V5: ExtensionHeaderVersion = ExtensionHeaderVersion::V5;

/// How many entries a table has.
const TABLE: usize = 128;

/// A unique identifier of one byte, and so many sealed fields without nonce and ciphertext.
fn with_seals(count: usize) -> Vec<u8> {
    let seals = [4, 4, 0, 8, 0, 0, 0, 0].repeat(count);
    [&[1, 4, 0, 5, 7, 0, 0, 0], &seals[..]].concat()
}

fn v5(bytes: &[u8]) -> Packet<'_> {
    Packet::with_header(V5, 0, bytes)
}

#[test]
fn a_seal_that_failed_is_an_error_with_the_lists() {
    fn accepts(packet: &[u8]) -> Result<usize, Refusal> {
        let mut workspace = Workspace::new();
        let failed = |_, _: Context, _: &mut [u8]| Opening::Failed;
        let read = deserialize(v5(packet), &mut workspace, &mut [], failed)?;
        Ok(read.untrusted().len())
    }
    let packet = with_seals(1);
    assert_eq!(accepts(&packet), Err(Refusal::DecryptError));

    let (mut seals, mut tables) = (SealTable::new(), Tables::new());
    let survey = survey(v5(&packet), &mut seals);
    let mut results = Results::new(&survey, &mut [], &mut tables);
    for sealed in &survey {
        results.failed(&sealed).unwrap();
    }
    let error = results.deserialize().unwrap_err();
    assert_eq!(
        (error.number(), error.refusal()),
        (5, Refusal::DecryptError)
    );
    assert_eq!(error.to_string(), "a sealed field was not opened");
    let ReadError::DecryptError(data) = error else {
        panic!("{error}");
    };
    assert_eq!(data.untrusted().len(), 2);
    let marker = data.untrusted_field(1).unwrap();
    assert_eq!(marker.field(), ExtensionField::InvalidNtsEncryptedField);
    assert_eq!(marker.message(), [0; 4]);
    assert_eq!(marker.packet_offset().bytes_from_packet_start(), 8);
}

#[test]
fn a_refusal_says_where() {
    let mut packet = with_seals(0);
    packet.extend([1, 4, 0, 3]);
    let mut workspace = Workspace::new();
    let read = deserialize(v5(&packet), &mut workspace, &mut [], |_, _, _| {
        Opening::NoKey
    });
    let Err(ReadError::Refused(fault)) = read else {
        panic!("{read:?}");
    };
    assert_eq!(fault.refusal, Refusal::IncorrectLength);
    assert_eq!(fault.field_offset.bytes_from_packet_start(), 8);
    assert_eq!(fault.to_string(), "a length is wrong, at byte 8");
}

#[test]
fn there_is_nothing_past_the_end_of_a_list() {
    let packet = with_seals(1);
    let mut workspace = Workspace::new();
    let opened = |_, _: Context, _: &mut [u8]| Opening::Opened { plaintext_len: 0 };
    let read = deserialize(v5(&packet), &mut workspace, &mut [], opened).unwrap();
    assert!(read.authenticated_field(0).is_ok());
    assert_eq!(read.authenticated_field(1), Err(Refusal::CannotBeMade));
    assert_eq!(read.untrusted_field(0), Err(Refusal::CannotBeMade));
    assert_eq!(read.encrypted_field(0), Err(Refusal::CannotBeMade));
    assert_eq!(read.encrypted_field(usize::MAX), Err(Refusal::CannotBeMade));
}

#[test]
fn a_list_knows_its_length() {
    let packet = [&with_seals(0)[..], &with_seals(0), &with_seals(1)].concat();
    let mut workspace = Workspace::new();
    let opened = |_, _: Context, _: &mut [u8]| Opening::Opened { plaintext_len: 0 };
    let read = deserialize(v5(&packet), &mut workspace, &mut [], opened).unwrap();
    let mut fields = read.authenticated();
    let again = fields.clone();
    assert_eq!(fields.len(), 3);
    assert_eq!(fields.next(), again.clone().next());
    assert_eq!(fields.len(), 2);
    assert_eq!(fields.by_ref().count(), 2);
    assert_eq!((fields.len(), fields.next()), (0, None));
    assert_eq!(again.count(), 3);
}

#[test]
fn results_are_given_in_turn_and_for_their_packet() {
    let (packet, other) = (with_seals(2), with_seals(2));
    let (mut seals, mut other_seals) = (SealTable::new(), SealTable::new());
    let other = survey(v5(&other), &mut other_seals);
    let survey = survey(v5(&packet), &mut seals);
    let [first, second] = survey.iter().collect::<Vec<_>>()[..] else {
        panic!("two sealed fields");
    };
    let mut tables = Tables::new();
    let mut results = Results::new(&survey, &mut [], &mut tables);
    assert_eq!(results.opened(&second, 0), Err(NotItsTurn));
    let of_other = other.iter().next().unwrap();
    assert_eq!(results.no_key(&of_other), Err(NotItsTurn));
    assert_eq!(results.count(), 0);
    assert_eq!(results.opened(&first, 0), Ok(()));
    assert_eq!(results.opened(&first, 0), Err(NotItsTurn));
    assert_eq!(results.opened_by_cookie(&second, 0), Ok(()));
    assert_eq!(results.opened(&second, 0), Err(NotItsTurn));
    let read = results.deserialize().unwrap();
    assert_eq!(read.cookie(), Some(1));
}

#[test]
fn results_are_for_the_way_in_which_the_packet_was_cut() {
    let bytes = [4, 4, 0, 8, 0, 0, 0, 0].repeat(8);
    let mut seals = SealTable::new();
    let survey = survey(v5(&bytes), &mut seals);
    let mut tables = Tables::new();
    let mut results = Results::new(&survey, &mut [], &mut tables);
    for (version, header_size) in [(ExtensionHeaderVersion::V4, 0), (V5, 8)] {
        let packet = Packet::with_header(version, header_size, &bytes);
        let mut other_seals = SealTable::new();
        let other = lobzhinar::survey(packet, &mut other_seals);
        let sealed = other.iter().next().unwrap();
        assert_eq!(results.failed(&sealed), Err(NotItsTurn), "{version}");
    }
    let sealed = survey.iter().next().unwrap();
    assert_eq!(results.failed(&sealed), Ok(()));
}

#[test]
fn a_sealed_field_without_a_result_is_refused() {
    let packet = with_seals(1);
    let (mut seals, mut tables) = (SealTable::new(), Tables::new());
    let survey = survey(v5(&packet), &mut seals);
    let read = Results::new(&survey, &mut [], &mut tables).deserialize();
    assert_eq!(read.unwrap_err().number(), 9);
}

#[test]
fn a_plaintext_longer_than_its_room_is_refused() {
    let packet = with_seals(2);
    let mut plaintexts = [2, 4, 0, 4];
    let mut workspace = Workspace::new();
    for (lens, number) in [
        ([4, 0], 0),
        ([0, 4], 0),
        ([4, 4], 10),
        ([5, 0], 10),
        ([0, 5], 10),
        ([usize::MAX, 4], 10),
    ] {
        let read = deserialize(
            v5(&packet),
            &mut workspace,
            &mut plaintexts,
            |sealed, _, _| Opening::Opened {
                plaintext_len: lens[sealed.index()],
            },
        );
        let seen = read.map_or_else(|error| error.number(), |_| 0);
        assert_eq!(seen, number, "{lens:?}");
    }
}

#[test]
fn the_closure_gets_what_is_left_of_the_room() {
    let packet = with_seals(3);
    let mut plaintexts = [0; 12];
    let mut rooms = vec![];
    let mut workspace = Workspace::new();
    let read = deserialize(
        v5(&packet),
        &mut workspace,
        &mut plaintexts,
        |sealed, _, room| {
            rooms.push(room.len());
            if sealed.index() == 1 {
                return Opening::Failed;
            }
            let types = [0, 1, 2];
            room[..4].copy_from_slice(&[0x20, types[sealed.index()], 0, 4]);
            Opening::Opened { plaintext_len: 4 }
        },
    );
    assert_eq!(rooms, [12, 8, 8]);
    let Err(ReadError::DecryptError(data)) = read else {
        panic!("{read:?}");
    };
    let places = data.encrypted().map(|field| {
        let place = field.plaintexts_offset().bytes_from_plaintexts_start();
        (field.type_id(), place)
    });
    assert!(places.eq([(0x2000, 0), (0x2002, 4)]));
}

#[test]
fn a_context_ends_at_its_field_and_begins_after_the_last_opened_one() {
    let packet = [
        &[2, 4, 0, 4][..],
        &[4, 4, 0, 8, 0, 0, 0, 0],
        &[1, 4, 0, 4],
        &[4, 4, 0, 8, 0, 0, 0, 0],
        &[4, 4, 0, 8, 0, 0, 0, 0],
        &[2, 4, 0, 4],
    ]
    .concat();
    let mut seen = vec![];
    let mut workspace = Workspace::new();
    // The first one opens, the others do not.
    let read = deserialize(
        v5(&packet),
        &mut workspace,
        &mut [],
        |sealed, context, _| {
            seen.push(context.map(|item| item.type_id()).collect::<Vec<_>>());
            match sealed.index() {
                0 => Opening::OpenedByCookie { plaintext_len: 0 },
                _ => Opening::NoKey,
            }
        },
    );
    assert_eq!(read.unwrap_err().number(), 5);
    assert_eq!(seen, [vec![0x0204], vec![0x0104], vec![0x0104, 0x0404]]);
}

#[test]
fn tables_can_be_used_again() {
    let (long, short) = (with_seals(9), with_seals(0));
    let mut tables = Tables::new();
    let mut seals = SealTable::new();
    for (packet, expected) in [(&long, (1, 0)), (&short, (0, 1)), (&long, (1, 0))] {
        let survey = survey(v5(packet), &mut seals);
        let mut results = Results::new(&survey, &mut [], &mut tables);
        for sealed in &survey {
            results.opened(&sealed, 0).unwrap();
        }
        let read = results.deserialize_into_used_tables().unwrap();
        assert_eq!(
            (read.authenticated().len(), read.untrusted().len()),
            expected
        );
    }
}

#[test]
fn a_survey_lists_as_many_sealed_fields_as_a_table_has_entries() {
    let mut seals = SealTable::new();
    for count in [65, TABLE, TABLE + 1, 2 * TABLE] {
        let packet = with_seals(count);
        let survey = survey(v5(&packet), &mut seals);
        let places = survey
            .iter()
            .map(|sealed| sealed.packet_offset().bytes_from_packet_start());
        assert!(places.eq((1..=count.min(TABLE)).map(|number| 8 * number)));
        let fault = survey
            .fault()
            .map(|fault| (fault.refusal, fault.field_offset.bytes_from_packet_start()));
        let expected = (Refusal::TooManyFields, 8 + 8 * TABLE);
        assert_eq!(fault, (count > TABLE).then_some(expected), "{count}");
    }
}

#[test]
fn there_are_as_many_inner_fields_as_a_table_has_entries() {
    let packet = with_seals(1);
    let mut workspace = Workspace::new();
    for (count, expected) in [(65, Ok(65)), (TABLE, Ok(TABLE)), (TABLE + 1, Err(8))] {
        let mut plaintexts = [0x20, 1, 0, 4].repeat(count);
        let plaintext_len = plaintexts.len();
        let opened = |_, _: Context, _: &mut [u8]| Opening::Opened { plaintext_len };
        let read = deserialize(v5(&packet), &mut workspace, &mut plaintexts, opened);
        let seen = read
            .map(|read| read.encrypted().len())
            .map_err(|error| error.number());
        assert_eq!(seen, expected, "{count}");
    }
}

#[test]
fn a_context_has_no_items_if_a_table_has_no_entry_for_the_sealed_field() {
    let mut workspace = Workspace::new();
    for (count, expected) in [(65, 65), (TABLE - 1, TABLE - 1), (TABLE, 0)] {
        let mut packet = [0x20, 1, 0, 4].repeat(count);
        packet.extend([4, 4, 0, 8, 0, 0, 0, 0]);
        let mut seen = None;
        let read = deserialize(v5(&packet), &mut workspace, &mut [], |_, context, _| {
            seen = Some(context.count());
            Opening::Opened { plaintext_len: 0 }
        });
        assert_eq!(read.unwrap().authenticated().len(), count);
        assert_eq!(seen, Some(expected), "{count}");
    }
}

/// The bytes of fields outlive the tables that they were found with.
fn messages<'packet, 'plain>(
    packet: &'packet [u8],
    plaintexts: &'plain mut [u8],
) -> (Field<'packet, Authenticated>, &'packet [u8], &'plain [u8]) {
    let (mut seals, mut tables) = (SealTable::new(), Tables::new());
    let survey = survey(v5(packet), &mut seals);
    let mut results = Results::new(&survey, plaintexts, &mut tables);
    for sealed in &survey {
        results.room().copy_from_slice(&[2, 4, 0, 5, 9, 0, 0, 0]);
        results.opened(&sealed, 8).unwrap();
    }
    let read = results.deserialize().unwrap();
    let field = read.authenticated().next().unwrap();
    let inner = read.encrypted_field(0).unwrap();
    (field, field.message(), inner.message())
}

#[test]
fn bytes_live_as_long_as_their_buffer() {
    let packet = with_seals(1);
    let mut plaintexts = [0; 8];
    let (field, outer, inner) = messages(&packet, &mut plaintexts);
    assert_eq!(field.field(), ExtensionField::UniqueIdentifier(&[7]));
    assert_eq!((outer, inner), (&[7][..], &[9][..]));
}

#[test]
fn everything_can_be_printed() {
    let packet = with_seals(1);
    let mut workspace = Workspace::new();
    let mut printed = String::new();
    let read = deserialize(
        v5(&packet),
        &mut workspace,
        &mut [],
        |sealed, context, _| {
            printed = format!("{sealed:?} {context:?}");
            Opening::Opened { plaintext_len: 0 }
        },
    );
    let printed = format!("{printed} {read:?}");
    for part in [
        "Sealed",
        "Context",
        "AuthenticatedField",
        "UniqueIdentifier([7])",
    ] {
        assert!(printed.contains(part), "{part} in {printed}");
    }
}
