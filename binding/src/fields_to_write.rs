//! The three lists of fields to write.

use crate::ffi::TABLE;
use crate::kind::Kind;
use crate::reference_ids::{ReferenceIdRequest, ReferenceIdResponse};
use core::error::Error;
use core::fmt;

/// There is no place for a further field, or for its bytes.
#[derive(Copy, Clone, Debug, PartialEq, Eq, Hash)]
pub struct Full;

impl fmt::Display for Full {
    fn fmt(&self, f: &mut fmt::Formatter<'_>) -> fmt::Result {
        f.write_str("there is no place for a further field, or for its bytes")
    }
}

impl Error for Full {}

/// How fields are described to the library: each by its kind, a number, and the start and length of its bytes.
pub(crate) struct Described<const N: usize> {
    kinds: [u8; N],
    numbers: [u16; N],
    starts: [usize; N],
    lens: [usize; N],
    count: usize,
}

impl<const N: usize> Described<N> {
    const EMPTY: Self = Self {
        kinds: [0; N],
        numbers: [0; N],
        starts: [0; N],
        lens: [0; N],
        count: 0,
    };

    /// Puts a field before field number `place`.
    fn insert(&mut self, place: usize, field: &Description) {
        let end = self.count;
        self.kinds.copy_within(place..end, place + 1);
        self.numbers.copy_within(place..end, place + 1);
        self.starts.copy_within(place..end, place + 1);
        self.lens.copy_within(place..end, place + 1);
        self.kinds[place] = field.kind as u8;
        self.numbers[place] = field.number;
        self.starts[place] = field.start;
        self.lens[place] = field.len;
        self.count += 1;
    }

    pub(crate) fn slices(&self) -> Slices<'_> {
        Slices {
            kinds: &self.kinds[..self.count],
            numbers: &self.numbers[..self.count],
            starts: &self.starts[..self.count],
            lens: &self.lens[..self.count],
        }
    }
}

struct Description {
    kind: Kind,
    number: u16,
    start: usize,
    len: usize,
}

/// The same as the library takes it.
#[derive(Copy, Clone)]
pub(crate) struct Slices<'a> {
    pub(crate) kinds: &'a [u8],
    pub(crate) numbers: &'a [u16],
    pub(crate) starts: &'a [usize],
    pub(crate) lens: &'a [usize],
}

/// The fields of a packet to write, in three lists as in ntp-proto's `ExtensionFieldData`.
///
/// Their bytes are copied to a buffer of the host's, so they need not stay. There is room for `N` authenticated and
/// encrypted fields together, and for `N` untrusted ones.
///
/// ```
/// use lobzhinar::FieldsToWrite;
///
/// let mut data = [0; 256];
/// let mut fields = FieldsToWrite::new(&mut data);
/// fields.authenticated().unique_identifier(&[7; 32])?.nts_cookie(&[8; 100])?;
/// fields.encrypted().nts_cookie_placeholder(100)?;
/// # Ok::<(), lobzhinar::Full>(())
/// ```
pub struct FieldsToWrite<'data, const N: usize = TABLE> {
    /// The authenticated fields, and the encrypted ones after them.
    pub(crate) sealed: Described<N>,
    pub(crate) authenticated_count: usize,
    pub(crate) untrusted: Described<N>,
    data: &'data mut [u8],
    used_len: usize,
}

impl<'data> FieldsToWrite<'data> {
    /// Three empty lists. The bytes of all fields go to `data`.
    #[must_use]
    pub const fn new(data: &'data mut [u8]) -> Self {
        Self::with_capacity(data)
    }
}

impl<'data, const N: usize> FieldsToWrite<'data, N> {
    /// The same with room for another number of fields: `FieldsToWrite::<8>::with_capacity(&mut data)`.
    #[must_use]
    pub const fn with_capacity(data: &'data mut [u8]) -> Self {
        Self {
            sealed: Described::EMPTY,
            authenticated_count: 0,
            untrusted: Described::EMPTY,
            data,
            used_len: 0,
        }
    }

    /// Empties the lists, for the next packet.
    pub const fn clear(&mut self) {
        self.sealed.count = 0;
        self.authenticated_count = 0;
        self.untrusted.count = 0;
        self.used_len = 0;
    }

    /// The fields that are sealed over and sent as they are.
    pub const fn authenticated(&mut self) -> ListToWrite<'_, 'data, N> {
        ListToWrite {
            fields: self,
            list: List::Authenticated,
        }
    }

    /// The fields that are sealed, so that nobody else can read them.
    pub const fn encrypted(&mut self) -> ListToWrite<'_, 'data, N> {
        ListToWrite {
            fields: self,
            list: List::Encrypted,
        }
    }

    /// The fields after the seal, with nothing to vouch for them.
    pub const fn untrusted(&mut self) -> ListToWrite<'_, 'data, N> {
        ListToWrite {
            fields: self,
            list: List::Untrusted,
        }
    }

    pub(crate) const fn encrypted_count(&self) -> usize {
        self.sealed.count - self.authenticated_count
    }

    /// The bytes of all fields.
    pub(crate) fn bytes(&self) -> &[u8] {
        &self.data[..self.used_len]
    }
}

impl<const N: usize> fmt::Debug for FieldsToWrite<'_, N> {
    fn fmt(&self, f: &mut fmt::Formatter<'_>) -> fmt::Result {
        f.debug_struct("FieldsToWrite")
            .field("authenticated", &self.authenticated_count)
            .field("encrypted", &self.encrypted_count())
            .field("untrusted", &self.untrusted.count)
            .finish_non_exhaustive()
    }
}

#[derive(Copy, Clone, Debug)]
enum List {
    Authenticated,
    Encrypted,
    Untrusted,
}

/// One of the three lists, to which fields are added. Each method adds a field at its end, and refuses with [`Full`]
/// if there is no place for it or for its bytes.
#[must_use = "a list is there to add fields to"]
pub struct ListToWrite<'fields, 'data, const N: usize = TABLE> {
    fields: &'fields mut FieldsToWrite<'data, N>,
    list: List,
}

#[expect(
    clippy::missing_errors_doc,
    reason = "the type says when its methods refuse"
)]
impl<const N: usize> ListToWrite<'_, '_, N> {
    /// How many fields the list has.
    #[must_use]
    pub const fn len(&self) -> usize {
        match self.list {
            List::Authenticated => self.fields.authenticated_count,
            List::Encrypted => self.fields.encrypted_count(),
            List::Untrusted => self.fields.untrusted.count,
        }
    }

    /// Whether it has none.
    #[must_use]
    pub const fn is_empty(&self) -> bool {
        self.len() == 0
    }

    /// A field of any type.
    pub fn unknown(&mut self, type_id: u16, data: &[u8]) -> Result<&mut Self, Full> {
        self.add(Kind::Unknown, type_id, data, data.len())
    }

    /// A unique identifier.
    pub fn unique_identifier(&mut self, identifier: &[u8]) -> Result<&mut Self, Full> {
        self.add(Kind::UniqueIdentifier, 0, identifier, identifier.len())
    }

    /// A cookie.
    pub fn nts_cookie(&mut self, cookie: &[u8]) -> Result<&mut Self, Full> {
        self.add(Kind::NtsCookie, 0, cookie, cookie.len())
    }

    /// Room for a cookie of so many bytes in the server's response.
    pub fn nts_cookie_placeholder(&mut self, cookie_length: u16) -> Result<&mut Self, Full> {
        self.add(
            Kind::NtsCookiePlaceholder,
            0,
            &[],
            usize::from(cookie_length),
        )
    }

    /// The name of the draft that the sender follows. A byte of 128 or more is refused when it is written, with 18.
    pub fn draft_identification(&mut self, text: &[u8]) -> Result<&mut Self, Full> {
        self.add(Kind::DraftIdentification, 0, text, text.len())
    }

    /// A Padding field of `whole_field_len` bytes. Unlike all other lengths here, this one counts type and length: fewer
    /// than 4 are refused when it is written, with 18.
    pub fn padding(&mut self, whole_field_len: usize) -> Result<&mut Self, Full> {
        self.add(Kind::Padding, 0, &[], whole_field_len)
    }

    /// A request for a part of the server's filter.
    pub fn reference_id_request(&mut self, request: ReferenceIdRequest) -> Result<&mut Self, Full> {
        let payload_len = usize::from(request.payload_len().0);
        self.add(
            Kind::ReferenceIdRequest,
            request.filter_offset().0,
            &[],
            payload_len,
        )
    }

    /// A part of the server's filter.
    pub fn reference_id_response(
        &mut self,
        response: ReferenceIdResponse<'_>,
    ) -> Result<&mut Self, Full> {
        let bytes = response.bytes();
        self.add(Kind::ReferenceIdResponse, 0, bytes, bytes.len())
    }

    fn add(
        &mut self,
        kind: Kind,
        number: u16,
        bytes: &[u8],
        len: usize,
    ) -> Result<&mut Self, Full> {
        let fields = &mut *self.fields;
        let start = fields.used_len;
        let room = fields.data[start..].get_mut(..bytes.len()).ok_or(Full)?;
        let (described, place) = match self.list {
            List::Authenticated => (&mut fields.sealed, fields.authenticated_count),
            List::Encrypted => {
                let end = fields.sealed.count;
                (&mut fields.sealed, end)
            }
            List::Untrusted => {
                let end = fields.untrusted.count;
                (&mut fields.untrusted, end)
            }
        };
        if described.count == N {
            return Err(Full);
        }
        room.copy_from_slice(bytes);
        described.insert(
            place,
            &Description {
                kind,
                number,
                start,
                len,
            },
        );
        fields.used_len += bytes.len();
        if matches!(self.list, List::Authenticated) {
            fields.authenticated_count += 1;
        }
        Ok(self)
    }
}

impl<const N: usize> fmt::Debug for ListToWrite<'_, '_, N> {
    fn fmt(&self, f: &mut fmt::Formatter<'_>) -> fmt::Result {
        f.debug_struct("ListToWrite")
            .field("list", &self.list)
            .field("len", &self.len())
            .finish_non_exhaustive()
    }
}
