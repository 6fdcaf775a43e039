//! show HEX [WANTED]: the attributes in the contents of IFLA_LINKINFO, and the first one of a
//! request that they do not meet. Status 0 where they meet it, or nothing is wanted.
//!
//! (linkinfo_same is for two requests, or two canonical encodings: it is false for a request and
//! the link that the kernel made for it, to which it adds attributes.)

mod linkinfo {
    use std::ffi::c_char;

    // linux/if_link.h and linux/netlink.h
    const IFLA_INFO_DATA: u16 = 2;
    const IFLA_INFO_XSTATS: u16 = 3;
    const IFLA_INFO_SLAVE_DATA: u16 = 5;
    pub const NLA_TYPE_MASK: u16 = 0x3fff;
    pub const NLA_HDRLEN: usize = 4;
    // enum linkinfo_value_type
    pub const VALUE_LIST: u32 = 10;

    #[repr(C)]
    #[derive(Clone, Copy)]
    pub struct Error {
        pub family: u16,
        pub kind: u16,
        pub cause: u32,
    }

    #[repr(C)]
    pub struct ErrorAt {
        pub error: Error,
        pub place: usize,
    }

    #[repr(C)]
    pub struct Unmet {
        pub error: Error,
        pub rejected: u32,
        pub family: u16,
        pub kind: u16,
        pub want: usize,
        pub have: usize,
        pub met: bool,
        pub is_present: bool,
    }

    #[repr(C)]
    #[derive(Clone, Copy, Default)]
    pub struct Item {
        pub place: usize,
        pub length: usize,
        pub raw_type: u16,
        pub kind: u16,
        pub port_kind: u16,
    }

    #[repr(C)]
    #[derive(Clone, Copy, Default)]
    pub struct Value {
        pub number: u64,
        pub signed_number: i64,
        pub length: usize,
        pub octets: [u8; 16],
        pub first: u32,
        pub second: u32,
        pub value_type: u32,
        pub list_kind: u16,
        pub truth: bool,
    }

    #[repr(C)]
    #[derive(Clone, Copy, Default)]
    pub struct Attribute {
        pub place: usize,
        pub length: usize,
        pub value: Value,
        pub raw_type: u16,
        pub shape: u16,
    }

    #[repr(C)]
    struct ListResult {
        error: Error,
        place: usize,
        count: usize,
    }

    unsafe extern "C" {
        fn linkinfo_check_at(bytes: *const u8, length: usize) -> ErrorAt;
        fn linkinfo_first_unmet(
            have: *const u8,
            have_length: usize,
            want: *const u8,
            want_length: usize,
        ) -> Unmet;
        fn linkinfo_items(
            bytes: *const u8,
            length: usize,
            items: *mut Item,
            items_length: usize,
        ) -> ListResult;
        fn linkinfo_values(
            bytes: *const u8,
            length: usize,
            kind: u16,
            values: *mut Attribute,
            values_length: usize,
        ) -> ListResult;
        fn linkinfo_family_name(family: u16, buffer: *mut c_char, buffer_length: usize) -> usize;
        fn linkinfo_kind_name(kind: u16, buffer: *mut c_char, buffer_length: usize) -> usize;
        fn linkinfo_port_kind_name(kind: u16, buffer: *mut c_char, buffer_length: usize) -> usize;
        fn linkinfo_error_text(error: Error, buffer: *mut c_char, buffer_length: usize) -> usize;
    }

    /// The error of a list and its offset, or none.
    pub fn check(bytes: &[u8]) -> Result<(), ErrorAt> {
        let result = unsafe { linkinfo_check_at(bytes.as_ptr(), bytes.len()) };
        if result.error.cause == 0 { Ok(()) } else { Err(result) }
    }

    /// Whether a list has all attributes of another one, or the first that it has not.
    pub fn first_unmet(have: &[u8], want: &[u8]) -> Unmet {
        unsafe { linkinfo_first_unmet(have.as_ptr(), have.len(), want.as_ptr(), want.len()) }
    }

    /// The attributes of a list.
    pub fn items(bytes: &[u8]) -> Vec<Item> {
        let mut items = vec![Item::default(); bytes.len() / 4];
        let found =
            unsafe { linkinfo_items(bytes.as_ptr(), bytes.len(), items.as_mut_ptr(), items.len()) };
        items.truncate(found.count);
        items
    }

    /// The payload of an item: data or port data of a list.
    pub fn payload<'a>(list: &'a [u8], item: &Item) -> &'a [u8] {
        &list[item.place + NLA_HDRLEN..][..item.length]
    }

    /// The kind of data, or the port kind of port data.
    pub fn data_kind(item: &Item) -> u16 {
        match item.raw_type & NLA_TYPE_MASK {
            IFLA_INFO_DATA => item.kind,
            IFLA_INFO_SLAVE_DATA => item.port_kind,
            _ => 0,
        }
    }

    /// The attributes in data of a kind, or in a nested list.
    pub fn attributes(payload: &[u8], kind: u16) -> Vec<Attribute> {
        let mut attributes = vec![Attribute::default(); payload.len() / 4];
        let (pointer, length) = (attributes.as_mut_ptr(), attributes.len());
        let found =
            unsafe { linkinfo_values(payload.as_ptr(), payload.len(), kind, pointer, length) };
        attributes.truncate(found.count);
        attributes
    }

    fn text(write: impl Fn(*mut c_char, usize) -> usize) -> String {
        let mut buffer = [0u8; 37];
        let length = write(buffer.as_mut_ptr().cast(), buffer.len());
        String::from_utf8_lossy(&buffer[..length.min(buffer.len() - 1)]).into_owned()
    }

    /// The kind of the link, or of the port, whose data or statistics the item is.
    pub fn kind_of(item: &Item) -> String {
        match item.raw_type & NLA_TYPE_MASK {
            IFLA_INFO_DATA | IFLA_INFO_XSTATS => {
                text(|buffer, length| unsafe { linkinfo_kind_name(item.kind, buffer, length) })
            }
            IFLA_INFO_SLAVE_DATA => text(|buffer, length| unsafe {
                linkinfo_port_kind_name(item.port_kind, buffer, length)
            }),
            _ => String::new(),
        }
    }

    pub fn family_name(family: u16) -> String {
        text(|buffer, length| unsafe { linkinfo_family_name(family, buffer, length) })
    }

    pub fn error_text(error: Error) -> String {
        text(|buffer, length| unsafe { linkinfo_error_text(error, buffer, length) })
    }
}

fn from_hex(text: String) -> Option<Vec<u8>> {
    let digits: Option<Vec<u32>> = text.chars().map(|digit| digit.to_digit(16)).collect();
    let digits = digits.filter(|digits| digits.len() % 2 == 0)?;
    Some(digits.chunks(2).map(|pair| (pair[0] * 16 + pair[1]) as u8).collect())
}

/// Prints the error of a list, where it has one.
fn is_rejected(whose: &str, list: &[u8]) -> bool {
    let Err(at) = linkinfo::check(list) else {
        return false;
    };
    println!("{whose}{} at byte {}", linkinfo::error_text(at.error), at.place);
    true
}

/// A value, as the shape of its attribute means it: `enum linkinfo_value_type`.
fn value_text(attribute: &linkinfo::Attribute, payload: &[u8]) -> String {
    let value = &attribute.value;
    match value.value_type {
        1 => format!(" = {}", value.number),
        2 => format!(" = {}", value.signed_number),
        3 | 4 => format!(" = {}", value.truth),
        5 => format!(" = \"{}\"", String::from_utf8_lossy(&payload[..value.length])),
        6..=8 => {
            let octets = value.octets[..value.length].iter();
            octets.fold(" =".to_string(), |text, octet| format!("{text} {octet:02x}"))
        }
        9 => format!(" = {}, {}", value.first, value.second),
        _ => format!(", {} bytes", attribute.length),
    }
}

/// The attributes in data of a kind, or in a nested list, and in the lists in them. The payload is
/// at the offset `begin` of the whole list.
fn show_attributes(payload: &[u8], kind: u16, begin: usize, indent: usize) {
    for attribute in linkinfo::attributes(payload, kind) {
        let place = attribute.place + linkinfo::NLA_HDRLEN;
        let inside = &payload[place..][..attribute.length];
        let value = value_text(&attribute, inside);
        let attribute_type = attribute.raw_type & linkinfo::NLA_TYPE_MASK;
        println!("{:indent$}{}: type {attribute_type}{value}", "", begin + attribute.place);
        if attribute.value.value_type == linkinfo::VALUE_LIST {
            let list_kind = match attribute.value.list_kind {
                0 => kind,
                list_kind => list_kind,
            };
            show_attributes(inside, list_kind, begin + place, indent + 2);
        }
    }
}

fn show(list: &[u8]) {
    for item in linkinfo::items(list) {
        let kind = linkinfo::kind_of(&item);
        let of = if kind.is_empty() { "" } else { " of " };
        let item_type = item.raw_type & linkinfo::NLA_TYPE_MASK;
        println!("{}: type {item_type}, {} bytes{of}{kind}", item.place, item.length);
        let data = linkinfo::payload(list, &item);
        let begin = item.place + linkinfo::NLA_HDRLEN;
        show_attributes(data, linkinfo::data_kind(&item), begin, 2);
    }
}

/// Whether the link has all that is wanted; prints the first attribute that it has not.
fn is_as_wanted(have: &[u8], want: &[u8]) -> bool {
    let unmet = linkinfo::first_unmet(have, want);
    if unmet.met {
        println!("as wanted");
        return true;
    }
    let family = linkinfo::family_name(unmet.family);
    print!("not as wanted: {family} {} at byte {} of what is wanted, ", unmet.kind, unmet.want);
    if unmet.is_present {
        println!("and another one at byte {}", unmet.have);
    } else {
        println!("and none");
    }
    false
}

fn main() -> std::process::ExitCode {
    let arguments: Option<Vec<Vec<u8>>> = std::env::args().skip(1).map(from_hex).collect();
    let arguments = arguments.unwrap_or_default();
    let (given, wanted) = match arguments.as_slice() {
        [given] => (given, None),
        [given, wanted] => (given, Some(wanted)),
        _ => {
            eprintln!("usage: show HEX [WANTED]");
            return 2.into();
        }
    };
    let is_rejected = is_rejected("", given) || wanted.is_some_and(|w| is_rejected("wanted: ", w));
    if is_rejected {
        return 1.into();
    }
    show(given);
    u8::from(!wanted.is_none_or(|wanted| is_as_wanted(given, wanted))).into()
}
