// @generated from crates/linkinfo_tests/src/tests/pfcp.rt by rust/translate/run.

//! Links of the kind pfcp, whose data is attributes of a family without rows.

use super::assertions::{
    HEADER_ERROR, assert_built, assert_data, assert_equal, assert_holds, assert_reads,
    assert_refused, bytes_of, copied, default_nla, link, nlas, parsed,
};
use super::worked::{PFCP_ATTRIBUTE, PFCP_EMPTY, PFCP_MARKED, PFCP_NOT_FRAMED, PFCP_SHORT};
use linkinfo::layers::link::{InfoData, InfoKind, InfoPfcp, LinkInfo, Nlas};

/// A pfcp link with its data.
fn pfcp(data: InfoData) -> [LinkInfo; 2] {
    link(InfoKind::Pfcp, data)
}

/// Data of one attribute, which is kept verbatim.
fn kept(kind: u16, payload: &[u8]) -> InfoData {
    let item = default_nla(kind, payload);
    InfoData::Pfcp(nlas([InfoPfcp::Other(item)]))
}

#[test]
fn keeps_attributes_of_pfcp() {
    let marked = pfcp(kept(0x8001, &[1, 0, 0, 0]));
    assert_reads(PFCP_MARKED, marked, PFCP_MARKED);
    let short = pfcp(kept(1, &[7]));
    assert_reads(PFCP_SHORT, short, PFCP_ATTRIBUTE);
    let empty = pfcp(InfoData::Pfcp(Nlas::new(Vec::new())));
    assert_reads(PFCP_EMPTY, empty, PFCP_EMPTY);
}

#[test]
fn rejects_data_of_pfcp_that_is_not_framed() {
    let bytes = bytes_of(PFCP_NOT_FRAMED);
    assert_refused(&bytes, HEADER_ERROR);
}

/// A pfcp link whose data is bytes, which is not well formed.
fn pfcp_of_bytes(payload: &[u8]) -> [LinkInfo; 2] {
    pfcp(InfoData::Other(copied(payload)))
}

/// Asserts that the bytes parse as another list than that of these attributes.
fn assert_read_otherwise(string: &[u8], items: [LinkInfo; 2]) {
    let equal = parsed(string).as_slice() == items.as_slice();
    assert_holds(&string, !equal);
}

/// Bytes as data of pfcp are not well formed: they are written, and their encoding is rejected or
/// parses as attributes.
#[test]
fn writes_bytes_under_pfcp() {
    let string = bytes_of(PFCP_NOT_FRAMED);
    assert_built(pfcp_of_bytes(&[1, 2, 3]), &string);
    let string = bytes_of(PFCP_MARKED);
    let payload = [8, 0, 1, 0x80, 1, 0, 0, 0];
    assert_built(pfcp_of_bytes(&payload), &string);
    assert_read_otherwise(&string, pfcp_of_bytes(&payload));
}

/// Bytes that once were kept as the data of pfcp parse as one attribute, or are rejected.
#[test]
fn parses_kept_bytes_under_pfcp() {
    let attribute = kept(0x8001, &[1, 0, 0, 0]);
    let payload = [8, 0, 1, 0x80, 1, 0, 0, 0];
    assert_data(&payload, InfoKind::Pfcp, attribute);
    let error = InfoData::parse_with_param(&[1, 2, 3], &InfoKind::Pfcp).err();
    assert_equal(&"three bytes", &error, &Some(HEADER_ERROR));
}
