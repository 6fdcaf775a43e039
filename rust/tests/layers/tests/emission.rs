// @generated from crates/linkinfo_layers_tests/src/tests/emission.rt by rust/translate/run.

//! Attributes written into buffers.

use super::assertions::{assert_is, copied, kept, kept_list, repeated};
use linkinfo::layers::nla_frame::{
    Bytes, DefaultNla, Emitable, Nla, ToVecError, emit_nlas, nlas_buffer_len, nlas_fit_len,
    nlas_to_vec, write_attribute, write_attributes, write_bytes, write_bytes_attribute,
    write_frame,
};

/// Bytes without a header, as the layers above write statistics.
struct Plain(Bytes);

impl Emitable for Plain {
    fn buffer_len(&self) -> usize {
        self.0.len()
    }

    fn emit(&self, buffer: &mut [u8]) {
        buffer[..self.0.len()].copy_from_slice(self.0.as_slice());
    }
}

#[test]
fn emits_one_attribute() {
    let nla = kept(0x8009, &[1, 2]);
    assert!(nla.value.len() == 2);
    assert_is(
        "kind, fit_len, value_len, buffer_len",
        (nla.kind(), nla.fit_len(), nla.value_len(), nla.buffer_len()),
        (0x8009, Some(2), 2, 8),
    );

    let mut value = [255; 2];
    nla.emit_value(&mut value);
    assert_is("emit_value", value, [1, 2]);
    let mut front = [255; 3];
    let taken = nla.emit_payload(&mut front);
    assert_is("emit_payload", (taken, front), (2, [1, 2, 255]));

    // Padding is zero whatever the buffer contained, and the bytes after it stay unchanged.
    let mut buffer = [255; 11];
    nla.emit(&mut buffer);
    assert_is("emit", buffer, [6, 0, 9, 0x80, 1, 2, 0, 0, 255, 255, 255]);
}

#[test]
fn emits_bytes_without_a_header() {
    let plain = Plain(copied(&[5, 6]));
    assert!(plain.0.len() == 2);
    assert_is("buffer_len", plain.buffer_len(), 2);
    let mut buffer = [255; 3];
    plain.emit(&mut buffer);
    assert_is("emit", buffer, [5, 6, 255]);
}

/// Three attributes.
const LIST: &[(u16, &[u8])] = &[(1, &[7]), (2, &[]), (3, &[1, 2, 3, 4])];

#[test]
fn emits_lists() {
    let none: [DefaultNla; 0] = [];
    assert_is("no attributes", nlas_fit_len(&none), Some(0));

    let list = kept_list(LIST);
    assert!(nlas_fit_len(&list) == Some(20));
    assert_is("nlas_buffer_len", nlas_buffer_len(&list), 20);
    let mut buffer = [255; 23];
    emit_nlas(&list, &mut buffer);
    assert_is(
        "emit_nlas",
        buffer,
        [
            5, 0, 1, 0, 7, 0, 0, 0, 4, 0, 2, 0, 8, 0, 3, 0, 1, 2, 3, 4, 255, 255, 255,
        ],
    );
}

#[test]
fn writes_attributes_at_the_front() {
    let list = kept_list(&[(0x8009, &[7]), (2, &[])]);
    assert!(nlas_fit_len(&list) == Some(12));
    assert!(nlas_buffer_len(&list) == 12);
    let mut buffer = [255; 13];
    let taken = write_attributes(&list, &mut buffer);
    assert_is(
        "write_attributes",
        (taken, buffer),
        (12, [5, 0, 9, 0x80, 7, 0, 0, 0, 4, 0, 2, 0, 255]),
    );

    let nla = kept(3, &[1, 2]);
    assert!(nla.value.len() == 2);
    let taken = write_attribute(&nla, &mut buffer);
    assert_is(
        "write_attribute",
        (taken, buffer),
        (8, [6, 0, 3, 0, 1, 2, 0, 0, 4, 0, 2, 0, 255]),
    );
}

/// The byte string of the attributes, written in one call.
fn written(list: &[DefaultNla]) -> Vec<u8> {
    nlas_to_vec(list).expect("attributes that fit")
}

#[test]
fn writes_lists_in_one_call() {
    let none: [DefaultNla; 0] = [];
    assert_is("no attributes", written(&none).len(), 0);

    let list = kept_list(LIST);
    assert_is(
        "three attributes",
        written(&list).as_slice(),
        &[5, 0, 1, 0, 7, 0, 0, 0, 4, 0, 2, 0, 8, 0, 3, 0, 1, 2, 3, 4],
    );
}

#[test]
fn fits_up_to_65531_bytes() {
    let longest = [DefaultNla::new(9, repeated(97, 65531))];
    let longer = [
        DefaultNla::new(1, Vec::new()),
        DefaultNla::new(9, repeated(97, 65532)),
    ];
    assert_is(
        "fit_len",
        [longest[0].fit_len(), longer[1].fit_len()],
        [Some(65531), None],
    );
    assert_is(
        "nlas_fit_len",
        [nlas_fit_len(&longest), nlas_fit_len(&longer)],
        [Some(65536), None],
    );
    assert_is("longest", written(&longest).len(), 65536);
    let rejected = nlas_to_vec(&longer).err();
    assert_is("longer", rejected, Some(ToVecError::Unfit));
}

#[test]
fn frames_are_written_around_payloads() {
    let mut buffer = [255; 13];
    buffer[4..9].copy_from_slice(&[1, 2, 3, 4, 5]);
    write_frame(&mut buffer, 0x8007, 5);
    let wanted = [9, 0, 7, 0x80, 1, 2, 3, 4, 5, 0, 0, 0, 255];
    assert_is("of five bytes", buffer, wanted);
    write_frame(&mut buffer, 1, 0);
    let wanted = [4, 0, 1, 0, 1, 2, 3, 4, 5, 0, 0, 0, 255];
    assert_is("of none", buffer, wanted);
}

#[test]
fn bytes_are_written_at_the_front() {
    let mut buffer = [255; 13];
    assert_is("write_bytes", write_bytes(&[1, 2, 3], &mut buffer), 3);
    assert_is("bytes", &buffer[..5], &[1, 2, 3, 255, 255]);
    let taken = write_bytes_attribute(0x8007, &[1, 2, 3, 4, 5], &mut buffer);
    let wanted = [9, 0, 7, 0x80, 1, 2, 3, 4, 5, 0, 0, 0, 255];
    assert_is("five bytes", (taken, buffer), (12, wanted));
    let taken = write_bytes_attribute(1, &[], &mut buffer);
    let wanted = [4, 0, 1, 0, 1, 2, 3, 4, 5, 0, 0, 0, 255];
    assert_is("no bytes", (taken, buffer), (4, wanted));
}
