// @generated from crates/linkinfo_payloads/src/record.rt by rust/translate/run.

//! Records: fields at fixed places.

use crate::compat::AllocError;
use crate::layers::nla_frame::ExactEq;
use crate::layers::payloads::exact::ExactPayload;
use crate::layers::payloads::fields::Fields;

/// A record: a payload of one length, with fields at fixed places.
pub trait Record: Sized + Eq + ExactEq {
    /// The fields in the order of their bytes.
    type Fields: Fields;

    /// The number of bytes of a record.
    const LEN: usize;

    /// Makes a record from its fields.
    fn from_fields(fields: Self::Fields) -> Self;

    /// The fields of a record.
    fn to_fields(&self) -> Self::Fields;
}

impl<R: Record> ExactPayload for R {
    fn accepts(len: usize) -> bool {
        len == R::LEN
    }

    fn from_payload(payload: &[u8]) -> Result<R, AllocError> {
        let (fields, _) = <R::Fields as Fields>::read_front(payload);
        Ok(R::from_fields(fields))
    }

    fn fit_payload(&self) -> Option<usize> {
        Some(self.to_fields().fields_len())
    }

    fn to_payload(&self, buffer: &mut [u8]) -> usize {
        let fields = self.to_fields();
        let len = fields.fields_len();
        fields.write_front(buffer);
        len
    }
}
