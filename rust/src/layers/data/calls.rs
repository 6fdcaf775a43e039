// @generated from crates/linkinfo_data/src/calls.rt by rust/translate/run.

//! The bodies of the calls of [`PayloadFamily`] for the data of one family.
//!
//! That data is written `list(VARIANT, ATTRIBUTE, CONTEXT)`, if it is a list of attributes of this
//! type, parsed with this context, `first(VARIANT, ATTRIBUTE, CONTEXT)`, if it is the first
//! attribute alone, or `bytes(VARIANT)`.
//!
//! [`PayloadFamily`]: crate::layers::data::PayloadFamily

/// Parses a payload.
macro_rules! read {
    (list($variant:path, $nla:ty, $ctx:expr) ($payload:expr, $count:expr)) => {
        Ok($variant(crate::layers::data::reading::read_nlas(
            $payload, $ctx, $count,
        )?))
    };
    (first($variant:path, $nla:ty, $ctx:expr) ($payload:expr, $count:expr)) => {
        Ok($variant(crate::layers::table::first_read(
            $payload, $ctx, $count,
        )?))
    };
    (bytes($variant:path) ($payload:expr, $count:expr)) => {
        Ok($variant(crate::layers::nla_frame::Bytes::copy_of(
            $payload,
        )?))
    };
}

/// Makes a call that returns no parsed value.
macro_rules! ask {
    (list($variant:path, $nla:ty, $ctx:expr) ($question:ident, $count:ident, $buffer:ident)) => {
        $question.of_list::<$nla>($ctx, $count, $buffer)
    };
    (first($variant:path, $nla:ty, $ctx:expr) ($question:ident, $count:ident, $buffer:ident)) => {
        $question.of_first::<$nla>($ctx, $count, $buffer)
    };
    (bytes($variant:path) ($question:ident, $count:ident, $buffer:ident)) => {
        $question.of_bytes($count, $buffer)
    };
}

pub(crate) use ask;
pub(crate) use read;
