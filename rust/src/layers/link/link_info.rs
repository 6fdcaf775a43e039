// @generated from crates/linkinfo/src/link_info.rt by rust/translate/run.

//! Attributes of the list inside `IFLA_LINKINFO`, include/uapi/linux/if_link.h.

use crate::layers::data::{DataLayer, FitLen, Write};
use crate::layers::link::xstats::LinkXstats;
use crate::layers::nla_frame::{Bytes, DefaultNla, Emitable, ExactEq, Nla, fitting};
use crate::layers::numbers::{
    IFLA_INFO_DATA, IFLA_INFO_SLAVE_DATA, IFLA_INFO_XSTATS, InfoKind, InfoPortKind,
};

/// An attribute in `IFLA_LINKINFO`, over the layer `P`: with peers of its type, and attributes of
/// its families.
#[derive(Debug, PartialEq, Eq, Hash, PartialOrd, Ord, Clone)]
pub enum LinkInfoOf<P: DataLayer> {
    /// The statistics of the link (`IFLA_INFO_XSTATS`).
    Xstats(LinkXstats),
    /// The kind of the link (`IFLA_INFO_KIND`).
    Kind(InfoKind),
    /// The data of the link (`IFLA_INFO_DATA`).
    Data(P::Data),
    /// The kind of the port, which is the kind of the link that the port belongs to
    /// (`IFLA_INFO_SLAVE_KIND`).
    PortKind(InfoPortKind),
    /// The data of the port (`IFLA_INFO_SLAVE_DATA`).
    PortData(P::PortData),
    /// An attribute of any other type, kept verbatim.
    Other(DefaultNla),
}

/// An attribute in `IFLA_LINKINFO`, with peers kept as bytes, and opaque families.
pub type LinkInfo = LinkInfoOf<Bytes>;

impl<P: DataLayer> Nla for LinkInfoOf<P> {
    #[inline]
    fn value_len(&self) -> usize {
        match self {
            LinkInfoOf::Xstats(xstats) => xstats.buffer_len(),
            LinkInfoOf::Kind(kind) => kind.value_len(),
            LinkInfoOf::Data(data) => P::encode_data(data, FitLen, &mut []).unwrap_or(0),
            LinkInfoOf::PortKind(kind) => kind.value_len(),
            LinkInfoOf::PortData(data) => P::encode_port_data(data, FitLen, &mut []).unwrap_or(0),
            LinkInfoOf::Other(nla) => nla.value_len(),
        }
    }

    #[inline]
    fn kind(&self) -> u16 {
        match self {
            LinkInfoOf::Xstats(_) => IFLA_INFO_XSTATS,
            LinkInfoOf::Kind(kind) => kind.kind(),
            LinkInfoOf::Data(_) => IFLA_INFO_DATA,
            LinkInfoOf::PortKind(kind) => kind.kind(),
            LinkInfoOf::PortData(_) => IFLA_INFO_SLAVE_DATA,
            LinkInfoOf::Other(nla) => nla.kind(),
        }
    }

    #[inline]
    fn emit_payload(&self, buffer: &mut [u8]) -> usize {
        match self {
            LinkInfoOf::Xstats(xstats) => {
                xstats.emit(buffer);
                xstats.buffer_len()
            }
            LinkInfoOf::Kind(kind) => kind.emit_payload(buffer),
            LinkInfoOf::Data(data) => P::encode_data(data, Write, buffer),
            LinkInfoOf::PortKind(kind) => kind.emit_payload(buffer),
            LinkInfoOf::PortData(data) => P::encode_port_data(data, Write, buffer),
            LinkInfoOf::Other(nla) => nla.emit_payload(buffer),
        }
    }

    #[inline]
    fn emit_value(&self, buffer: &mut [u8]) {
        self.emit_payload(buffer);
    }

    #[inline]
    fn fit_len(&self) -> Option<usize> {
        match self {
            LinkInfoOf::Xstats(xstats) => fitting(xstats.buffer_len()),
            LinkInfoOf::Kind(kind) => kind.fit_len(),
            LinkInfoOf::Data(data) => P::encode_data(data, FitLen, &mut []),
            LinkInfoOf::PortKind(kind) => kind.fit_len(),
            LinkInfoOf::PortData(data) => P::encode_port_data(data, FitLen, &mut []),
            LinkInfoOf::Other(nla) => nla.fit_len(),
        }
    }
}

impl<P: DataLayer> ExactEq for LinkInfoOf<P>
where
    P::Data: ExactEq + Eq,
    P::PortData: ExactEq + Eq,
{
}
