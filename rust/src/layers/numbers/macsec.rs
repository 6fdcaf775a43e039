// @generated from crates/linkinfo_numbers/src/macsec.rt by rust/translate/run.

// Written by tables/generate from tables/numbers/macsec.
//! MACsec links.

use crate::layers::nla_frame::ExactEq;
use crate::layers::numbers::by_values::{number_of_value, value_of_number};

/// The cipher suite of a MACsec interface: `IFLA_MACSEC_CIPHER_SUITE`, a little-endian 64-bit
/// number (include/uapi/linux/if_macsec.h).
#[derive(Clone, Copy, Debug, PartialEq, Eq, Hash, PartialOrd, Ord)]
pub enum MacSecCipherId {
    /// `MACSEC_DEFAULT_CIPHER_ID`: the default cipher suite, GCM-AES-128.
    DefaultGcmAes128,
    /// `MACSEC_CIPHER_ID_GCM_AES_128`: GCM-AES-128.
    GcmAes128,
    /// `MACSEC_CIPHER_ID_GCM_AES_256`: GCM-AES-256.
    GcmAes256,
    /// `MACSEC_CIPHER_ID_GCM_AES_XPN_128`: GCM-AES-XPN-128, with extended packet numbers.
    GcmAesXpn128,
    /// `MACSEC_CIPHER_ID_GCM_AES_XPN_256`: GCM-AES-XPN-256, with extended packet numbers.
    GcmAesXpn256,
    /// Any number without a name.
    Other(u64),
}

macro_rules! ciphers {
    ($body:ident $given:tt) => {
        $body! { MacSecCipherId $given;
            (DefaultGcmAes128, 0x0080_0200_0100_0001),
            (GcmAes128, 0x0080_C200_0100_0001),
            (GcmAes256, 0x0080_C200_0100_0002),
            (GcmAesXpn128, 0x0080_C200_0100_0003),
            (GcmAesXpn256, 0x0080_C200_0100_0004),
        }
    };
}

impl From<u64> for MacSecCipherId {
    fn from(number: u64) -> MacSecCipherId {
        ciphers!(value_of_number number)
    }
}

impl From<MacSecCipherId> for u64 {
    fn from(cipher: MacSecCipherId) -> u64 {
        ciphers!(number_of_value cipher)
    }
}

impl ExactEq for MacSecCipherId {}

/// How a MACsec interface validates frames: `IFLA_MACSEC_VALIDATION`, one byte
/// (include/uapi/linux/if_link.h).
#[derive(Clone, Copy, Debug, PartialEq, Eq, Hash, PartialOrd, Ord)]
pub enum MacSecValidate {
    /// `MACSEC_VALIDATE_DISABLED`: frames are not validated.
    Disabled,
    /// `MACSEC_VALIDATE_CHECK`: invalid frames are counted, and accepted if possible.
    Check,
    /// `MACSEC_VALIDATE_STRICT`: invalid frames are dropped.
    Strict,
    /// Any number without a name.
    Other(u8),
}

macro_rules! validations {
    ($body:ident $given:tt) => {
        $body! { MacSecValidate $given;
            (Disabled, 0),
            (Check, 1),
            (Strict, 2),
        }
    };
}

impl From<u8> for MacSecValidate {
    fn from(number: u8) -> MacSecValidate {
        validations!(value_of_number number)
    }
}

impl From<MacSecValidate> for u8 {
    fn from(validation: MacSecValidate) -> u8 {
        validations!(number_of_value validation)
    }
}

impl ExactEq for MacSecValidate {}

/// What MACsec processing is offloaded to hardware: `IFLA_MACSEC_OFFLOAD`, one byte
/// (include/uapi/linux/if_link.h).
#[derive(Clone, Copy, Debug, PartialEq, Eq, Hash, PartialOrd, Ord)]
pub enum MacSecOffload {
    /// `MACSEC_OFFLOAD_OFF`: nothing is offloaded.
    Off,
    /// `MACSEC_OFFLOAD_PHY`: offloaded to the PHY.
    Phy,
    /// `MACSEC_OFFLOAD_MAC`: offloaded to the MAC.
    Mac,
    /// Any number without a name.
    Other(u8),
}

macro_rules! offloads {
    ($body:ident $given:tt) => {
        $body! { MacSecOffload $given;
            (Off, 0),
            (Phy, 1),
            (Mac, 2),
        }
    };
}

impl From<u8> for MacSecOffload {
    fn from(number: u8) -> MacSecOffload {
        offloads!(value_of_number number)
    }
}

impl From<MacSecOffload> for u8 {
    fn from(offload: MacSecOffload) -> u8 {
        offloads!(number_of_value offload)
    }
}

impl ExactEq for MacSecOffload {}
