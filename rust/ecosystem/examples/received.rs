//! Validates the link info of a received RTM_NEWLINK, and finds the first wanted attribute that the
//! link does not meet, without allocating memory for either.

use linkinfo::{InfoData, InfoKind, InfoXfrm, LinkInfo, Unmet, VecLinkInfo, first_unmet};
use linkinfo_ecosystem::link_info;
use std::error::Error;

/// The first wanted attribute that the link of the message does not meet; an error where the link
/// info of the message is rejected or missing.
pub fn first_missing(message: &[u8], wanted: &[u8]) -> Result<Option<Unmet>, Box<dyn Error>> {
    let received = link_info(message)?.ok_or("no IFLA_LINKINFO")?;
    Ok(first_unmet(received, wanted)?)
}

/// An xfrm interface as a kernel sends it: `struct nlmsghdr`, `struct ifinfomsg`, the name, and
/// the link info.
#[rustfmt::skip]
pub const MESSAGE: [u8; 76] = [
    76, 0, 0, 0,  16, 0, 0, 0,  0, 0, 0, 0,  0, 0, 0, 0, // RTM_NEWLINK, 76 bytes
    0, 0, 1, 0,   5, 0, 0, 0,   0, 0, 0, 0,  0, 0, 0, 0, // ARPHRD_ETHER, link 5
    8, 0, 3, 0,   b'x', b'f', b'0', 0,                   // IFLA_IFNAME "xf0"
    36, 0, 18, 0,                                        // IFLA_LINKINFO
    9, 0, 1, 0,   b'x', b'f', b'r', b'm', 0, 0, 0, 0,    // IFLA_INFO_KIND "xfrm"
    20, 0, 2, 0,  8, 0, 1, 0,   2, 0, 0, 0,              // IFLA_INFO_DATA: IFLA_XFRM_LINK 2,
                  8, 0, 2, 0,   10, 0, 0, 0,             // IFLA_XFRM_IF_ID 10
];

pub fn main() -> Result<(), Box<dyn Error>> {
    for id in [10, 11] {
        let wanted = VecLinkInfo::from([
            LinkInfo::Kind(InfoKind::Xfrm),
            LinkInfo::Data(InfoData::Xfrm([InfoXfrm::IfId(id)].into())),
        ]);
        match first_missing(&MESSAGE, &wanted.to_vec()?)? {
            None => println!("the link has IFLA_XFRM_IF_ID {id}"),
            Some(unmet) => println!("the link has another IFLA_XFRM_IF_ID than {id}: {unmet:?}"),
        }
    }
    Ok(())
}
