// @generated from crates/linkinfo_numbers/src/kind.rt by rust/translate/run.

//! Link kinds.

use crate::compat::AllocError;
use crate::layers::nla_frame::{DecodeError, ExactEq, Nla, NlaBuffer, Parseable, Text};
use crate::layers::numbers::name::{emit_name, name_fit_len, name_of};
use crate::layers::numbers::tags::{KindTag, tag_of_name};
use crate::layers::numbers::types::IFLA_INFO_KIND;
use core::fmt;

/// The kind of a link: `IFLA_INFO_KIND`, the name of its driver (include/uapi/linux/if_link.h).
#[derive(Debug, PartialEq, Eq, Hash, PartialOrd, Ord, Clone)]
pub enum InfoKind {
    // Begin: written by tables/generate from tables/kinds (variants).
    /// `dummy`: a dummy interface.
    Dummy,
    /// `ifb`: an Intermediate Functional Block device.
    Ifb,
    /// `bridge`: an Ethernet bridge.
    Bridge,
    /// `tun`: a TUN or TAP device.
    Tun,
    /// `nlmon`: a netlink monitoring device.
    Nlmon,
    /// `vlan`: an 802.1Q or 802.1ad VLAN interface.
    Vlan,
    /// `veth`: one end of a virtual Ethernet pair.
    Veth,
    /// `vxlan`: a VXLAN tunnel.
    Vxlan,
    /// `bond`: a bonding device.
    Bond,
    /// `ipvlan`: an interface with the MAC address of its lower device.
    IpVlan,
    /// `ipvtap`: a TAP device on an IPVLAN interface.
    IpVtap,
    /// `macvlan`: a virtual interface with a MAC address of its own.
    MacVlan,
    /// `macvtap`: a TAP device on a MACVLAN interface.
    MacVtap,
    /// `gretap`: an Ethernet over GRE tunnel over IPv4.
    GreTap,
    /// `ip6gretap`: an Ethernet over GRE tunnel over IPv6.
    GreTap6,
    /// `ipip`: a tunnel of IPv4 or MPLS over IPv4.
    IpIp,
    /// `ip6tnl`: a tunnel of IPv4 or IPv6 over IPv6.
    Ip6Tnl,
    /// `sit`: a tunnel of IPv6, IPv4 or MPLS over IPv4.
    SitTun,
    /// `gre`: a GRE tunnel over IPv4.
    GreTun,
    /// `ip6gre`: a GRE tunnel over IPv6.
    GreTun6,
    /// `vti`: an IPsec virtual tunnel interface over IPv4.
    Vti,
    /// `vti6`: an IPsec virtual tunnel interface over IPv6.
    Vti6,
    /// `vrf`: a Virtual Routing and Forwarding device.
    Vrf,
    /// `gtp`: a GPRS Tunneling Protocol (GTP-U) device.
    Gtp,
    /// `ipoib`: an IP over InfiniBand interface.
    Ipoib,
    /// `wireguard`: a WireGuard tunnel.
    Wireguard,
    /// `xfrm`: an XFRM (IPsec) interface.
    Xfrm,
    /// `macsec`: an IEEE 802.1AE MACsec interface.
    MacSec,
    /// `hsr`: an HSR or PRP device.
    Hsr,
    /// `geneve`: a Geneve tunnel.
    Geneve,
    /// `netkit`: one end of a BPF-programmable netkit pair.
    Netkit,
    /// `vcan`: a virtual CAN interface.
    Vcan,
    /// `vxcan`: one end of a virtual CAN pair.
    Vxcan,
    /// `amt`: an Automatic Multicast Tunneling interface.
    Amt,
    /// `batadv`: a B.A.T.M.A.N. Advanced mesh interface.
    BatAdv,
    /// `bareudp`: a bare UDP tunnel.
    BareUdp,
    /// `netdevsim`: a simulated device for tests.
    Netdevsim,
    /// `virt_wifi`: a simulated Wi-Fi device.
    VirtWifi,
    /// `wwan`: a Wireless Wide Area Network link.
    Wwan,
    /// `can`: a CAN interface.
    Can,
    /// `dsa`: a user port of a DSA switch.
    Dsa,
    /// `team`: a team device.
    Team,
    /// `erspan`: an ERSPAN tunnel over GRE and IPv4.
    ErSpan,
    /// `ip6erspan`: an ERSPAN tunnel over GRE and IPv6.
    Ip6ErSpan,
    /// `pfcp`: a Packet Forwarding Control Protocol device.
    Pfcp,
    /// `rmnet`: an rmnet device on a Qualcomm modem.
    RmNet,
    // End: written by tables/generate.
    /// Every other name.
    Other(Text),
}

/// The known kinds: the variant of kind and tag, and the name.
macro_rules! kinds {
    ($body:ident $given:tt) => {
        $body! { InfoKind KindTag $given;
            // Begin: written by tables/generate from tables/kinds (names).
            (Dummy, "dummy"),
            (Ifb, "ifb"),
            (Bridge, "bridge"),
            (Tun, "tun"),
            (Nlmon, "nlmon"),
            (Vlan, "vlan"),
            (Veth, "veth"),
            (Vxlan, "vxlan"),
            (Bond, "bond"),
            (IpVlan, "ipvlan"),
            (IpVtap, "ipvtap"),
            (MacVlan, "macvlan"),
            (MacVtap, "macvtap"),
            (GreTap, "gretap"),
            (GreTap6, "ip6gretap"),
            (IpIp, "ipip"),
            (Ip6Tnl, "ip6tnl"),
            (SitTun, "sit"),
            (GreTun, "gre"),
            (GreTun6, "ip6gre"),
            (Vti, "vti"),
            (Vti6, "vti6"),
            (Vrf, "vrf"),
            (Gtp, "gtp"),
            (Ipoib, "ipoib"),
            (Wireguard, "wireguard"),
            (Xfrm, "xfrm"),
            (MacSec, "macsec"),
            (Hsr, "hsr"),
            (Geneve, "geneve"),
            (Netkit, "netkit"),
            (Vcan, "vcan"),
            (Vxcan, "vxcan"),
            (Amt, "amt"),
            (BatAdv, "batadv"),
            (BareUdp, "bareudp"),
            (Netdevsim, "netdevsim"),
            (VirtWifi, "virt_wifi"),
            (Wwan, "wwan"),
            (Can, "can"),
            (Dsa, "dsa"),
            (Team, "team"),
            (ErSpan, "erspan"),
            (Ip6ErSpan, "ip6erspan"),
            (Pfcp, "pfcp"),
            (RmNet, "rmnet"),
            // End: written by tables/generate.
        }
    };
}

/// Maps a kind to its tag: `kinds!(tag_by_kinds kind)`.
macro_rules! tag_by_kinds {
    ($kinds:ident $tags:ident $kind:tt; $(($variant:ident, $name:literal),)*) => {
        match $kind {
            $($kinds::$variant => $tags::$variant,)*
            $kinds::Other(_) => $tags::Other,
        }
    };
}

/// Maps a kind to its name.
macro_rules! name_by_kinds {
    ($kinds:ident $tags:ident $kind:tt; $(($variant:ident, $name:literal),)*) => {
        match $kind {
            $($kinds::$variant => $name,)*
            $kinds::Other(text) => text.as_str(),
        }
    };
}

/// Maps a tag to its kind.
macro_rules! kind_by_kinds {
    ($kinds:ident $tags:ident $tag:tt; $(($variant:ident, $name:literal),)*) => {
        match $tag {
            $($tags::$variant => Some($kinds::$variant),)*
            $tags::Other => None,
        }
    };
}

pub(crate) use kind_by_kinds;
pub(crate) use name_by_kinds;
pub(crate) use tag_by_kinds;

impl InfoKind {
    /// Makes the kind of this name, [`Other`] if the name is unknown. A known name needs no memory.
    ///
    /// [`Other`]: crate::layers::numbers::InfoKind::Other
    pub fn from_text(text: &str) -> Result<InfoKind, AllocError> {
        match InfoKind::from_tag(tag_of_name(text.as_bytes())) {
            Some(kind) => Ok(kind),
            None => Ok(InfoKind::Other(Text::copy_of(text)?)),
        }
    }

    /// The tag of the kind, by the variant: the tag of [`Other`] is [`Other`], whatever its name.
    ///
    /// [`Other`]: crate::layers::numbers::InfoKind::Other
    #[must_use]
    pub fn tag(&self) -> KindTag {
        kinds!(tag_by_kinds self)
    }

    /// The name of the kind.
    #[must_use]
    pub fn name(&self) -> &str {
        kinds!(name_by_kinds self)
    }

    /// The kind of this tag, or `None` for [`Other`], whose name the tag does not tell.
    ///
    /// [`Other`]: crate::layers::numbers::InfoKind::Other
    #[must_use]
    pub fn from_tag(tag: KindTag) -> Option<InfoKind> {
        kinds!(kind_by_kinds tag)
    }
}

/// Writes the name of the kind.
impl fmt::Display for InfoKind {
    fn fmt(&self, f: &mut fmt::Formatter<'_>) -> fmt::Result {
        f.write_str(self.name())
    }
}

/// An attribute `IFLA_INFO_KIND` (1): the name and one NUL. It fits if the name has at most 65530
/// bytes.
impl Nla for InfoKind {
    #[inline]
    fn value_len(&self) -> usize {
        self.name().len() + 1
    }

    #[inline]
    fn kind(&self) -> u16 {
        IFLA_INFO_KIND
    }

    #[inline]
    fn emit_value(&self, buffer: &mut [u8]) {
        emit_name(self.name(), buffer);
    }

    #[inline]
    fn fit_len(&self) -> Option<usize> {
        name_fit_len(self.name())
    }
}

/// Reads the kind from an attribute `IFLA_INFO_KIND`.
///
/// An attribute of another type is rejected as `(LinkInfo, type, WrongType)` with that type, and a
/// name that is not UTF-8 as `(LinkInfo, 1, Utf8)`. Only an unknown name needs memory.
impl<'a> Parseable<NlaBuffer<'a>> for InfoKind {
    #[inline]
    fn parse(buffer: &NlaBuffer<'a>) -> Result<InfoKind, DecodeError> {
        let name = name_of(buffer, IFLA_INFO_KIND)?;
        Ok(InfoKind::from_text(name)?)
    }
}

impl ExactEq for InfoKind {}
