// @generated from crates/linkinfo_families_tests/src/tests.rt by rust/translate/run.

//! Tests over worked attributes: each row of each family, as the kernel writes it, and both types
//! of peer in each call of the families with one. Also nested lists, families without rows, and the
//! calls that families are made of.

mod amt;
mod bare_udp;
mod batadv;
mod bit;
mod calls;
mod encodables;
mod geneve;
mod gre;
mod gre6;
mod gtp;
mod ip_tunnel;
mod ipoib;
mod ipvlan;
mod last;
mod lengths;
mod macsec;
mod macvlan;
mod marked;
mod nested;
mod netkit;
mod opaque;
mod payloads;
mod peers;
mod rmnet;
mod rows;
mod table;
mod typed_bond;
mod typed_bridge;
mod typed_can;
mod typed_devices;
mod typed_ports;
mod typed_vlan;
mod vlan;
mod vti;
mod vxlan;
mod wwan;
mod xfrm;
