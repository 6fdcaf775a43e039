// @generated from crates/linkinfo_typed/src/lib.rt by rust/translate/run.

//! Attributes of links that are opaque in `layers::table::lower`, with types, and those of lists
//! inside them.

// Begin: written by tables/generate from tables/families (modules).
mod bond;
mod bond_ad_info;
mod bond_port;
mod bridge;
mod bridge_port;
mod bridge_querier_state;
mod can;
mod can_ctrl_mode_ext;
mod can_pwm;
mod can_tdc;
mod dsa;
mod hsr;
mod ovpn;
mod ppp;
mod qos;
mod tun;
mod vlan;
// End: written by tables/generate.

// Begin: written by tables/generate from tables/families (types).
pub use bond::InfoBond;
pub use bond_ad_info::BondAdInfo;
pub use bond_port::InfoBondPort;
pub use bridge::InfoBridge;
pub use bridge_port::InfoBridgePort;
pub use bridge_querier_state::BridgeQuerierState;
pub use can::InfoCan;
pub use can_ctrl_mode_ext::CanCtrlModeExt;
pub use can_pwm::CanPwm;
pub use can_tdc::CanTdc;
pub use dsa::InfoDsa;
pub use hsr::InfoHsr;
pub use ovpn::InfoOvpn;
pub use ppp::InfoPpp;
pub use qos::VlanQosMapping;
pub use tun::InfoTun;
pub use vlan::InfoVlan;
// End: written by tables/generate.
