//! The crates of the library for C, and what stands for Rattle's std.

pub mod frame_diff;
pub mod frame_shown;
pub mod line_filter;
pub mod link_afspec;
pub mod link_c;
pub mod link_info;
pub mod link_msg;
pub mod link_nest;
pub mod link_recs;
pub mod link_state;
pub mod link_vals;
pub mod link_vf;
pub mod link_vfrec;
pub mod link_vlans;
pub mod message_diff;
pub mod message_shown;
pub mod nla_wire;
pub mod rattle;
pub mod shown;
