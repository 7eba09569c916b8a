//! Reference implementation of ancillary fields over RTP, written from the
//! scope document ("01"), the change requests ("02"), RFC 8331 and the drafts
//! of 2015 alone.
//!
//! Every entry point takes any octets, lists and state and ends with an
//! answer or a numbered [`Refusal`]; lent memory is unchanged by a refusal.

#![forbid(unsafe_code)]

pub mod anc;
pub mod capture;
pub mod coverage;
pub mod datagram;
pub mod depacketizer;
pub mod fielddiff;
pub mod fieldlist;
pub mod fieldsave;
pub mod file;
pub mod frames;
pub mod layout;
pub mod outlet;
pub mod packet;
pub mod program;
pub mod random;
pub mod realistic;
pub mod refusal;
pub mod runs;
pub mod sdi;
pub mod sdp;
pub mod streamcheck;

pub use fielddiff::fielddiff;
pub use fieldlist::fieldlist;
pub use fieldsave::fieldsave;
pub use layout::Layout;
pub use refusal::Refusal;
pub use streamcheck::streamcheck;
