//! Generated inputs: packets valid and damaged, lists of rows to write, buffers spoiled clause by clause, packets of a
//! source with what befalls them, records of a source with any numbers, logs valid and spoiled, and cursors of them. They come from
//! one small deterministic generator, so that a case is named by its seed.
//!
//! And packets made by hand, with the refusal and the offset that they get.
#![forbid(unsafe_code)]

mod faults;
mod lists;
mod logs;
mod packets;
mod random;
mod receptions;
mod spoiled;

pub use faults::{faults, header_faults, Judged};
pub use lists::{counts_of, damage_list, groups_apart, list_from_packet, lists_for_packet, long_runs, made_list, remark, List};
pub use logs::{
    damage_log, log_bytes, log_cursor, log_fields, log_frame, log_frames, log_length, log_list, log_other, log_places, spoil_log_list,
    spoiled_log, LogField, SpoiledLog, LOG_LIST_SPOILS, LOG_SPOILS,
};
pub use packets::{bad_settings, damage, mode_request, other_settings, packet, packet_at, payload, payload_start, settings, Shape};
pub use random::Random;
pub use receptions::{any_reception, change_reception, reception_before_report, Arrival, Source};
pub use spoiled::{spoil, SPOILS};
