//! The workloads over this repository's crates, as the static library exports them.

mod exported {
    unsafe extern "C" {
        pub safe fn hdrb_generate(seed: u64, n: u64) -> u64;
        pub safe fn hdrb_record(seed: u64, n: u64) -> u64;
        pub safe fn hdrb_correct(seed: u64, n: u64, interval: u64) -> u64;
        pub safe fn hdrb_quantile(seed: u64, n: u64, num: u64, den: u64) -> u64;
        pub safe fn hdrb_add(seed: u64, n: u64) -> u64;
        pub safe fn hdrb_serialize(seed: u64, n: u64) -> u64;
        pub safe fn hdrb_iter_recorded(seed: u64, n: u64) -> u64;
        pub safe fn hdrb_iter_all(seed: u64, n: u64) -> u64;
        pub safe fn hdrb_iter_recorded_few(seed: u64, n: u64) -> u64;
        pub safe fn hdrb_iter_recorded_apart(seed: u64, n: u64) -> u64;
        pub safe fn hdrb_iter_linear(seed: u64, n: u64, width: u64) -> u64;
        pub safe fn hdrb_iter_log(seed: u64, n: u64) -> u64;
        pub safe fn hdrb_iter_quantiles(seed: u64, n: u64) -> u64;
        pub safe fn hdrb_values(seed: u64, n: u64) -> u64;
        pub safe fn hdrb_quantile_below(seed: u64, n: u64) -> u64;
        pub safe fn hdrb_quantile_below_median(seed: u64, n: u64) -> u64;
        pub safe fn hdrb_decode(seed: u64, n: u64) -> u64;
        pub safe fn hdrb_decode_few(seed: u64, n: u64) -> u64;
        pub safe fn hdrb_log_line(seed: u64, n: u64) -> u64;
        pub safe fn hdrb_log_read(seed: u64, n: u64) -> u64;
        pub safe fn hdrb_log_ends(seed: u64, n: u64) -> u64;
        pub safe fn hdrb_log_texts(seed: u64, n: u64) -> u64;
        pub safe fn hdrb_log_floor(seed: u64, n: u64) -> u64;
    }
}

pub use exported::hdrb_add as add;
pub use exported::hdrb_correct as correct;
pub use exported::hdrb_decode as decode;
pub use exported::hdrb_decode_few as decode_few;
pub use exported::hdrb_generate as generate;
pub use exported::hdrb_log_ends as log_ends;
pub use exported::hdrb_log_floor as log_floor;
pub use exported::hdrb_log_line as log_line;
pub use exported::hdrb_log_read as log_read;
pub use exported::hdrb_log_texts as log_texts;
pub use exported::hdrb_quantile as quantile;
pub use exported::hdrb_record as record;
pub use exported::hdrb_iter_all as iter_all;
pub use exported::hdrb_iter_linear as iter_linear;
pub use exported::hdrb_iter_log as iter_log;
pub use exported::hdrb_iter_quantiles as iter_quantiles;
pub use exported::hdrb_iter_recorded as iter_recorded;
pub use exported::hdrb_iter_recorded_apart as iter_recorded_apart;
pub use exported::hdrb_iter_recorded_few as iter_recorded_few;
pub use exported::hdrb_quantile_below as quantile_below;
pub use exported::hdrb_quantile_below_median as quantile_below_median;
pub use exported::hdrb_serialize as serialize;
pub use exported::hdrb_values as values;
