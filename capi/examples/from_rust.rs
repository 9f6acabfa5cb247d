//! A histogram in Rust, by the C library.
//!     rustc -O from_rust.rs -L capi/target -l static=dkap
use std::ffi::{CStr, c_char, c_void};

/// `struct dkap_histogram`. It is not `Copy`.
#[repr(C)]
struct Handle {
    filled: bool,
    at: *mut c_void,
}

unsafe extern "C" {
    fn dkap_init_auto(h: *mut Handle, sigfig: u8) -> u32;
    fn dkap_close(h: *mut Handle);
    fn dkap_record(h: *mut Handle, value: u64) -> u32;
    fn dkap_value_at_quantile(h: *const Handle, num: u64, den: u64, value: *mut u64) -> u32;
    fn dkap_strerror(status: u32) -> *const c_char;
}

struct Histogram(Handle);

// A handle may go to another thread, and threads may share one that they only read.
unsafe impl Send for Histogram {}
unsafe impl Sync for Histogram {}

impl Histogram {
    fn new(sigfig: u8) -> Result<Histogram, String> {
        let mut handle = Handle { filled: false, at: std::ptr::null_mut() };
        check(unsafe { dkap_init_auto(&mut handle, sigfig) })?;
        Ok(Histogram(handle))
    }

    fn record(&mut self, value: u64) -> Result<(), String> {
        check(unsafe { dkap_record(&mut self.0, value) })
    }

    fn quantile(&self, num: u64, den: u64) -> Result<u64, String> {
        let mut value = 0;
        check(unsafe { dkap_value_at_quantile(&self.0, num, den, &mut value) })?;
        Ok(value)
    }
}

impl Drop for Histogram {
    fn drop(&mut self) {
        unsafe { dkap_close(&mut self.0) }
    }
}

fn check(status: u32) -> Result<(), String> {
    if status == 0 {
        return Ok(());
    }
    let text = unsafe { CStr::from_ptr(dkap_strerror(status)) };
    Err(text.to_string_lossy().into_owned())
}

fn main() -> Result<(), String> {
    let mut histogram = Histogram::new(3)?;
    for value in 1..=1000 {
        histogram.record(value)?;
    }
    let p99 = std::thread::scope(|scope| {
        let readers: Vec<_> = (0..4).map(|_| scope.spawn(|| histogram.quantile(99, 100))).collect();
        readers.into_iter().map(|it| it.join().unwrap()).collect::<Result<Vec<_>, _>>()
    })?;
    println!("p99 {p99:?}");
    println!("{}", histogram.quantile(1, 0).unwrap_err());
    Ok(())
}
