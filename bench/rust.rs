// The scalar Rust's add call and float call under C names. The text of itx.rs is taken as it is.
#![no_std]
#![allow(dead_code)]
mod av2 {
    #[path = "ITX"]
    pub(crate) mod itx;
}
use core::slice::{from_raw_parts, from_raw_parts_mut};

#[unsafe(no_mangle)]
pub unsafe extern "C" fn rust_add(dst: *mut i32, dst_len: usize, stride: usize, coeff: *const i32, coeff_len: usize, txtp: usize, tx: usize, bd: u32) {
    let (dst, coeff) = unsafe { (from_raw_parts_mut(dst, dst_len), from_raw_parts(coeff, coeff_len)) };
    av2::itx::inv_txfm_add(dst, stride as isize, coeff, txtp, tx, bd as i32)
}

#[unsafe(no_mangle)]
pub unsafe extern "C" fn rust_float(out: *mut f32, out_len: usize, coeff: *const i32, coeff_len: usize, txtp: usize, tx: usize, bd: u32, pred: *const i32, pred_len: usize) {
    let (out, coeff, pred) = unsafe { (from_raw_parts_mut(out, out_len), from_raw_parts(coeff, coeff_len), from_raw_parts(pred, pred_len)) };
    av2::itx::inv_txfm_recon_f32(out, coeff, txtp, tx, bd as i32, |i| pred[i])
}
