#![doc = include_str!("../README.md")]
#![no_std]
#![deny(missing_docs)]

#[cfg(not(any(archive, assembly)))]
compile_error!(
    "the core is there for x86-64 and aarch64 Linux (64 bits, little-endian); for another target set CADWRELCH_CORE to the path of a libcadwrelch.a"
);

#[cfg(all(assembly, target_arch = "x86_64"))]
core::arch::global_asm!(
    include_str!(env!("CADWRELCH_ASSEMBLY")),
    options(att_syntax, raw)
);

#[cfg(all(assembly, not(target_arch = "x86_64")))]
core::arch::global_asm!(include_str!(env!("CADWRELCH_ASSEMBLY")), options(raw));

mod constants;
mod functions;
mod structs;

pub use constants::*;
pub use functions::*;
pub use structs::*;
