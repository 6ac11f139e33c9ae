//! The proved functions, as the compiler of the repository has translated them.

#[cfg(target_arch = "x86_64")]
core::arch::global_asm!(include_str!("sec1-x86_64.s"), options(att_syntax, raw));

#[cfg(target_arch = "aarch64")]
core::arch::global_asm!(include_str!("sec1-aarch64.s"), options(raw));
