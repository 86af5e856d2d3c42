//! An empty crate in place of `compiler_builtins`, which every crate without std is linked with: what it would have comes from the C compiler's library.
#![feature(compiler_builtins)]
#![compiler_builtins]
#![no_builtins]
#![no_std]
