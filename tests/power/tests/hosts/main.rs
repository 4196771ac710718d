//! What a host must do, shown by hosts that do not: the judge finds each of them. One program, so that it is built
//! once.

mod killed_before_the_sync;
mod memory;
mod wrong_hosts;
