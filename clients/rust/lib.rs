//! Clients of `hhm serve`: of one server, and of several as one.

mod hhm_client;
mod hhm_cluster;

pub use hhm_client::*;
pub use hhm_cluster::*;
