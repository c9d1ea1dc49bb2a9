//! Measures the proved planner beside its peers: the second implementation, the published procedure of source 001 and, for admission,
//! the sum of utilizations alone.

pub mod counting;
pub mod days;
pub mod eaciar;
pub mod ledger;
pub mod planner;
pub mod plot;
pub mod records;
pub mod report;
pub mod settings;
pub mod subject;
pub mod table;
pub mod timing;
