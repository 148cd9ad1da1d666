//! The programs as they are used: each test runs one in a folder of its own.

#[path = "cli/bank.rs"]
mod bank;
#[path = "cli/banks.rs"]
mod banks;
#[path = "cli/cd.rs"]
mod cd;
#[path = "cli/encheck.rs"]
mod encheck;
#[path = "cli/encheck_files.rs"]
mod encheck_files;
#[path = "cli/encheck_usage.rs"]
mod encheck_usage;
#[path = "cli/encoded.rs"]
mod encoded;
#[path = "cli/folder.rs"]
mod folder;
#[path = "cli/lines.rs"]
mod lines;
#[path = "cli/loads.rs"]
mod loads;
#[path = "cli/replacing.rs"]
mod replacing;
#[path = "cli/same_file.rs"]
mod same_file;
#[path = "cli/sectors.rs"]
mod sectors;
#[path = "cli/signals.rs"]
mod signals;
#[path = "cli/streams.rs"]
mod streams;
#[path = "cli/usage.rs"]
mod usage;
#[path = "cli/xa.rs"]
mod xa;
#[path = "cli/xa_damage.rs"]
mod xa_damage;
#[path = "cli/xa_files.rs"]
mod xa_files;
#[path = "cli/xa_usage.rs"]
mod xa_usage;
