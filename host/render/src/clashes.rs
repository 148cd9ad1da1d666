//! Refuses to write what is also read, and to read from one pipe twice.

use crate::failure::Failure;
use crate::files::{self, Identity};
use crate::source::Source;
use crate::target::Target;

/// Refuses inputs that are the output, and two that share their bytes. Each input has its role on the command line.
/// Messages must not land in the output either.
pub fn refuse(target: &Target, inputs: &[(&str, Option<&Source>)]) -> Result<(), Failure> {
    refuse_same(files::STANDARD_ERROR, standard_error(), target)?;
    let inputs: Vec<_> = inputs.iter().filter_map(|&(role, source)| Some((role, source?))).collect();
    for (k, (_, source)) in inputs.iter().enumerate() {
        refuse_same(&source.name, source.identity, target)?;
        refuse_shared(&inputs[..=k])?;
    }
    Ok(())
}

/// Refuses two inputs that share their bytes: the first to be read would leave nothing for the second.
pub fn refuse_shared(inputs: &[(&str, &Source)]) -> Result<(), Failure> {
    for (k, &(role, source)) in inputs.iter().enumerate() {
        if let Some((other_role, other)) = inputs[..k].iter().find(|(_, other)| other.shares_bytes(source)) {
            return Err(Failure::new(format!("{} cannot be both {other_role} and {role}", other.name)));
        }
    }
    Ok(())
}

fn refuse_same(name: &str, identity: Option<Identity>, target: &Target) -> Result<(), Failure> {
    if identity.is_none() || identity != target.identity {
        return Ok(());
    }
    Err(Failure::new(format!("{name} and the output {} are the same file; nothing was written", target.name)))
}

fn standard_error() -> Option<Identity> {
    let file = files::standard(std::io::stderr()).ok()?;
    Identity::of(&file.metadata().ok()?)
}
