//! Sound banks, read from their files.

use tenonwhisk::{bank, Refusal};

use crate::failure::Failure;
use crate::source::Source;
use crate::{damage, whole};

/// The title's bank and the house's. One that is not named has no entries.
pub struct Banks {
    title: Vec<u8>,
    house: Vec<u8>,
}

impl Banks {
    /// Refuses a damaged bank, and says where it is damaged.
    pub fn read(title: Option<Source>, house: Option<Source>) -> Result<Option<Banks>, Failure> {
        if title.is_none() && house.is_none() {
            return Ok(None);
        }
        Ok(Some(Banks { title: good(title)?, house: good(house)? }))
    }

    pub fn lookup(&self, number: u32) -> Result<&[u8], Refusal> {
        bank::lookup(&self.title, &self.house, number)
    }
}

fn good(source: Option<Source>) -> Result<Vec<u8>, Failure> {
    let Some(source) = source else { return Ok(bank::EMPTY.to_vec()) };
    let name = source.name.clone();
    let bytes = read(source)?;
    match damage::first(&bytes) {
        Some(words) => Err(Failure::new(format!("{name}: {words}"))),
        None => Ok(bytes),
    }
}

/// The bytes of a bank, good or damaged.
pub fn read(source: Source) -> Result<Vec<u8>, Failure> {
    let name = source.name.clone();
    whole::read_file(source.open()?, "bank").map_err(|error| Failure::reading(name, &error))
}
