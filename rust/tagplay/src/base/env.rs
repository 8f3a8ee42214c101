//! The arguments of the process.

use crate::base::rights::Env;
use crate::base::vec::{AllocError, Global, Vec};
use std::io::{ErrorKind, Result};

/// Arguments that are all UTF-8.
pub struct Args(std::vec::Vec<String>);

impl Args {
    pub fn collect(self, _: Global) -> std::result::Result<Vec<String>, AllocError> {
        Ok(self.0.into())
    }
}

/// The arguments, if all are UTF-8.
pub fn args<P: Env>(_: &P) -> Result<Args> {
    let words = std::env::args_os().map(|word| word.into_string());
    match words.collect() {
        Ok(words) => Ok(Args(words)),
        Err(_) => Err(ErrorKind::InvalidData.into()),
    }
}
