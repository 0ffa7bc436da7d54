//! The calls on fields of records.

use super::{done, Handle};
use crate::error::Error;
use crate::sys;

impl Handle {
    /// Adds the items of records with their weights. The second value is where a record with an error begins.
    pub(crate) fn update_fields(
        &mut self,
        bytes: &[u8],
        fields: &sys::ds_fields,
    ) -> (Result<(), Error>, sys::ds_fields_read) {
        let mut read = sys::ds_fields_read::default();
        let (place, length) = (bytes.as_ptr(), bytes.len());
        // SAFETY: rules 2 and 3 hold, as the head of `handle` says: the bytes and the fields are borrowed, and `read` is local.
        let result = unsafe { sys::ds_update_fields(self.get(), place, length, fields, &mut read) };
        (done(result).map(drop), read)
    }
}
