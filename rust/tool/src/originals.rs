//! Whether this tool was built with the originals.

/// An error where the thing needs the originals and the tool was built without them.
pub fn needed_for(what: &str) -> Result<(), String> {
    if cfg!(originals) {
        return Ok(());
    }
    Err(format!(
        "{what}: this needs the original Cairo-M sources, which weren't reachable when the tool was \
         built (../shared/docs/src beside the repository, or what CAIRO_M_SRC names)"
    ))
}
