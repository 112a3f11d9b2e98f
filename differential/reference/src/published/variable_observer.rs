#[derive(Debug)]
pub struct VariableObserverError;

impl core::fmt::Display for VariableObserverError {
    fn fmt(&self, f: &mut core::fmt::Formatter<'_>) -> core::fmt::Result {
        f.write_str("variable observer")
    }
}
