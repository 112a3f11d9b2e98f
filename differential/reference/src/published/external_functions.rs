#[derive(Debug)]
pub struct ExternalFunctionError;

impl core::fmt::Display for ExternalFunctionError {
    fn fmt(&self, f: &mut core::fmt::Formatter<'_>) -> core::fmt::Result {
        f.write_str("external function")
    }
}
