//! chosen: an API key stays a 16-bit number, as the rules have it. Forced: the four names, by messages/*.rs.
use super::primitives::Int16;

#[derive(Debug, PartialEq, Eq, PartialOrd, Ord, Hash, Clone, Copy)]
pub struct ApiKey(pub i16);

#[allow(non_upper_case_globals)]
impl ApiKey {
    pub const Produce: Self = Self(0);
    pub const Fetch: Self = Self(1);
    pub const Metadata: Self = Self(3);
    pub const ApiVersions: Self = Self(18);
}

impl From<Int16> for ApiKey {
    fn from(number: Int16) -> Self {
        Self(number.0)
    }
}

impl From<ApiKey> for Int16 {
    fn from(key: ApiKey) -> Self {
        Int16(key.0)
    }
}
