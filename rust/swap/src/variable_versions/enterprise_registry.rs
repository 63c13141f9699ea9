//! Stand-in for the original `enterprise_registry.rs`: `config.rs` names this type.

#[derive(Debug)]
pub struct EnterpriseFieldRegistry;

impl EnterpriseFieldRegistry {
    pub fn new() -> Self {
        Self
    }
}
