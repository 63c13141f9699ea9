//! Stand-in for the original `template_store.rs`: `config.rs` names this trait.

pub trait TemplateStore: std::fmt::Debug {}
