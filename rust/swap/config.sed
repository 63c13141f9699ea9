# Gives the tree's ConfigError a variant for what netflow_pending refuses and the original takes.
/^pub enum ConfigError {$/a\
    /// No pending flow cache is as large as that\
    PendingLimitsTooLarge(netflow_pending::ConfigError),
/^impl std::fmt::Display for ConfigError {$/,/^}$/{
/^        match self {$/a\
            ConfigError::PendingLimitsTooLarge(limits) => write!(f, "{limits}"),
}
