//! A stand-in for `utils::limits`: there is no memory limit.

pub mod limits {
    pub fn check_memory_limit_if_needed() -> anyhow::Result<()> {
        Ok(())
    }
}
