// The module tree of the traced copy of the crate (reference/traced).
mod among;
mod snowball_env;
pub mod trace;
pub mod searches;
pub mod algorithms {
    pub mod arabic;
}
pub use self::among::Among;
pub use self::snowball_env::SnowballEnv;
