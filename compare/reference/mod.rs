// The module tree of the crate, with the Arabic algorithm alone.
mod among;
mod snowball_env;
pub mod algorithms {
    pub mod arabic;
    pub mod arabic_test_copy;
}
pub use self::among::Among;
pub use self::snowball_env::SnowballEnv;
