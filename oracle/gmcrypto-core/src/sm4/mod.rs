pub mod cipher;
pub mod mode_cbc;
