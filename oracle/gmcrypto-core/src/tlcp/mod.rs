pub mod key_schedule;
pub mod record;
