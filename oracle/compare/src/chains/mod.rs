//! Random chain files, what they meet, and mistakes in retelling them.
pub mod bent;
pub mod classes;
pub mod files;
pub mod mistakes;
pub mod rider;
pub mod seen;
