//! Random recipes and images: well-typed recipes directed by types, what can go wrong with them,
//! and images with and without a fault.

pub mod bays;
pub mod configurations;
pub mod growth;
pub mod houses;
pub mod images;
pub mod instances;
pub mod mutants;
pub mod recipes;
pub mod separate;
pub mod shares;
pub mod starts;
pub mod tables;
pub mod terms;
pub mod test_loads;
