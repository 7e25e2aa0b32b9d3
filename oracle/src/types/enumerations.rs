// The original's file, unchanged.
include!("../../../../shared/docs/src/src/types/enumerations.rs");
