//! Empty: the original's file isn't at hand, and nothing here uses it.
