use a::{self, b::{c, d as e}, ::f, *};
use {g, crate::h};
