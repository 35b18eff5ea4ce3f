//! Stands in for fastapprox, which the reference uses in a friction factor only.

pub mod fast {
    pub fn pow(_base: f32, _exponent: f32) -> f32 {
        unimplemented!()
    }

    pub fn ln(_x: f32) -> f32 {
        unimplemented!()
    }
}
