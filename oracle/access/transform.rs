
// ---- What follows is not published: it opens the private parts to the comparison. ----

/// The transform of eight numbers, without lens terms.
pub fn transform_of(m: [f64; 8]) -> Transform {
    lens_transform_of(m, [0.0; 3])
}

/// The transform of eight numbers and the lens terms: centre x, centre y, strength.
pub fn lens_transform_of(m: [f64; 8], radial: [f64; 3]) -> Transform {
    Transform { m, radial }
}

/// The eight numbers of a transform.
pub fn numbers_of(t: &Transform) -> [f64; 8] {
    t.m
}

/// The lens terms of a transform.
pub fn lens_of(t: &Transform) -> [f64; 3] {
    t.radial
}
