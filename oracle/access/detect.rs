
// ---- What follows is not published: it opens the private parts to the comparison. ----

/// The module of five runs that pass, or none.
pub fn match_of(runs: [u32; 5]) -> Option<f32> {
    matches_finder(runs)
}

/// How many pixels a run has, up to the limit.
pub fn length_of(bin: &Binary, x: u32, y: u32, step: i32, want: bool, limit: u32) -> u32 {
    run_length(bin, x, y, step, want, limit)
}

/// Joins a hit to a list of finders, or adds it.
pub fn join(found: &mut Vec<Finder>, x: f32, y: f32, module: f32) {
    merge(found, x, y, module)
}

/// The score of three finders in order, or none.
pub fn score_of(f: &[Finder; 3]) -> Option<f32> {
    right_angle_score(f)
}

/// The detection of three finders in order, or none.
pub fn detection_of(bin: &Binary, finders: [Finder; 3]) -> Option<Detection> {
    build_detection(bin, finders)
}

/// Every finder that the search adds to its list, those with one confirmation too, in the
/// order of discovery. The search itself shows only those with two or more.
pub fn all_held(bin: &Binary) -> Vec<Finder> {
    let mut held = Vec::new();
    for row in (0..bin.height).step_by(2) {
        let mut hits = Vec::new();
        scan_line(bin.width, |x| bin.dark(x, row), |at, module| hits.push((at, module)));
        for (at, module) in hits {
            let y = confirm_vertical(bin, at as u32, row, module);
            let hit = y.and_then(|y| Some((confirm_horizontal(bin, at as u32, y as u32, module)?, y)));
            if let Some((x, y)) = hit {
                merge(&mut held, x, y, module);
            }
        }
    }
    for col in (0..bin.width).step_by(2) {
        let mut hits = Vec::new();
        scan_line(bin.height, |y| bin.dark(col, y), |at, module| hits.push((at, module)));
        for (at, module) in hits {
            let x = confirm_horizontal(bin, col, at as u32, module);
            let hit = x.and_then(|x| Some((x, confirm_vertical(bin, x as u32, at as u32, module)?)));
            if let Some((x, y)) = hit {
                merge(&mut held, x, y, module);
            }
        }
    }
    held
}
