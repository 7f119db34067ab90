// The slips that the stored cases are to tell: what each is, and what puts it into vmf.rs: a text, what it becomes and
// the number of its matches.
pub type Change = (&'static str, &'static str, usize);

const REFRESH: &str = "served[i] = dot(&means[i], &centers[labels[i]]);";
const DRIFT: &str = "drift[c] = dot(&previous[c], &centers[c])\n";

pub const SLIPS: &[(&str, &[Change])] = &[
    // document 01's
    ("a leaf is skipped at ≥ 0", &[("const BOUND_SLACK: f64 = 1e-12;", "const BOUND_SLACK: f64 = 0.0;", 1)]),
    ("`shift_upper` without its guard", &[("    if p <= u {\n        return 1.0;\n    }\n", "", 1)]),
    (
        "the greatest log-likelihood is kept across a NaN",
        &[("if r.loglik <= b.loglik", "if !(r.loglik > b.loglik)", 1)],
    ),
    (
        "the later of equal scores is kept",
        &[("if score < best_score", "if score < best_score || best.is_some() && score == best_score", 1)],
    ),
    ("`two_smallest` takes the later of equals", &[("if p < lo {", "if p <= lo {", 1)]),
    ("unit leaf means in the sums of k-means", &[("n[i] * means[i][d]", "n[i] * unit(&means[i])[d]", 2)]),
    ("unit leaf means in the mixture's sums", &[("w * mu[i][d]", "w * unit(&mu[i])[d]", 1)]),
    // of k-means
    ("`shift_lower` without its guard", &[("    if l < -p {\n        return -1.0;\n    }\n", "", 1)]),
    ("`served` is not refreshed", &[(REFRESH, "", 1)]),
    (
        "the refresh of `served` counts as made",
        &[(REFRESH, "served[i] = counted_dot(&means[i], &centers[labels[i]]);", 1)],
    ),
    (
        "each restart of `spherical_kmeans` draws from the seed",
        &[("k, &mut rng)", "k, &mut SplitMix64::new(seed))", 1)],
    ),
    (
        "the first seed is not made unit",
        &[("unit(&means[weighted_pick(&w0, rng)])", "means[weighted_pick(&w0, rng)].clone()", 1)],
    ),
    (
        "a later seed is not made unit",
        &[("unit(&means[weighted_pick(&probs, rng)])", "means[weighted_pick(&probs, rng)].clone()", 1)],
    ),
    ("a reseeded centre is not made unit", &[("unit(&means[worst])", "means[worst].clone()", 1)]),
    (
        "k-means has one round too many",
        &[("0..max_iter {\n        crate::counts", "0..max_iter + 1 {\n        crate::counts", 1)],
    ),
    (
        "a centre whose group's sum has norm 0 has drift 1",
        &[(
            DRIFT,
            "let stays = count[c] > 0 && !(norm(&acc[c]) > R::zero());
            drift[c] = (if stays { R::one() } else { dot(&previous[c], &centers[c]) })\n",
            1,
        )],
    ),
    (
        "a centre that is as it was has drift 1",
        &[(
            DRIFT,
            "let stays = previous[c] == centers[c];
            drift[c] = (if stays { R::one() } else { dot(&previous[c], &centers[c]) })\n",
            1,
        )],
    ),
    ("`argmin` takes the later of equals", &[("if x < v[best]", "if x <= v[best]", 1)]),
    ("a leaf's best centre is the later of equals", &[("if d > best_dot", "if d >= best_dot", 1)]),
    (
        "the sums of k-means start from −0",
        &[("R::zero(); dim]; k];\n        let mut count", "-R::zero(); dim]; k];\n        let mut count", 1)],
    ),
    // of the mixture
    (
        "one restart of the mixture is played four times",
        &[("seed.wrapping_add(s.wrapping_mul(0x9E37_79B9))", "seed", 1)],
    ),
    (
        "the warm start has 49 rounds",
        &[("spherical_kmeans(features, k, 50, 1, seed)", "spherical_kmeans(features, k, 49, 1, seed)", 1)],
    ),
    (
        "the mixture has one round too many",
        &[("0..max_iter {\n        let logc", "0..max_iter + 1 {\n        let logc", 1)],
    ),
    ("`argmax` takes the later of equals", &[("if x > v[best]", "if x >= v[best]", 1)]),
    (
        "the mixture's sums start from −0",
        &[("let mut rvec = vec![vec![R::zero()", "let mut rvec = vec![vec![-R::zero()", 1)],
    ),
    ("the log-likelihood starts from −0", &[("let mut new_ll = R::zero()", "let mut new_ll = -R::zero()", 1)]),
    ("p of Shared is that of Free", &[("Kappa::Shared => k * d,", "Kappa::Shared => k * d + (k - 1),", 1)]),
    // of the exponential
    ("the exponential is 0 below −708", &[(".document_exp()", ".document_exp_within(-708.0, 709.0)", 5)]),
    (
        "the exponential is +infinity from 709 on",
        &[(".document_exp()", ".document_exp_within(-745.0, f64::from_bits(709f64.to_bits() - 1))", 5)],
    ),
];
