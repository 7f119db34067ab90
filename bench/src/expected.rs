// What a call must answer: document 01's refusals, written from the document, and else what the original gives.
use crate::calls::{Call, Fit};
use crate::port::Lent;
use oracle::standins::Leaf;
use oracle::vmf::{self, Kappa, Movmf};
use oracle::{counts, document};
use std::panic::{catch_unwind, AssertUnwindSafe};

// Document 01, 'Refusals by call', but for 7; before them 13, for a kind of Kappa that is none.
pub fn refusal(c: &Call) -> u32 {
    if c.fit != Fit::Spherical && c.kappa > 1 {
        return 13;
    }
    let (m, n) = (c.flat.weights.len(), c.flat.coords.len());
    if m < 1 || m > 4096 || c.d < 1 || c.d > 256 || n != m * c.d {
        return 1;
    }
    let k = c.most();
    if k == 0 || k > 64 || k > m {
        return 2;
    }
    if c.rounds > 10000 || (c.fit == Fit::Spherical && c.restarts > 64) {
        return 3;
    }
    let l = &c.lent;
    let mut long = l.labels.len() >= m
        && l.directions.len() >= k * c.d
        && l.work.len() >= 2 * m * k + 4 * k * c.d + 8 * m + 16 * k
        && l.work_u32.len() >= 2 * m + 2 * k;
    if c.fit != Fit::Spherical {
        long &= l.responsibilities.len() >= m * k
            && l.weights.len() >= k
            && l.concentrations.len() >= k
            && l.logw.len() >= k;
    }
    if !long {
        return 4;
    }
    if c.flat.weights.iter().any(|w| !(*w >= 0.0 && *w <= 1099511627776.0)) {
        return 5;
    }
    if c.flat.coords.iter().any(|x| !(x.abs() <= 2.0)) {
        return 6;
    }
    0
}

// The refusal, with what the original gives written into what is lent.
pub fn answer(c: &Call, l: &mut Lent) -> u32 {
    let code = refusal(c);
    if code != 0 {
        return code;
    }
    let set: Vec<Leaf> = c
        .flat
        .weights
        .iter()
        .zip(c.flat.coords.chunks(c.d))
        .map(|(&weight, row)| Leaf { mean: row.to_vec(), weight })
        .collect();
    let kappa = if c.kappa == 1 { Kappa::Shared } else { Kappa::Free };
    counts::take();
    match c.fit {
        Fit::Spherical => {
            let r = vmf::spherical_kmeans::<f64, Leaf>(&set, c.k, c.rounds, c.restarts, c.seed);
            labels(&r.labels, l);
            write(&mut l.directions, &r.centers.concat());
            l.cohesion = r.cohesion;
        }
        Fit::Mixture => {
            let r = vmf::movmf_with::<f64, Leaf>(&set, c.k, c.rounds, c.seed, kappa);
            fitted(&r, l);
        }
        Fit::Auto => {
            let run = || vmf::movmf_auto_with::<f64, Leaf>(&set, c.k_min, c.k, c.rounds, c.seed, kappa);
            // the original panics where no number is kept
            match catch_unwind(AssertUnwindSafe(run)) {
                Ok(r) => {
                    fitted(&r, l);
                    l.score = score(c, &r);
                }
                Err(_) => {
                    counted(l);
                    return 7;
                }
            }
        }
    }
    counted(l);
    0
}

fn counted(l: &mut Lent) {
    let c = counts::take();
    (l.counts[0], l.counts[1]) = (c.made, c.saved);
}

// −2·loglik + p·ln(total weight), which the original does not return.
fn score(c: &Call, r: &Movmf<f64>) -> f64 {
    let k = r.weights.len();
    let p = if c.kappa == 1 { k * c.d } else { k * c.d + k - 1 };
    -2.0 * r.loglik + p as f64 * document::ln(c.flat.weights.iter().sum())
}

fn fitted(r: &Movmf<f64>, l: &mut Lent) {
    labels(&r.labels, l);
    write(&mut l.responsibilities, &r.resp.concat());
    write(&mut l.weights, &r.weights);
    write(&mut l.directions, &r.means.concat());
    write(&mut l.concentrations, &r.kappas);
    write(&mut l.logw, &r.mixture.logw);
    (l.groups, l.loglik) = (r.weights.len(), r.loglik);
}

fn labels(found: &[usize], l: &mut Lent) {
    l.labels.iter_mut().zip(found).for_each(|(x, &y)| *x = y as u32);
}

fn write(array: &mut [f64], found: &[f64]) {
    array[..found.len()].copy_from_slice(found);
}
