// The exported functions (include/mosterklomp.h declares them for C), and a form over slices.

// A lent slice crosses the border as a pointer and a length.
#[allow(clippy::too_many_arguments)]
mod c {
    #[link(name = "station", kind = "static")]
    extern "C" {
        pub fn mosterklomp_spherical_kmeans(
            weights: *const f64, m: usize, coords: *const f64, n: usize, d: usize, k: usize, rounds: usize,
            restarts: usize, seed: u64, labels: *mut u32, labels_len: usize, directions: *mut f64,
            directions_len: usize, work: *mut f64, work_len: usize, work_u32: *mut u32, work_u32_len: usize,
            cohesion: *mut f64, counts: *mut u64,
        ) -> u32;
        pub fn mosterklomp_movmf_with(
            weights: *const f64, m: usize, coords: *const f64, n: usize, d: usize, k: usize, rounds: usize, seed: u64,
            kappa: u32, fixed: f64, labels: *mut u32, labels_len: usize, responsibilities: *mut f64,
            responsibilities_len: usize, group_weights: *mut f64, group_weights_len: usize, directions: *mut f64,
            directions_len: usize, concentrations: *mut f64, concentrations_len: usize, logw: *mut f64,
            logw_len: usize, work: *mut f64, work_len: usize, work_u32: *mut u32, work_u32_len: usize,
            groups: *mut usize, loglik: *mut f64, counts: *mut u64,
        ) -> u32;
        pub fn mosterklomp_movmf_auto_with(
            weights: *const f64, m: usize, coords: *const f64, n: usize, d: usize, k_min: usize, k_max: usize,
            rounds: usize, seed: u64, kappa: u32, fixed: f64, labels: *mut u32, labels_len: usize,
            responsibilities: *mut f64, responsibilities_len: usize, group_weights: *mut f64, group_weights_len: usize,
            directions: *mut f64, directions_len: usize, concentrations: *mut f64, concentrations_len: usize,
            logw: *mut f64, logw_len: usize, work: *mut f64, work_len: usize, work_u32: *mut u32, work_u32_len: usize,
            groups: *mut usize, loglik: *mut f64, score: *mut f64, counts: *mut u64,
        ) -> u32;
    }
}

// Leaves as the port takes them: the weights, and the coordinates row by row.
#[derive(Clone)]
pub struct Flat {
    pub weights: Vec<f64>,
    pub coords: Vec<f64>,
}

// What is lent to a call, and the answer.
#[derive(Clone)]
pub struct Lent {
    pub labels: Vec<u32>,
    pub responsibilities: Vec<f64>,
    pub weights: Vec<f64>,
    pub directions: Vec<f64>,
    pub concentrations: Vec<f64>,
    pub logw: Vec<f64>,
    pub work: Vec<f64>,
    pub work_u32: Vec<u32>,
    pub groups: usize,
    pub cohesion: f64,
    pub loglik: f64,
    pub score: f64,
    // made, saved, and an entry that no call may touch
    pub counts: [u64; 3],
}

impl Lent {
    // Arrays exactly long enough for m leaves of d coordinates in k groups.
    pub fn new(m: usize, d: usize, k: usize) -> Self {
        Self {
            labels: vec![0; m],
            responsibilities: vec![0.0; m * k],
            weights: vec![0.0; k],
            directions: vec![0.0; k * d],
            concentrations: vec![0.0; k],
            logw: vec![0.0; k],
            work: vec![0.0; 2 * m * k + 4 * k * d + 8 * m + 16 * k],
            work_u32: vec![0; 2 * m + 2 * k],
            groups: 0,
            cohesion: 0.0,
            loglik: 0.0,
            score: 0.0,
            counts: [0; 3],
        }
    }

    pub fn spherical_kmeans(&mut self, f: &Flat, d: usize, k: usize, rounds: usize, restarts: usize, seed: u64) -> u32 {
        unsafe {
            c::mosterklomp_spherical_kmeans(
                f.weights.as_ptr(),
                f.weights.len(),
                f.coords.as_ptr(),
                f.coords.len(),
                d,
                k,
                rounds,
                restarts,
                seed,
                self.labels.as_mut_ptr(),
                self.labels.len(),
                self.directions.as_mut_ptr(),
                self.directions.len(),
                self.work.as_mut_ptr(),
                self.work.len(),
                self.work_u32.as_mut_ptr(),
                self.work_u32.len(),
                &mut self.cohesion,
                self.counts.as_mut_ptr(),
            )
        }
    }

    pub fn movmf_with(&mut self, f: &Flat, d: usize, k: usize, rounds: usize, seed: u64, kappa: u32) -> u32 {
        unsafe {
            c::mosterklomp_movmf_with(
                f.weights.as_ptr(),
                f.weights.len(),
                f.coords.as_ptr(),
                f.coords.len(),
                d,
                k,
                rounds,
                seed,
                kappa,
                0.0,
                self.labels.as_mut_ptr(),
                self.labels.len(),
                self.responsibilities.as_mut_ptr(),
                self.responsibilities.len(),
                self.weights.as_mut_ptr(),
                self.weights.len(),
                self.directions.as_mut_ptr(),
                self.directions.len(),
                self.concentrations.as_mut_ptr(),
                self.concentrations.len(),
                self.logw.as_mut_ptr(),
                self.logw.len(),
                self.work.as_mut_ptr(),
                self.work.len(),
                self.work_u32.as_mut_ptr(),
                self.work_u32.len(),
                &mut self.groups,
                &mut self.loglik,
                self.counts.as_mut_ptr(),
            )
        }
    }

    #[allow(clippy::too_many_arguments)]
    pub fn movmf_auto_with(
        &mut self, f: &Flat, d: usize, k_min: usize, k_max: usize, rounds: usize, seed: u64, kappa: u32,
    ) -> u32 {
        unsafe {
            c::mosterklomp_movmf_auto_with(
                f.weights.as_ptr(),
                f.weights.len(),
                f.coords.as_ptr(),
                f.coords.len(),
                d,
                k_min,
                k_max,
                rounds,
                seed,
                kappa,
                0.0,
                self.labels.as_mut_ptr(),
                self.labels.len(),
                self.responsibilities.as_mut_ptr(),
                self.responsibilities.len(),
                self.weights.as_mut_ptr(),
                self.weights.len(),
                self.directions.as_mut_ptr(),
                self.directions.len(),
                self.concentrations.as_mut_ptr(),
                self.concentrations.len(),
                self.logw.as_mut_ptr(),
                self.logw.len(),
                self.work.as_mut_ptr(),
                self.work.len(),
                self.work_u32.as_mut_ptr(),
                self.work_u32.len(),
                &mut self.groups,
                &mut self.loglik,
                &mut self.score,
                self.counts.as_mut_ptr(),
            )
        }
    }
}
