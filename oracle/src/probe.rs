// The probe: included into the module of the Rust's de.rs, it reads the private state and changes nothing. For saved
// files it also copies a sampler, and makes one in a state that was read.

/// A candidate or a parent, as it is printed: its entries, and its choices by dimension.
pub struct Vector<'a> {
    /// The entries of the continuous dimensions, in order.
    pub entries: &'a [f64],
    choices: &'a HashMap<usize, usize>,
    dims: usize,
}

impl Vector<'_> {
    /// The choices in dimension order, each with its dimension's index.
    pub fn choices(&self) -> impl Iterator<Item = (usize, usize)> + '_ {
        (0..self.dims).filter_map(|dim| self.choices.get(&dim).map(|&choice| (dim, choice)))
    }
}

/// The private state, locked as long as it is looked at.
pub struct Probe<'a>(parking_lot::MutexGuard<'a, State>);

impl DESampler {
    /// Looks at the private state.
    pub fn probe(&self) -> Probe<'_> {
        Probe(self.state.lock())
    }

    /// Another sampler with the same private state, field by field.
    pub fn copy(&self) -> Self {
        let s = self.state.lock();
        Self {
            state: Mutex::new(State {
                rng: s.rng.clone(),
                user_population_size: s.user_population_size,
                mutation_factor: s.mutation_factor,
                crossover_rate: s.crossover_rate,
                strategy: s.strategy,
                phase: match s.phase {
                    Phase::Discovery => Phase::Discovery,
                    Phase::Active => Phase::Active,
                },
                dimensions: s.dimensions.clone(),
                discovery_trial_id: s.discovery_trial_id,
                population: s.population.clone(),
                population_categorical: s.population_categorical.clone(),
                population_values: s.population_values.clone(),
                best_idx: s.best_idx,
                initialized: s.initialized,
                population_size: s.population_size,
                candidates: s.candidates.clone(),
                trial_progress: s.trial_progress.clone(),
                assigned_count: s.assigned_count,
                generation_trial_ids: s.generation_trial_ids.clone(),
            }),
        }
    }
}

impl DESampler {
    /// A sampler in a state that was read from a file.
    pub fn of(plain: crate::reader::Plain) -> Self {
        let choices = |row: &crate::reader::Row| row.choices.iter().copied().collect();
        let size = plain.size.unwrap_or(0);
        let dimension = |d: &Distribution| DimensionInfo {
            distribution: d.clone(),
            is_continuous: !matches!(d, Distribution::Categorical(_)),
            bounds: internal_bounds(d),
        };
        let candidate = |(i, row): (usize, &crate::reader::Row)| Candidate {
            x: row.entries.clone(),
            categorical_values: choices(row),
            target_idx: if i < size { i } else { 0 },
        };
        let progress = |(candidate_idx, &(trial, next_dim)): (usize, &(u64, usize))| {
            (trial, TrialProgress { candidate_idx, next_dim })
        };
        Self {
            state: Mutex::new(State {
                rng: fastrand::Rng::with_seed(plain.word),
                user_population_size: plain.setup.size.map(|size| size as usize),
                mutation_factor: plain.setup.f,
                crossover_rate: plain.setup.cr,
                strategy: plain.setup.strategy,
                phase: if plain.size.is_some() { Phase::Active } else { Phase::Discovery },
                dimensions: plain.dims.iter().map(dimension).collect(),
                discovery_trial_id: plain.first,
                population: plain.parents.iter().map(|row| row.entries.clone()).collect(),
                population_categorical: plain.parents.iter().map(choices).collect(),
                initialized: !plain.values.is_empty(),
                population_values: plain.values,
                best_idx: plain.best,
                population_size: size,
                candidates: plain.candidates.iter().enumerate().map(candidate).collect(),
                trial_progress: plain.trials.iter().enumerate().map(progress).collect(),
                assigned_count: plain.trials.len(),
                generation_trial_ids: plain.trials.iter().map(|&(trial, _)| trial).collect(),
            }),
        }
    }
}

impl Probe<'_> {
    /// F, CR, the strategy and the size that is set.
    pub fn set_up(&self) -> (f64, f64, DEStrategy, Option<usize>) {
        let s = &*self.0;
        (s.mutation_factor, s.crossover_rate, s.strategy, s.user_population_size)
    }

    /// Whether discovery has ended.
    pub fn active(&self) -> bool {
        matches!(self.0.phase, Phase::Active)
    }

    /// The first trial's number.
    pub fn first(&self) -> Option<u64> {
        self.0.discovery_trial_id
    }

    /// N, 0 before discovery ends.
    pub fn size(&self) -> usize {
        self.0.population_size
    }

    /// D.
    pub fn dims(&self) -> usize {
        self.0.dimensions.len()
    }

    /// The stored distribution of a dimension.
    pub fn distribution(&self, dim: usize) -> &Distribution {
        &self.0.dimensions[dim].distribution
    }

    /// The continuous dimensions before this one.
    pub fn entry_of(&self, dim: usize) -> usize {
        self.0.dimensions[..dim].iter().filter(|d| d.is_continuous).count()
    }

    /// The bounds of each entry.
    pub fn bounds(&self) -> Vec<(f64, f64)> {
        self.0.dimensions.iter().filter_map(|d| d.bounds).collect()
    }

    /// The best slot.
    pub fn best(&self) -> usize {
        self.0.best_idx
    }

    /// The generator's word.
    pub fn word(&self) -> u64 {
        self.0.rng.word()
    }

    /// The generator's draws since the set-up.
    pub fn draws(&self) -> u64 {
        self.0.rng.draws()
    }

    /// The parents' values, none before the first closing.
    pub fn values(&self) -> &[f64] {
        &self.0.population_values
    }

    /// A slot's parent.
    pub fn parent(&self, slot: usize) -> Vector<'_> {
        Vector {
            entries: &self.0.population[slot],
            choices: &self.0.population_categorical[slot],
            dims: self.dims(),
        }
    }

    /// Every entry of the parents, then of the candidates.
    pub fn entries(&self) -> impl Iterator<Item = f64> + '_ {
        let candidates = self.0.candidates.iter().map(|c| &c.x);
        self.0.population.iter().chain(candidates).flatten().copied()
    }

    /// How many candidates the open generation has, extras included.
    pub fn candidates(&self) -> usize {
        self.0.candidates.len()
    }

    /// A candidate of the open generation.
    pub fn candidate(&self, place: usize) -> Vector<'_> {
        let c = &self.0.candidates[place];
        Vector {
            entries: &c.x,
            choices: &c.categorical_values,
            dims: self.dims(),
        }
    }

    /// The open generation's trials in order.
    pub fn trials(&self) -> &[u64] {
        &self.0.generation_trial_ids
    }

    /// Where an open trial stands: its candidate and its next place.
    pub fn progress(&self, trial: u64) -> Option<(usize, usize)> {
        let p = self.0.trial_progress.get(&trial)?;
        Some((p.candidate_idx, p.next_dim))
    }

    /// What the printed state leaves out follows from what it shows: the i-th trial has candidate i, a slot's
    /// candidate competes for that slot, and counts and lengths agree. How large entries are: `crate::entries`.
    pub fn assert_hidden_part(&self) {
        let s = &*self.0;
        let n_continuous = s.dimensions.iter().filter(|d| d.is_continuous).count();
        let row = |x: &[f64], c: &HashMap<usize, usize>| {
            assert_eq!(x.len(), n_continuous);
            assert_eq!(c.len(), s.dimensions.len() - n_continuous);
            for (&dim, &choice) in c {
                assert!(
                    matches!(&s.dimensions[dim].distribution, Distribution::Categorical(d) if choice < d.n_choices)
                );
            }
        };
        assert_eq!(s.assigned_count, s.generation_trial_ids.len());
        assert_eq!(s.trial_progress.len(), s.generation_trial_ids.len());
        for (i, trial) in s.generation_trial_ids.iter().enumerate() {
            assert_eq!(s.trial_progress[trial].candidate_idx, i);
        }
        let active = matches!(s.phase, Phase::Active);
        let expected = if active {
            s.population_size.max(s.generation_trial_ids.len())
        } else {
            0
        };
        assert_eq!(s.candidates.len(), expected);
        for (i, c) in s.candidates.iter().enumerate() {
            assert_eq!(c.target_idx, if i < s.population_size { i } else { 0 });
            row(&c.x, &c.categorical_values);
        }
        let parents = if s.initialized { s.population_size } else { 0 };
        assert_eq!(s.population.len(), parents);
        assert_eq!(s.population_categorical.len(), parents);
        assert_eq!(s.population_values.len(), parents);
        for (x, c) in s.population.iter().zip(&s.population_categorical) {
            row(x, c);
        }
        assert!(s.population_values.iter().all(|v| !v.is_nan()));
    }
}
