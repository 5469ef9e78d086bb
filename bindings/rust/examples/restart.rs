//! A campaign that is killed between its calls, and in the midst of them, and goes on. A child process runs the gateway's
//! campaign and saves after each trial; this process kills it at arbitrary moments and starts it again. At the end the
//! sampler is the one of a campaign that was never killed.
//!
//!     restart               the table of a campaign that is killed, and on the error output how often it was
//!     restart --unbroken    the same table of one that is not
//!
//! In its folder a campaign has two files. `history` has the results, one behind the other. `state` has the number of
//! results that it goes with, and the saved sampler; it is written under another name and then renamed, so that it is
//! whole whenever the process dies. What the history holds beyond that number is lost with the kill: these trials are
//! run again, with the settings that the restored sampler gives them.

use std::error::Error;
use std::fs::{self, File, OpenOptions};
use std::io::{self, ErrorKind, Write as _};
use std::path::{Path, PathBuf};
use std::process::{Command, ExitCode};
use std::thread::sleep;
use std::time::Duration;

use emkhurtov::{CompletedTrial, DEStrategy, Sampler};

mod disk;

use disk::{Settings, dimensions, measure};

// The gateway example's campaign.
const SLOTS: u64 = 12;
const TRIALS: u64 = 2 + 12 * SLOTS;
/// A trial takes its time; this is a short one.
const TRIAL: Duration = Duration::from_millis(3);
/// How many trials the child runs before it is killed, at least.
const KILLS: [u64; 10] = [0, 1, 7, 12, 0, 3, 20, 2, 13, 5];

type Outcome<T> = Result<T, Box<dyn Error>>;

/// A campaign in its folder.
struct Campaign {
    folder: PathBuf,
    sampler: Sampler,
    history: Vec<CompletedTrial>,
    results: File,
}

/// How many bytes a result has in the file `history`: number and value, since every trial here is complete. Where trials
/// can be killed, keep the state too.
const RESULT: usize = 16;

fn first_number(bytes: &[u8]) -> Option<u64> {
    bytes.first_chunk().map(|eight| u64::from_le_bytes(*eight))
}

impl Campaign {
    /// Goes on from the folder's files, or starts where there are none.
    fn open(folder: &Path) -> Outcome<Campaign> {
        let (sampler, told) = match fs::read(folder.join("state")) {
            Ok(state) => {
                let told = first_number(&state).ok_or("the file `state` is too short")?;
                (Sampler::restore(&state[8..])?, told as usize)
            }
            Err(e) if e.kind() == ErrorKind::NotFound => (Self::fresh()?, 0),
            Err(e) => return Err(e.into()),
        };
        let path = folder.join("history");
        let results = OpenOptions::new().create(true).append(true).open(&path)?;
        let bytes = fs::read(path)?;
        let known = bytes.get(..told * RESULT).ok_or("results are missing")?;
        // Later results are none of this sampler's.
        results.set_len(known.len() as u64)?;
        let history = known.chunks(RESULT).map(read_result).collect::<Option<_>>();
        Ok(Campaign {
            folder: folder.to_owned(),
            sampler,
            history: history.ok_or("a result is cut")?,
            results,
        })
    }

    fn fresh() -> Outcome<Sampler> {
        let builder = Sampler::builder().population_size(SLOTS).seed(2026);
        let builder = builder.mutation_factor(0.7).strategy(DEStrategy::CurrentToBest1);
        Ok(builder.build()?)
    }

    /// The next trial: asked for, measured, told and saved.
    fn trial(&mut self) -> Outcome<()> {
        let trial = self.history.len() as u64;
        let mut settings = Vec::new();
        for distribution in &dimensions() {
            settings.push(self.sampler.sample(distribution, trial, &self.history)?.setting);
        }
        sleep(TRIAL);
        let value = measure(Settings::of(&settings).ok_or("a setting is of another kind")?);
        self.history.push(CompletedTrial::new(trial, value));
        self.results.write_all(&trial.to_le_bytes())?;
        self.results.write_all(&value.to_bits().to_le_bytes())?;
        // On the disk before the state that counts on it.
        self.results.sync_data()?;
        self.save()?;
        Ok(())
    }

    fn save(&self) -> io::Result<()> {
        let (new, state) = (self.folder.join("state.new"), self.folder.join("state"));
        let saved = self.sampler.save().map_err(io::Error::other)?;
        let mut file = File::create(&new)?;
        file.write_all(&(self.history.len() as u64).to_le_bytes())?;
        file.write_all(&saved)?;
        file.sync_all()?;
        fs::rename(new, state)
    }

    /// What the campaign came to: the slots, and the whole saved state as a sum.
    fn table(&self) -> Outcome<String> {
        let look = self.sampler.look()?.ok_or("no generation has closed")?;
        let mut table = String::from("slot    quota  flush  depth  scheduler     p99 ms\n");
        for (slot, value) in look.values.iter().enumerate() {
            let settings = self.sampler.slot_settings(slot)?.unwrap_or_default();
            let s = Settings::of(&settings).ok_or("a slot has a setting for each dimension")?;
            let mark = if slot == look.best { " *" } else { "" };
            table += &format!(
                "{slot:>4} {:>8.1} {:>6} {:>6} {:>10} {value:>10.3}{mark}\n",
                s.quota, s.flush, s.depth, s.scheduler
            );
        }
        let least = self.history.iter().fold(f64::INFINITY, |least, t| least.min(t.value));
        let state = self.sampler.save()?;
        table += &format!(
            "\ntrials: {}; least: {least:.3} ms; generations closed: {}; since the least value last became smaller: {}\n",
            self.history.len(),
            look.closed,
            look.idle
        );
        table += &format!("the saved state: {} bytes, FNV-1a {:016x}\n", state.len(), fnv(&state));
        Ok(table)
    }
}

fn read_result(bytes: &[u8]) -> Option<CompletedTrial> {
    let (number, value) = bytes.split_at_checked(8)?;
    let value = f64::from_bits(first_number(value)?);
    Some(CompletedTrial::new(first_number(number)?, value))
}

/// A sum over bytes, in which a change of one shows.
fn fnv(bytes: &[u8]) -> u64 {
    let step = |sum: u64, byte: &u8| (sum ^ u64::from(*byte)).wrapping_mul(0x0000_0100_0000_01b3);
    bytes.iter().fold(0xcbf2_9ce4_8422_2325, step)
}

/// The child: the rest of the campaign.
fn go_on(folder: &Path) -> Outcome<()> {
    let mut campaign = Campaign::open(folder)?;
    while (campaign.history.len() as u64) < TRIALS {
        campaign.trial()?;
    }
    Ok(())
}

/// How many trials are told in the state that is saved now.
fn saved_trials(folder: &Path) -> u64 {
    let state = fs::read(folder.join("state")).unwrap_or_default();
    first_number(&state).unwrap_or(0)
}

/// Starts the child and kills it once it has run so many trials; whether it was still running then.
fn killed_after(folder: &Path, trials: u64, wait: Duration) -> Outcome<bool> {
    let mut child = Command::new(std::env::current_exe()?)
        .arg("--go-on")
        .arg(folder)
        .spawn()?;
    let from = saved_trials(folder);
    while child.try_wait()?.is_none() && saved_trials(folder) < from + trials {
        sleep(Duration::from_micros(200));
    }
    sleep(wait);
    let running = child.try_wait()?.is_none();
    child.kill()?;
    child.wait()?;
    Ok(running)
}

/// The campaign under all kills, and then to its end.
fn campaign(folder: &Path, kills: &[u64]) -> Outcome<String> {
    let mut times = 0;
    for (i, trials) in (0..).zip(kills) {
        // Some moment of the trial after these, or of its saving.
        times += u64::from(killed_after(folder, *trials, Duration::from_micros(i * 457))?);
    }
    if !kills.is_empty() {
        eprintln!("restart: killed {times} times in the midst of the campaign");
    }
    if times < kills.len() as u64 / 2 {
        return Err("the campaign ended before it could be killed".into());
    }
    let status = Command::new(std::env::current_exe()?)
        .arg("--go-on")
        .arg(folder)
        .status()?;
    if !status.success() {
        return Err(format!("the child ended with {status}").into());
    }
    Campaign::open(folder)?.table()
}

fn shown(kills: &[u64]) -> Outcome<()> {
    let folder = std::env::temp_dir().join(format!("emkhurtov-restart-{}", std::process::id()));
    fs::create_dir(&folder)?;
    let table = campaign(&folder, kills);
    fs::remove_dir_all(&folder)?;
    io::stdout().write_all(table?.as_bytes())?;
    Ok(())
}

fn main() -> ExitCode {
    let arguments: Vec<String> = std::env::args().skip(1).collect();
    let words: Vec<&str> = arguments.iter().map(String::as_str).collect();
    let outcome = match words[..] {
        [] => shown(&KILLS),
        ["--unbroken"] => shown(&[]),
        ["--go-on", folder] => go_on(Path::new(folder)),
        _ => Err("the only argument is --unbroken".into()),
    };
    match outcome {
        Ok(()) => ExitCode::SUCCESS,
        Err(why) => {
            eprintln!("restart: {why}");
            ExitCode::FAILURE
        }
    }
}
