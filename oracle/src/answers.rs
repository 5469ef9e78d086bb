//! The answers' words: settings, looks and states.

use crate::campaign::Campaign;
use crate::counts::Counts;
use crate::param::ParamValue;
use crate::sampler::de::{Probe, Vector};
use crate::text;

pub fn setting(answer: &ParamValue, out: &mut Vec<u8>) {
    match answer {
        ParamValue::Float(x) => {
            out.extend_from_slice(b"float ");
            text::double(out, *x);
        }
        ParamValue::Int(k) => {
            out.extend_from_slice(b"int ");
            text::signed(out, *k);
        }
        ParamValue::Categorical(index) => {
            out.extend_from_slice(b"choice ");
            text::whole(out, *index as u64);
        }
    }
}

pub fn look(c: &Campaign, counts: &mut Counts, out: &mut Vec<u8>) {
    let p = c.sampler.probe();
    if p.values().is_empty() {
        counts.looks_early += 1;
        out.extend_from_slice(b"look -\n");
        return;
    }
    counts.looks += 1;
    out.extend_from_slice(b"look");
    for number in [p.best() as u64, u64::from(c.closed), u64::from(c.idle)] {
        out.push(b' ');
        text::whole(out, number);
    }
    for &value in p.values() {
        out.push(b' ');
        text::double(out, value);
    }
    out.push(b'\n');
}

pub fn state(p: &Probe<'_>, out: &mut Vec<u8>) {
    p.assert_hidden_part();
    out.extend_from_slice(if p.active() {
        b"state active "
    } else {
        b"state discovery "
    });
    match p.first() {
        Some(trial) => text::whole(out, trial),
        None => out.push(b'-'),
    }
    for number in [p.size(), p.dims(), p.best()] {
        out.push(b' ');
        text::whole(out, number as u64);
    }
    out.push(b' ');
    text::pattern(out, p.word());
    out.push(b'\n');
    for (slot, &value) in p.values().iter().enumerate() {
        out.extend_from_slice(b"parent ");
        text::double(out, value);
        vector(&p.parent(slot), out);
    }
    for place in 0..p.candidates() {
        out.extend_from_slice(b"candidate");
        vector(&p.candidate(place), out);
    }
    for &trial in p.trials() {
        out.extend_from_slice(b"trial ");
        text::whole(out, trial);
        out.push(b' ');
        // The Rust counts on past the last dimension; the smaller of that and D is compared.
        let next = p.progress(trial).map_or(0, |(_, next)| next.min(p.dims()));
        text::whole(out, next as u64);
        out.push(b'\n');
    }
}

fn vector(v: &Vector<'_>, out: &mut Vec<u8>) {
    for &x in v.entries {
        out.push(b' ');
        text::double(out, x);
    }
    for (dim, choice) in v.choices() {
        out.push(b' ');
        text::whole(out, dim as u64);
        out.push(b':');
        text::whole(out, choice as u64);
    }
    out.push(b'\n');
}
