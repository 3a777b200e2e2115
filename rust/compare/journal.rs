// The journal against rust/reference: scan and reading's two calls over random and altered bytes, histories of appends, logs, indexes, merges, and trials.
// The lines at the end say how often each kind of answer came.

mod alter;
mod histories;
mod history;
mod indexes;
mod logs;
mod merges;
mod reading;
mod requests;
mod run;
mod trials;
mod words;

use crate::options::Options;
use crate::tally::Totals;

pub fn compare(options: &Options, totals: &mut Totals) {
    if options.runs("reading") {
        reading::compare(options, totals);
    }
    if options.runs("histories") {
        histories::compare(options, totals);
        logs::compare(options, totals);
        indexes::compare(options, totals);
    }
    if options.runs("merges") {
        merges::compare(options, totals);
    }
    if options.runs("trials") {
        trials::compare(options, totals);
    }
}
