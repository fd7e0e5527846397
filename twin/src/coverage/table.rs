//! What was met, as a table.

use std::fmt::{self, Display};

use super::{CALLS, Coverage, LONGEST_LIST, NEVER_GIVEN, first_of};

impl Display for Coverage {
    fn fmt(&self, out: &mut fmt::Formatter<'_>) -> fmt::Result {
        write!(out, "{:<12}", "refusal")?;
        CALLS.iter().try_for_each(|(call, _)| write!(out, "{call:>13}"))?;
        writeln!(out)?;
        for refusal in self.refusals() {
            let name = if refusal == 0 { "none".to_string() } else { refusal.to_string() };
            write!(out, "{name:<12}")?;
            for (number, (_, possible)) in CALLS.iter().enumerate() {
                let met = self.answers.get(&(number, refusal)).copied().unwrap_or(0);
                let counted = met > 0 || possible.contains(&refusal) || refusal == NEVER_GIVEN;
                let shown = if counted { met.to_string() } else { "-".to_string() };
                write!(out, "{shown:>13}")?;
            }
            writeln!(out)?;
        }
        let mut list = |name: &str, met: &[u64], from: usize| {
            let shown: Vec<String> =
                met.iter().enumerate().skip(from).map(|(i, count)| format!("{i}: {count}")).collect();
            writeln!(out, "{name}  {}", shown.join("  "))
        };
        list("kinds of linked pairs at refined triangles", &self.kinds, 1)?;
        list("base chains over an even triangle", &self.chains, 0)?;
        list("base chains over the boundary", &self.boundary_chains, 1)?;
        list("flips of a rim split", &self.rim_flips, 0)?;
        list("generations refused with 9", &self.too_old, 19)?;
        list("sides by which chains enter odd triangles", &self.entered, 1)?;
        list("rings in whole steps", &self.rings, 2)?;
        list("rings in limit queries", &self.limit_rings, 2)?;
        list("calls carried out by rule", &self.rules, 1)?;
        list("sides linked to themselves in tables refused with 7", &self.self_linked, 0)?;
        list("boxes carried out by generation", &self.boxes.generations, 0)?;
        list("slots of notes written", &self.notes.slots, 1)?;
        list("splits in reports of refines", &self.reports.splits, 1)?;
        list("flips in reports of refines", &self.reports.flips, 0)?;
        list("vertices of rims read as curves", &self.curves.vertices, 2)?;
        list("27ths over in coordinates of curves", &self.curves.rests, 0)?;
        list("why replays stopped", &self.journals.stops, 1)?;
        list("records replayed at once", &self.journals.records, 0)?;
        for (title, names, met) in self.named() {
            let shown: Vec<String> = names.iter().zip(met).map(|(name, met)| format!("{name}: {met}")).collect();
            writeln!(out, "{title}  {}", shown.join("  "))?;
        }
        let fewest = |met, length| first_of(met, length).into_iter().min().unwrap_or(0);
        let (lengths, places) =
            (fewest(&self.list_lengths, LONGEST_LIST + 1), fewest(&self.failing_places, LONGEST_LIST));
        writeln!(out, "lists of each length up to {LONGEST_LIST}, carried out  at least {lengths}")?;
        writeln!(out, "lists that fail at each of {LONGEST_LIST} places  at least {places}")
    }
}
