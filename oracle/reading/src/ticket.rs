//! Weigh tickets (document 02, R-1): a text whose lines each set a wire to a count of steps.

use crate::{
    allocator::{count_fresh, set_slot},
    questions::{ask, ask_opened, ask_slots, number_of, Asked},
    On, TicketTally, MAX_COUNT, P,
};

/// How many bytes a ticket line has.
pub const TICKET_LINE: usize = 24;

/// Sets the wires of the text's lines in order, up to the first refused one; where the last
/// line is cut short, it is refused when it is reached. Questions 1, 2; then 40, 3, 41, 7, 8
/// line by line. How long the text is isn't asked: it is no word store and no label.
pub fn set_tickets(on: impl Into<On>, slots: &mut [u32], text: &[u8]) -> TicketTally {
    let mut accepted = 0;
    let pairs = text.chunks(TICKET_LINE).flat_map(ticket);
    let vars = pairs.map(|(var, _)| var).collect();
    let (asked, fresh) = count_fresh(slots, &vars, |slots| {
        set_lines(&on.into(), slots, text, &mut accepted)
    });
    TicketTally {
        number: number_of(asked),
        accepted,
        fresh,
    }
}

fn set_lines(on: &On, slots: &mut [u32], text: &[u8], accepted: &mut usize) -> Asked {
    ask_slots(on, slots)?;
    ask_opened(on)?;
    for line in text.chunks(TICKET_LINE) {
        let (var, value) = ticket(line)?;
        set_slot(on.rel, slots, var, value)?;
        *accepted += 1;
    }
    Ok(())
}

/// The wire that a line sets, and the step count that it is set to. Questions 40, 3, 41.
pub fn ticket(line: &[u8]) -> Result<(u32, u32), u32> {
    let (var, grams) = columns(line).ok_or(40u32)?;
    ask(3, var < u64::from(MAX_COUNT))?;
    let steps = steps(grams);
    ask(41, steps < u64::from(P))?;
    Ok((var as u32, steps as u32))
}

/// The numbers in a line's two columns; none where they, written out again, are not that line.
/// Ten and twelve digits are within u64.
fn columns(line: &[u8]) -> Option<(u64, u64)> {
    let text = std::str::from_utf8(line).ok()?;
    let (var, grams) = text.split_at_checked(10)?;
    let var: u64 = var.trim().parse().ok()?;
    let grams: u64 = grams.trim().parse().ok()?;
    (format!("{var:>10} {grams:>12}\n") == text).then_some((var, grams))
}

/// Grams in steps of 50 g, halves up.
fn steps(grams: u64) -> u64 {
    let (whole, rest) = (grams / 50, grams % 50);
    if rest < 25 {
        whole
    } else {
        whole + 1
    }
}
