//! The requests of document 02 that definitions came with, where the comment, the section and the head of the page say something else of them.

use crate::pages::Definition;

/// Pages, the request (0 is document 01), and the definitions that came with it.
const CAME_WITH: [(&str, u32, &[&str]); 4] = [
    (
        "crates/depths/specs/Depths.antt",
        0,
        &[
            "four",
            "number_from",
            "signed",
            "unsigned",
            "depth_from",
            "depth_of",
            "number_bytes",
            "depth_bytes",
            "deepest",
            "in_range",
        ],
    ),
    ("crates/round_rule/specs/Rules.antt", 1, &["plain_old", "plain_mean"]),
    (
        "crates/part_state/specs/State.antt",
        1,
        &[
            "point_ends_word",
            "point_cells_word",
            "points_from",
            "point_count",
            "point_at",
            "point_end",
            "point_cells",
            "point_cell_at",
        ],
    ),
    ("crates/part_calls/specs/Calls.antt", 1, &["points_number", "points_answer", "points_out"]),
];

/// Sets the request of each listed definition of a page, and of those of its lines that have no request of their own.
pub fn correct(page: &str, definitions: &mut [Definition]) {
    for (_, request, names) in CAME_WITH.iter().filter(|(listed, ..)| *listed == page) {
        for definition in definitions.iter_mut().filter(|definition| names.contains(&definition.name.as_str())) {
            for line in definition.lines.iter_mut().filter(|line| line.request == definition.request) {
                line.request = *request;
            }
            definition.request = *request;
        }
    }
}

/// The listed definitions by page.
pub fn listed() -> impl Iterator<Item = (&'static str, &'static str)> {
    CAME_WITH.iter().flat_map(|(page, _, names)| names.iter().map(|name| (*page, *name)))
}

#[cfg(test)]
mod tests {
    use super::correct;
    use crate::pages::read;

    #[test]
    fn a_listed_definition_and_its_lines_have_the_request() {
        let text = "-- head (F-4)\n\n-- as (F-9, x) says\npub record plain_old : Type 0 where\n  pub a : ℕ\n  -- b (F-7)\n  pub b : ℕ\n\nother : ℕ\nother = 0\n";
        let mut page = read(text);
        correct("crates/round_rule/specs/Rules.antt", &mut page.definitions);
        let told = |at: usize| {
            (page.definitions[at].request, page.definitions[at].lines.iter().map(|line| line.request).collect())
        };
        assert_eq!([told(0), told(1)], [(1, vec![1, 1, 1, 7, 7]), (4, vec![4, 4])]);
        correct("crates/other/specs/Lists.antt", &mut page.definitions);
        assert_eq!(page.definitions[0].request, 1);
    }
}
