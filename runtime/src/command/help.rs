//! The texts that the command shows of itself.

use crate::refusal::Refusal;
use crate::show::folded;

/// Widest line of an explanation, in cells.
const LINE: usize = 78;

pub(super) const USAGE: &str = "usage: gate cards [--json] [--svg FILE] PLAN...
       gate show [--json] --reader SET PLAN NODE
       gate explain [NUMBER]
       gate help [cards | show | explain | format]
       gate --version
";

pub(super) const GENERAL: &str = "gate: the ranges of a plan, derived by proved code

usage: gate cards [--json] [--svg FILE] PLAN...
       gate show [--json] --reader SET PLAN NODE
       gate explain [NUMBER]
       gate help [cards | show | explain | format]
       gate --version

cards     derive and print every node's range, or say why the plan is refused
show      print one node's range, if the reader may see it
explain   what a refusal's number means, and what can be done about it
help      more on a command; `gate help format` shows how to write a plan

Exit codes: 0 accepted or shown, 1 refused, 2 wrong use or a malformed file.
";

pub(super) const CARDS: &str = "usage: gate cards [--json] [--svg FILE] PLAN...

Reads each plan's text, hands it to the proved calls and prints its card: node,
name, component and operands, type, the range or the categories of each column,
columns, rows, dataset and marks. `-` reads standard input. Both signs are
written; -inf and +inf stand for an end that sets no bound, -overflow and
+overflow for an end that is too far from zero for a float. Texts stand in
quotes, with the escapes of `gate help format`.

A refused plan also says which node was refused, with which number, and what of
its operands caused it. A malformed file is named with line and column.

  --json      one JSON document for all plans
  --svg FILE  also draw the plan into FILE (one plan only)

Several plans are walked in parallel and printed in the order given. Every node
is printed, whoever owns it; `gate show` asks whether a reader may see a node.
Exit codes: 0 all accepted, 1 one refused, 2 wrong use or a malformed file.
";

pub(super) const SHOW: &str = "usage: gate show [--json] --reader SET PLAN NODE

Shows one node of a plan, given by its name or its number, to a reader with a
set of rinks: if all owners of the node lie in the reader's set, or if it has
five owners or more. The owners of a leaf are those that the plan gives it
(`gate help format`), those of a step the owners of all leaves that it stands
on. A node without owners is shown to everybody.

  --reader SET  the reader's rinks, 0 to 63: '{3, 17}', or '{}' for none
  --json        one JSON document

Only the node and what it stands on are walked. What is printed is the node's
own sheet, or a refusal's number and node, with the plan's steps, names and
owners: nothing else of any sheet. So a refusal other than 30 does not say which
values caused it, and a malformed file is only said to be one. `gate cards` says
the rest, to those who may see every leaf.

Exit codes: 0 shown, 1 refused, 2 wrong use, no such name or a malformed file.
";

pub(super) const EXPLAIN: &str = "usage: gate explain [NUMBER]

Says what a refusal's number (1 to 30) means and what can be done about it.
Without a number it lists all of them.
";

pub(super) const FORMAT: &str = "A plan is a text. One line is one node: a leaf, or a step over earlier nodes.
A # begins a comment; a line that ends in a comma goes on in the next.

  # the brine of a rink, in and out
  leaf brine_in  : int, whole [-12, 3], rows 96, dataset 1
  leaf brine_out : int, whole [-9, 5], rows 96, dataset 1
  gap = subtract brine_in brine_out
  far = abs gap

leaf NAME : TYPE, ITEM, ...       TYPE is int, float, bool, str or unknown
  whole [LOW, HIGH]               a range of whole numbers, for all columns
  whole [LOW, HIGH] [LOW, HIGH]   one range for each column
  float [LOW, HIGH]               a range of floats; likewise by column
                                  (.. or -inf, +inf: the end sets no bound)
  whole {1, 2, 3}                 categories: one list for all columns, or one
                                  for each; likewise float {..}, bool {..}
  text {\"north\", \"south\"}         categories of text, 1,024 bytes in all lists;
                                  escapes are \\\" \\\\ \\n \\t, \\xHH for one byte,
                                  \\u{H..} for a character by its number
  range [..], categories {..}     the same, of the kind that TYPE says
  columns N                       default: one for each range or list, else 1
  rows N, dataset N, dimensions N, sample X        default: absent
  stability N                     c-stability, default 1
  aggregator N                    default: none
  groups {7: int 3, 8: bool true, 9: str 12}       default: none
  owners {3, 17}                  rinks, 0 to 63, that own it; default: none,
                                  and `gate show` then shows it to everybody
  node N                          default: the leaf's own number
  releasable, nullable, nonempty, ordered          default: none of them

NAME = COMPONENT LEFT RIGHT       add, subtract, multiply, divide, modulo,
                                  log (data, base), power (data, exponent),
                                  pool (left's rows, and then right's)
NAME = COMPONENT OPERAND          abs, negative

A plan has at most 32 nodes. Leaves are numbered first, from 0, then the steps.
";

pub(super) fn version() -> String {
    format!("gate {}\n", env!("CARGO_PKG_VERSION"))
}

pub(super) fn explanation(refusal: Refusal) -> String {
    format!("{refusal}\n\n{}\n", folded(refusal.explain(), LINE).join("\n"))
}
