#include "help.hpp"

namespace leafgraph::tool {
namespace {

const char *const general =
    R"(Checks graphs and rules, finds matches, rewrites, tidies and imports graphs, and
reads them back from text.

usage: leafgraph COMMAND FILE... [VERTEX] [OPTION...]

  check GRAPH         say whether a file is a sound graph block
  check-rule RULE     say whether a file is a sound rule block
  match GRAPH RULE    find the least match of a rule in a graph
  read-elsewhere GRAPH RULE VERTEX
                      say whether anything else reads what a vertex matches
  rewrite GRAPH RULE  rewrite a graph where the rule matches
  sweep GRAPH         empty the slots of what no output needs
  squeeze GRAPH       move what is in a graph to its lowest slots
  import GRAPH        make a version 2 block of a version 1 block
  read TEXT           make a graph block of a graph's listing
  show FILE           print a graph or a rule as text
  dot GRAPH [RULE]    draw a graph, and where a rule matches it
  help [COMMAND]      print this, or more about a command

  -h, --help     the same as help; after a COMMAND, more about that one
  -V, --version  print the version

A file '-' is standard input. Options stand before or after the files; '--' ends
them.

Standard output has only what is asked for: that a block is sound, a match, an
answer, a text, a drawing or a block. Whatever else there is to say goes to
standard error: why something is refused, and what was done to a graph.

The exit status is
  0  if all is done; for 'rewrite --all' that is: no match is left; and for
     'read-elsewhere': there is an answer, yes or no
  1  if a block, a TEXT, a VERTEX or a rewriting is refused, or the bound of
     --max is reached
  2  for bad usage, a file that can't be read or written, or a dot that fails
  3  if there is no match
)";

const char *const check = R"(usage: leafgraph check GRAPH

Prints that GRAPH is a sound graph block, and how much is in it. If it is not
sound, the reply's number, the place and what is wrong there are said on standard
error, and the exit status is 1. Of several faults it is the first.
)";

const char *const check_rule = R"(usage: leafgraph check-rule RULE

Prints that RULE is a sound rule block, and how much is in it. If it is not sound,
the reply's number, the place and what is wrong there are said on standard error,
and the exit status is 1. Of several faults it is the first.
)";

const char *const match = R"(usage: leafgraph match GRAPH RULE [--start S]

Finds the least match of RULE in GRAPH, and prints which slot each source vertex
of the rule matches. If there is no match, the exit status is 3.

  --start S  only matches whose first output is slot S or a later one (0)
)";

const char *const read_elsewhere =
    R"(usage: leafgraph read-elsewhere GRAPH RULE VERTEX [--start S]

Finds the least match of RULE in GRAPH, and prints whether anything else reads the
slot that source vertex VERTEX of the rule matches, and what does. VERTEX counts
from 0, as in 'match', and is no rule input (no wildcard and no variable).

  yes  it is a graph output, or something reads it that no source vertex matches,
       or that a rule input matches: what a rule input matches stays
  no   nothing reads it, or only slots that source vertices match which are no
       rule inputs

Both have the exit status 0. If there is no match, the exit status is 3.

  --start S  only matches whose first output is slot S or a later one (0)
)";

const char *const rewrite =
    R"(usage: leafgraph rewrite GRAPH RULE [--start S] [--all [--max N]]
                         [--sweep] [--squeeze [--moves FILE]]
                         [-o OUT | [--numbers] [--counts]]

Rewrites GRAPH where RULE has its least match, and prints the new graph as text.
What was done is said on standard error. The file GRAPH is not changed, unless
OUT is the same file; the file RULE can't be OUT.

  --start S  only matches whose first output is slot S or a later one (0)
  --all      rewrite again and again until no match is left
  --max N    with --all: refuse if there is still a match after N times (4096)
  --sweep    sweep the graph after the last rewriting: see 'help sweep'
  --squeeze  squeeze it after that: see 'help squeeze', for --moves too
  -o OUT     write the new block to OUT, '-' for standard output, and no text
  --numbers  print the listing, which 'read' takes: operators by number
  --counts   print behind each slot how many inputs and outputs name it

FILE and then OUT are replaced, each whole or not at all. If anything is refused,
neither is written; nor if there is no match, for which the exit status is 3: then
nothing is swept or squeezed, either. With --all, no match is what is wanted: the
graph is swept and squeezed as asked, FILE and OUT are written, and the exit
status is 0. The old slots of --moves are those that the last rewriting has left.
)";

const char *const sweep = R"(usage: leafgraph sweep GRAPH [-o OUT | [--numbers] [--counts]]

Empties the slot of every vertex of GRAPH from which no output is reached, and
prints the new graph as text. Variables stay, read or not, and so does the number
of slots. How many slots became Empty is said on standard error. The file GRAPH is
not changed, unless OUT is the same file.

  -o OUT     write the new block to OUT, '-' for standard output, and no text
  --numbers  print the listing, which 'read' takes: operators by number
  --counts   print behind each slot how many inputs and outputs name it

OUT is replaced whole or not at all, also where nothing had to go. If GRAPH is
refused, it is not written, and the exit status is 1.
)";

const char *const squeeze =
    R"(usage: leafgraph squeeze GRAPH [--moves FILE] [-o OUT | [--numbers] [--counts]]

Moves the vertices of GRAPH to its lowest slots, in their old order, and prints
the new graph as text. Inputs and outputs follow, and the number of slots stays.
How many slots moved, and how many Variables are among them, is said on standard
error. The file GRAPH is not changed, unless OUT is the same file.

  --moves FILE  write the list of moves to FILE, '-' for standard output: for
                each old slot its new number, or 65535 if it was Empty, in two
                bytes, the lower one first; not GRAPH or where the graph goes
  -o OUT        write the new block to OUT, '-' for standard output, and no text
  --numbers     print the listing, which 'read' takes: operators by number
  --counts      print behind each slot how many inputs and outputs name it

Nothing is swept: what nobody reads moves, too. FILE and then OUT are replaced,
each whole or not at all, also where nothing had to move. If GRAPH is refused,
neither is written, and the exit status is 1.
)";

const char *const import_graph =
    R"(usage: leafgraph import GRAPH [-o OUT | [--numbers] [--counts]]

Makes a version 2 block of the version 1 block GRAPH, and prints it as text. The
graph is the same: the block gets its new version, and for each slot the count of
the inputs and outputs that name it. That it was done is said on standard error.
The file GRAPH is not changed, unless OUT is the same file.

  -o OUT     write the new block to OUT, '-' for standard output, and no text
  --numbers  print the listing, which 'read' takes: operators by number
  --counts   print behind each slot how many inputs and outputs name it

OUT is replaced whole or not at all. If GRAPH is refused, it is not written, and
the exit status is 1. A version 2 block is refused here, and a version 1 block by
every other command.
)";

const char *const read_text = R"(usage: leafgraph read TEXT [-o OUT | [--numbers] [--counts]]

Reads a graph's listing, and prints the graph as text. The listing is what 'show
--numbers' prints of a graph, and exactly that is read: operators by number, no
comment, no other space. How much was read is said on standard error.

  -o OUT     write the graph's block, with counts, to OUT, '-' for standard output,
             and no text; not TEXT
  --numbers  print the listing, which 'read' takes: operators by number
  --counts   print behind each slot how many inputs and outputs name it

OUT is replaced whole or not at all. If TEXT is refused, it is not written, and the
exit status is 1. Where TEXT is no listing, the first place is told at which none can
go on, what stands there and what could; where its graph is not sound, what is wrong
with that.
)";

const char *const show = R"(usage: leafgraph show FILE [--numbers] [--counts]

Prints a sound graph or rule as text. Inputs stand in [], attributes in {}.

  --numbers  print operators by number and not by name; of a graph this is its
             listing, which 'read' takes
  --counts   print behind each slot how many inputs and outputs name it, so that
             it is no listing; not of a rule, which has no such counts
)";

const char *const dot = R"(usage: leafgraph dot GRAPH [RULE [--start S]] [--svg] [-o OUT]

Prints GRAPH as a drawing in the language of Graphviz. With RULE, the vertices of
its least match are coloured; if there is no match, nothing is drawn and the exit
status is 3.

  --start S  only matches whose first output is slot S or a later one (0)
  --svg      have Graphviz' dot, if it is installed, make an SVG file of it
  -o OUT     write to OUT, replaced whole or not at all; not GRAPH or RULE
)";

} // namespace

std::string general_help() {
    return general;
}

std::string command_help(Command command) {
    switch (command) {
    case Command::check:
        return check;
    case Command::check_rule:
        return check_rule;
    case Command::match:
        return match;
    case Command::read_elsewhere:
        return read_elsewhere;
    case Command::rewrite:
        return rewrite;
    case Command::sweep:
        return sweep;
    case Command::squeeze:
        return squeeze;
    case Command::import_graph:
        return import_graph;
    case Command::read_text:
        return read_text;
    case Command::show:
        return show;
    case Command::dot:
        return dot;
    }
    return general;
}

} // namespace leafgraph::tool
