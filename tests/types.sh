#!/usr/bin/env bash
# Wire numbers, codes and clause numbers are never accepted in each other's place. What is held to that, in code without its contracts:
# - no function takes one of the three types, or a term, and answers another, but in crate `literals` `in_frame`, which answers a term, and
#   `number`, which answers the clause number that a term is; inside, each is made by its own methods alone;
# - outside `literals` none is made but the code 0 and a code of a list that is read; no number is taken out of one or put into one, no term
#   made of a clause number or taken apart, no number of a list read but as a code, none put into a list: but in the statements `allowed`;
# - no parameter and no field that is called a code or a wire is a plain number, in an exported function either;
# - a list of codes bears one of the names `lists`, so that its numbers are seen;
# - `index()` and `wire_index()` are taken in two crates alone, where the number stays a place in a table: no function answers it, nothing makes
#   a u32 of it; a wire is moved on by `.offset(` with the counts that are in use; and a variable of a pair is made where no statement is allowed;
# - none of the types has another name.
# So no number goes from one type into another, by way of a local or not. Then each of some wrong functions is refused by these rules.
set -u
cd "$(dirname "$0")/.." || exit 2
# A file with a statement of it, each under its reason. One that stands nowhere is a failure: the list is no longer than it must be.
allowed='
# a literal becomes a number of a clause, or a call answers it
crates/clause_writer/src/lib.rt let x = a.0
crates/clause_writer/src/lib.rt Term::True => 0, Term::False => 0, Term::Number(l) => put_lit(out, l),
crates/call_position/src/lib.rt Term::True => 1, Term::False => -1, Term::Number(l) => l.0,
crates/call_position/src/lib.rt number: 0, place: 0, literal: number_of(term),
# wires are numbered from a count of them, and the variable of a read bit is looked up among signs
crates/netlist/src/lib.rt Wire(wire_count(net))
crates/netlist/src/lib.rt Wire(1 + net.inputs)
crates/replay_frame/src/lib.rt let read = netlist::first_read_wire(net).0
crates/replay_frame/src/lib.rt let read = clause_variables::frame_base(net, 0) + netlist::first_read_wire(net).0
crates/replay_frame/src/lib.rt let read = netlist::first_read_wire(net).0 + (port_number - 1) * net.n
# a wire and a code become terms of a step, which have a numbering of their own, and a term a number of a clause; the reset of a latch is looked at
crates/invariant_terms/src/lib.rt term(b, 1, wire.0 as u64)
crates/invariant_terms/src/lib.rt let x = code.0 as u64
crates/invariant_writer/src/lib.rt out[0] = invariant_terms::number_of(a)
crates/invariant_writer/src/lib.rt out[1] = invariant_terms::number_of(b)
crates/invariant_writer/src/lib.rt out[2] = invariant_terms::number_of(c)
crates/invariant_writer/src/lib.rt out[3] = invariant_terms::number_of(d)
crates/invariant_start/src/lib.rt return (latches[2 * (j as usize) + 1] == 1) == value
# what a sheet has is stored
crates/sheet_steps/src/lib.rt next.address[at].0 = first
crates/sheet_steps/src/lib.rt next.write_data[at].0 = first
crates/sheet_steps/src/lib.rt next.we.0 = first
crates/sheet_steps/src/lib.rt next.re.0 = second
crates/sheet_steps/src/lib.rt next.p.0 = third
crates/sheet_steps/src/lib.rt next.address2[at].0 = first
crates/sheet_steps/src/lib.rt next.re2.0 = first
crates/sheet_steps/src/lib.rt netlist::put_numbers(latches, l as usize, first, second)
crates/sheet_steps/src/lib.rt netlist::put_numbers(gates, g as usize, first, second)
# a literal of a text of AIGER becomes the code of the wire that a table has for it, and is stored
crates/aiger_codes/src/lib.rt return Wire(w)
crates/aiger_codes/src/lib.rt Wire(601)
crates/aiger_codes/src/lib.rt Code(2 * wire.0 + literal % 2)
crates/aiger_codes/src/lib.rt netlist::put_numbers(list, x as usize, left.0, right.0)
# what a list of records has is stored, and delivered
crates/netlist/src/lib.rt list[2 * index] = first
crates/netlist/src/lib.rt list[2 * index + 1] = second
crates/call_lists/src/unpack.rt let gate = gates[g]
crates/call_lists/src/unpack.rt let latch = latches[l]
crates/call_lists/src/unpack.rt netlist::put_numbers(codes, g, gate.left.0, gate.right.0)
crates/call_lists/src/unpack.rt netlist::put_numbers(codes, l, latch.next.0, latch.reset)
crates/call_lists/src/deliver.rt next: Code(codes[at]), reset: codes[at + 1],
crates/call_lists/src/deliver.rt list[l] = latch_at(codes, l)
crates/call_lists/src/deliver.rt list[g] = gate_at(codes, g)
# what a sheet has is printed
crates/sheet_writer/src/lib.rt let next = latches[at]
crates/sheet_writer/src/lib.rt let reset = latches[at + 1]
crates/sheet_writer/src/lib.rt let left = gates[at]
crates/sheet_writer/src/lib.rt let right = gates[at + 1]
crates/sheet_writer/src/lib.rt let code = net.address[at].0
crates/sheet_writer/src/lib.rt let code = net.write_data[at].0
crates/sheet_writer/src/lib.rt let code = net.address2[at].0
crates/sheet_writer/src/lib.rt kind: Kind::SecondEnable, first: net.re2.0, second: 0, third: 0, empty: 0,
crates/sheet_writer/src/lib.rt kind: Kind::Control, first: net.we.0, second: net.re.0, third: net.p.0, empty: 0,
# the codes of a binary file have numbers of their own, made and compared in one crate, and their differences are printed
crates/aiger_ordered/src/lib.rt let w = wire.0
crates/aiger_ordered/src/lib.rt return Wire(w + order.reads)
crates/aiger_ordered/src/lib.rt return Wire(w - order.latches)
crates/aiger_ordered/src/lib.rt let x = code.0
crates/aiger_ordered/src/lib.rt Code(2 * file_variable(order, Wire(x / 2)).0 + x % 2)
crates/aiger_writer/src/lib.rt if left.0 < right.0
crates/aiger_writer/src/lib.rt let own = Wire(1 + order.inputs + order.latches + order.reads + g)
crates/aiger_binary/src/lib.rt put_number(out, code.0, LINE_FEED)
crates/aiger_binary/src/lib.rt let first = put_short(out, 2 * own.0 - larger.0)
crates/aiger_binary/src/lib.rt first + put_short(&mut out[first..], larger.0 - smaller.0)
# a sheet for one port: the second RE is compared with code 0, and codes behind the read bits that go are lowered in their lists
crates/sheet_one_port/src/lib.rt code.0 == 0
crates/sheet_one_port/src/lib.rt Code(code.0 - 2 * (net.second_port * net.n))
crates/sheet_one_port/src/lib.rt codes[i] = one_code(net, Code(codes[i])).0
# the second number of a latch is its reset, no code
crates/aiger_export/src/lib.rt if latches[at] == 1
crates/netlist/src/lib.rt latch_fault(last, Code(latches[at]), latches[at + 1])
crates/netlist_scan/src/lib.rt any |= netlist::latch_fault(last, Code(latches[2 * l]), latches[2 * l + 1])
crates/group_latches/src/lib.rt let reset = latches[(2 * l + 1) as usize]
crates/replay_run/src/lib.rt state[l] = latches[2 * l + 1] == 1'
lists='latches|gates|codes|latch_codes|gate_codes|list'
# Where a wire's or a code's place in a table is taken.
tables='crates/circuit_values/src/lib.rt crates/netlist_tests/src/lib.rt'
# By how much a wire is moved on: one latch, read bit or gate, one more, all latches, all read bits, those of the first port.
offsets='l|read + t|q * net.n + t|g|1|net.latches|read_count(net)|net.n'

# One check for each place that a rule looks at: a signature, a statement, a list, a table's place, a wire moved on, a name given anew.
apart() { # files
  awk -v allowed="$allowed" -v lists="$lists" -v tables=" $tables " -v offsets="|$offsets|" -v whole="$whole" '
    function verdict(right, what) { if (right) passed++; else { failed++; print file ": " what } }
    function names(text, type) { return (" " text " ") ~ ("[^A-Za-z0-9_]" type "[^A-Za-z0-9_]") }
    # the type of the `impl` block that ends the text read so far
    function owner(before,   at) {
      at = ""
      while (match(before, /impl [A-Za-z]+ /)) { at = substr(before, RSTART + 5, RLENGTH - 6); before = substr(before, RSTART + RLENGTH) }
      return at
    }
    function signatures(   rest, done, head, name, answer, t, u) {
      rest = code; done = ""
      while (match(rest, /fn [a-z_0-9]+\([^)]*\)( -> [^{]*)?/)) {
        head = substr(rest, RSTART, RLENGTH); done = done substr(rest, 1, RSTART); rest = substr(rest, RSTART + RLENGTH)
        name = head; sub(/^fn /, "", name); sub(/\(.*/, "", name)
        answer = ""; if (match(head, / -> /)) { answer = substr(head, RSTART); head = substr(head, 1, RSTART) }
        if (names(head, "self")) head = head " " owner(done)
        done = done head answer
        for (t in types) for (u in types) if (t != u && names(head, t) && names(answer, u))
          verdict(inside && (name == "in_frame" && u == "Term" || name == "number" && t == "Term" && u == "Lit"), "fn " name " takes " t " and answers " u)
        passed++
      }
    }
    # inside `literals` alone: which methods make one
    function constructors(   rest, done, type) {
      rest = code; done = ""
      while (match(rest, /[^A-Za-z0-9_](Wire|Code|Lit)\(/)) {
        done = done substr(rest, 1, RSTART); type = substr(rest, RSTART + 1, RLENGTH - 2); rest = substr(rest, RSTART + RLENGTH)
        if (done !~ /struct $/) verdict(owner(done) == type, type "(" substr(rest, 1, 20) ".. in the methods of " owner(done))
      }
    }
    function statements(   list, n, k, line, rest) {
      n = split(code, list, /[;{}]/)
      for (k = 1; k <= n; k++) {
        line = list[k]; gsub(/^ +| +$/, "", line)
        rest = " " line " "
        gsub(/ fn (put_numbers|number_of)\(/, " ", rest)
        gsub(/[^A-Za-z0-9_]Code\((0|(latches|gates|codes)\[[^][]*\])\)/, " ", rest)
        if (rest ~ /\.0[^0-9]/ || rest ~ /[^A-Za-z0-9_](Wire|Code|Lit|Number|put_numbers|number_of)\(/ ||
            rest ~ ("[^A-Za-z0-9_.](" lists ")\\[")) {
          verdict((file " " line) in allow, line)
          if ((file " " line) in allow) allow[file " " line] = "met"
        }
      }
    }
    # a parameter or a local that is a list of codes bears a name by which its numbers are seen
    function named(   rest, found, name) {
      rest = code
      while (match(rest, "[a-z_0-9]+(: (&|mut )*(netlist::)?(UnpackedList|\\[u32; 1200\\])| = (\\[0; 1200\\]|([a-z_]+::)?no_codes\\(\\)|(&|mut )*(" lists ") ?;))")) {
        found = substr(rest, RSTART, RLENGTH); rest = substr(rest, RSTART + RLENGTH)
        name = found; sub(/[: ].*/, "", name)
        verdict(name ~ ("^(" lists ")$") && found !~ /;$/, "a list of codes by another name: " found)
      }
    }
    function places(   rest, argument) {
      if (code ~ /index\(\)/) {
        verdict(index(tables, " " file " "), "the place of a wire or of a code in a table")
        verdict(code !~ / as [iu](8|16|32|64|128)[^0-9]/ && code !~ /-> [^{]*usize/ && code !~ /&mut [^,)]*usize/, "a place in a table does not stay one")
      }
      rest = code
      while (match(rest, /\.offset\(([^()]|\([^()]*\))*\)/)) {
        argument = substr(rest, RSTART + 8, RLENGTH - 9); rest = substr(rest, RSTART + RLENGTH)
        verdict(index(offsets, "|" argument "|"), ".offset(" argument ")")
      }
      if (code ~ /in_pair\(/) verdict(!(file in open), "a variable of a pair, where numbers are taken out")
    }
    function finish() {
      if (file == "") return
      gsub(/ +/, " ", code); gsub(/\( /, "(", code); gsub(/,? \)/, ")", code)
      inside = file ~ /^crates\/literals\//
      signatures()
      if (inside) constructors()
      else { statements(); named(); places() }
      verdict(code !~ /[^A-Za-z0-9_](code|wire|next|left|right|we|re|re2|p): u32[^0-9]/, "a code or a wire as a plain number")
      verdict(code !~ /(Wire|Code|Lit) (as |\{ ?0)/ && code !~ /= (literals::)?(Wire|Code|Lit) ?;/, "one of the types by another name")
    }
    BEGIN {
      types["Wire"]; types["Code"]; types["Lit"]; types["Term"]
      for (n = split(allowed, entry, "\n"); n > 0; n--) if (entry[n] !~ /^(#|$)/) { allow[entry[n]]; split(entry[n], part, " "); open[part[1]] }
    }
    FNR == 1 { finish(); file = FILENAME; code = " "; contract = 0; depth = 0 }
    /^ *ghost / { next }
    {
      sub(/\/\/.*/, "")
      # a clause of a contract is dropped, from its word to the brace that closes it
      if (!contract && /^ *(requires|ensures) [a-z_0-9 ]*\{/) contract = 1
      while (contract && match($0, /[{}]/)) {
        depth += substr($0, RSTART, 1) == "{" ? 1 : -1
        $0 = substr($0, RSTART + 1)
        if (depth == 0) contract = 0
      }
      if (!contract) code = code " " $0 " "
    }
    END {
      finish()
      if (whole) for (e in allow) { file = "allowed"; verdict(allow[e] == "met", "stands nowhere: " e) }
      printf "%d passed, %d failed\n", passed, failed
      exit failed > 0 || passed == 0
    }' "$@"
}

. tests/check.sh
whole=1
apart $(find crates -path 'crates/*/out' -prune -o -name '*.rt' -print | sort) > "$work/found"
status=$?
sed '$d' "$work/found"
passed=$(sed -n '$s/ passed.*//p' "$work/found")
failed=$(sed -n '$s/.*, \([0-9]*\) failed/\1/p' "$work/found")
if [ "$status" -ne 0 ] && [ "${failed:-0}" -eq 0 ]; then
  echo "FAILED: the rules did not run"
  failed=1
fi

whole=
is_refused() { ! (cd "$work" && apart "$1" > /dev/null); }
refused() { # a function that the rules must refuse, in place of a crate's file
  mkdir -p "$work/${2%/*}"
  echo "$1" > "$work/$2"
  check "not refused: $1" is_refused "$2"
}
while IFS= read -r wrong; do
  [ -z "$wrong" ] || refused "$wrong" crates/group_wires/src/lib.rt
done <<'END'
fn f(code: Code) -> Wire { first().offset(1) }
fn f(net: Netlist) -> Wire { Wire(net.we.0 / 2) }
fn f(net: Netlist) -> Wire { let code = net.we; let x = code.0; Wire(x) }
fn f(net: Netlist) -> Wire { let x = net.we.0 / 2; first_read_wire(net).offset(x) }
fn f(net: Netlist) -> Wire { first_read_wire(net).offset(net.we.wire_index() as u32) }
fn f(w: Wire) -> bool { let x = w.index(); is_above(Code(x as u32)) }
fn f(w: Wire) -> bool { let mut codes = [0; 1]; codes[0] = w.0; is_above(Code(codes[0])) }
fn f(x: u32) -> Code { Code(x) }
pub extern "C" fn f(net: Netlist, code: u32) -> LiteralReply { g(net) }
pub struct Latch { pub next: u32, pub reset: u32 }
pub struct Netlist { pub address2: [Code; 12], pub re2: u32 }
fn f(x: i32) -> Lit { Lit(x) }
fn f(w: Wire) -> u32 { let Wire(x) = w; x }
fn f(t: Term) -> Wire { first().offset(1) }
fn f(w: Wire) -> Term { w.index(); Term::True }
fn f(t: Term) -> bool { match t { Term::Number(_) => true, Term::True => false, Term::False => false } }
fn f(l: Lit) -> bool { let t = Term::Number(l); t.is_true() }
fn f(x: u32) -> Wire { Wire { 0: x } }
fn f(w: Wire) -> bool { let mut codes = [0; 1]; codes[0] = w.index() as u32; is_above(Code(codes[0])) }
fn f(w: Wire, list: &mut UnpackedList) { netlist::put_numbers(list, 0, w.index() as u32, 0) }
fn f(x: u32, list: &mut UnpackedList) { netlist::put_numbers(list, 0, x, 0) }
fn f(net: Netlist, b: u32) -> Term { Term::in_pair(b, net.we.wire_index() as u32) }
fn f(net: Netlist, gates: &UnpackedList) -> Wire { let x = gates[0] / 2; netlist::first_read_wire(net).offset(x) }
fn f(net: Netlist, gates: &UnpackedList) -> Wire { let g = gates[0] / 2; netlist::first_read_wire(net).offset(g) }
fn f(net: Netlist, x: u32) -> Wire { netlist::first_read_wire(net).offset(x / 2) }
fn f(net: Netlist, x: u32) -> Wire { netlist::first_read_wire(net).offset(read_count(net) + x) }
fn f(numbers: &UnpackedList) -> u32 { numbers[0] }
fn f(gates: &UnpackedList) -> u32 { let numbers = gates; numbers[0] }
use literals::Wire as W;
type W = literals::Wire;
END
while IFS= read -r wrong; do
  refused "$wrong" crates/netlist_tests/src/lib.rt
done <<'END'
fn f(w: Wire) -> bool { let x = w.index() as u32; g(x) }
fn f(w: Wire) -> usize { w.index() }
fn f(w: Wire, places: &mut [usize]) { places[0] = w.index(); }
END
refused 'fn f(w: Wire) -> bool { let code = w.index() as u32; g(Code(code)) }' crates/call_position/src/lib.rt
refused 'fn f(code: u32) -> bool { g(Code(code)) }' crates/call_position/src/lib.rt
refused 'fn f(t: Term) -> bool { let x = number_of(t) as u32; g(x) }' crates/call_position/src/lib.rt
refused 'fn f(b: u32, gates: &UnpackedList, at: usize) -> Term { let left = gates[at]; Term::in_pair(b, left) }' crates/sheet_writer/src/lib.rt
refused 'impl Wire { fn of(code: Code) -> Wire { Wire(code.0 / 2) } }' crates/literals/src/lib.rt
refused 'impl Code { fn wire(self) -> Wire { Wire::of(self.0 / 2) } }' crates/literals/src/lib.rt
refused 'impl Lit { fn wire(x: u32) -> u32 { Wire(x).0 } }' crates/literals/src/lib.rt
finish
