# A sheet (docs/FORMAT.md) as Verilog with its memory as an array, for tools that know no sheets.
function bit(code) { return code < 2 ? "1'b" (code + 0) : (code % 2 ? "~" : "") "w[" int(code / 2) "]" }
function word(list, count,   t, text) {
  for (t = count; t >= 1; t--) text = text (t < count ? ", " : "") bit(list[t])
  return "{" text "}"
}
function port(number, re, address) {
  printf "  wire re%d = %s;\n  wire [%d:0] a%d = %s;\n", number, bit(re), m - 1, number, address
  printf "  reg [%d:0] held%d;\n  wire [%d:0] r%d = re%d ? words[a%d] : held%d;\n", n - 1, number, n - 1, number, number, number, number
  printf "  always @(posedge clock) held%d <= r%d;\n", number, number
}
$1 == "N" { inputs = $2; latches = $3; gates = $4 }
$1 == "M" || $1 == "T" { ports = $1 == "M" ? 1 : 2; m = $2; n = $3; start = $4 }
$1 == "L" { next_code[++l] = $2; reset[l] = $3 }
$1 == "G" { left[++g] = $2; right[g] = $3 }
$1 == "A" { address[++a] = $2 }
$1 == "B" { second[++b] = $2 }
$1 == "D" { data[++d] = $2 }
$1 == "R" { re2 = $2 }
$1 == "C" { we = $2; re = $3; p = $4 }
END {
  reads = inputs + latches + 1
  printf "module around (input clock, input [%d:0] in);\n", (inputs > 0 ? inputs - 1 : 0)
  printf "  wire [%d:0] w;\n  reg [%d:0] words [0:%d];\n", inputs + latches + ports * n + gates, n - 1, 2 ^ m - 1
  if (start != "") printf "  integer i;\n  initial for (i = 0; i < %d; i = i + 1) words[i] = %d;\n", 2 ^ m, start
  for (t = 1; t <= inputs; t++) printf "  assign w[%d] = in[%d];\n", t, t - 1
  for (t = 1; t <= l; t++) {
    printf "  reg q%d = %d;\n  assign w[%d] = q%d;\n", t, reset[t], inputs + t, t
    printf "  always @(posedge clock) q%d <= %s;\n", t, bit(next_code[t])
  }
  port(1, re, word(address, m))
  if (ports == 2) port(2, re2, word(second, m))
  for (t = 0; t < ports * n; t++) printf "  assign w[%d] = r%d[%d];\n", reads + t, int(t / n) + 1, t % n
  for (t = 1; t <= g; t++) printf "  assign w[%d] = %s & %s;\n", reads + ports * n + t - 1, bit(left[t]), bit(right[t])
  printf "  always @(posedge clock) if (%s) words[a1] <= %s;\n  always @* assert (%s);\nendmodule\n", bit(we), word(data, n), bit(p)
}
