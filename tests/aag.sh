# For the other scripts: from Verilog whose memory is cut out as ports (docs/VERILOG.md) to a text and a binary file, NAME.aag and NAME.aig in the folder
# for files. write_aiger places an input that is wired straight to an output behind the others; a buffer of two inverters between them keeps its place and
# becomes no gate. Nothing that is undefined is decided.
to_aag() { # name, top module, arguments of read_verilog ..
  local name=$1 top=$2
  shift 2
  cat > "$work/buffer.v" << 'verilog'
module buffer (input A, output Y);
  wire inverted;
  \$_NOT_ to (.A(A), .Y(inverted));
  \$_NOT_ from (.A(inverted), .Y(Y));
endmodule
verilog
  yosys -Q -T -q -p "read_verilog $*; prep -flatten -top $top; async2sync; dffunmap; techmap; opt -keepdc -nodffe -nosdff; aigmap
    opt -keepdc -nodffe -nosdff; opt_clean -purge; insbuf -buf buffer A Y o:*; techmap -map $work/buffer.v
    write_aiger -ascii -symbols $work/$name.aag; write_aiger -symbols $work/$name.aig"
}
