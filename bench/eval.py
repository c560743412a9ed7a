#!/usr/bin/env python3
"""Makes the same random design as BLIF and as Verilog, with vectors for both.

usage: eval.py FOLDER [COVERS [VECTORS [INPUTS [OUTPUTS]]]]

FOLDER gets d.blif and d.vec for `teramac eval`, and d.v and d.mem for `iverilog`, whose
program prints the same rows. The design has covers of four inputs each and a latch for every
tenth cover; the numbers are those of a fixed seed.
"""
import random
import sys
from pathlib import Path


def main():
    folder = Path(sys.argv[1])
    covers, vectors, inputs, outputs = (
        [int(n) for n in sys.argv[2:]] + [10000, 100000, 200, 100][len(sys.argv) - 2:]
    )
    draw = random.Random(1)
    names = [f"i{k}" for k in range(inputs)]
    latches = covers // 10
    sources = names + [f"q{k}" for k in range(latches)]
    blif = [".model d", ".inputs " + " ".join(names)]
    outs = [f"n{covers - 1 - k}" for k in range(outputs)]
    blif.append(".outputs " + " ".join(outs))
    verilog = []
    for k in range(covers):
        ins = [draw.choice(sources) for _ in range(4)]
        rows = sorted({draw.randrange(16) for _ in range(5)})
        blif.append(f".names {' '.join(ins)} n{k}")
        blif += [format(r, "04b") + " 1" for r in rows]
        table = sum(1 << r for r in rows)
        verilog.append(f"  assign n{k} = T{k}[{{{', '.join(ins)}}}];")
        verilog.insert(0, f"  wire n{k}; wire [15:0] T{k} = 16'h{table:04x};")
        sources.append(f"n{k}")
    for k in range(latches):
        blif.append(f".latch n{k * 10} q{k} re clk 0")
    blif.append(".end")
    (folder / "d.blif").write_text("\n".join(blif) + "\n")

    texts = ["".join(draw.choice("01") for _ in range(inputs)) for _ in range(vectors)]
    (folder / "d.vec").write_text("\n".join(texts) + "\n")
    (folder / "d.mem").write_text("\n".join(texts) + "\n")

    regs = "\n".join(f"  reg q{k} = 0;" for k in range(latches))
    edges = "\n".join(f"    q{k} <= n{k * 10};" for k in range(latches))
    declared = [line for line in verilog if line.startswith("  wire")]
    assigned = [line for line in verilog if line.startswith("  assign")]
    (folder / "d.v").write_text(f"""module d;
  reg [{inputs - 1}:0] v;
  reg [{inputs - 1}:0] mem [0:{vectors - 1}];
  reg clk = 0;
{chr(10).join(f"  wire i{k} = v[{inputs - 1 - k}];" for k in range(inputs))}
{regs}
{chr(10).join(reversed(declared))}
{chr(10).join(assigned)}
  always @(posedge clk) begin
{edges}
  end
  integer k;
  initial begin
    $readmemb("d.mem", mem);
    $display("outputs");
    for (k = 0; k < {vectors}; k = k + 1) begin
      v = mem[k]; #1;
      $display("%b", {{{', '.join(outs)}}});
      clk = 1; #1; clk = 0; #1;
    end
    $finish;
  end
endmodule
""")


main()
