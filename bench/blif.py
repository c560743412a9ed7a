"""Prints a BLIF design: python3 blif.py KIND [COUNT].

wide     65,535 signals and about 16 MB of covers with many inputs and rows
chain    a chain of covers, each of which reads the one before
models   a chain of models, each of which uses the next and adds nothing
deep     a chain of models, each of which adds a signal and uses the next
tree     models that use the next one twice: 65,534 replaced lines
empty    a model of COUNT covers without rows, used COUNT times
given    a model with a line of COUNT pairs, used COUNT times
uses     600 instances of a model that uses one of 600 ports 100 times
outputs  COUNT words of .outputs
"""
import sys

kind = sys.argv[1]
count = int(sys.argv[2]) if len(sys.argv) > 2 else 0
out = sys.stdout.write


def wide():
    """32 inputs and 65,503 covers of 12 inputs, with 10 rows each."""
    inputs = ["i%d" % k for k in range(32)]
    out(".model wide\n.inputs %s\n.outputs n65502\n" % " ".join(inputs))
    names = list(inputs)
    rows = "".join("-" * k + "1" + "0" * (11 - k) + " 1\n" for k in range(10))
    for k in range(65503):
        ins = [names[(k * 7 + j * j) % len(names)] for j in range(12)]
        ins[0] = names[-1]
        out(".names %s n%d\n%s" % (" ".join(ins), k, rows))
        names.append("n%d" % k)
    out(".end\n")


def chain():
    most = count or 65534
    out(".model chain\n.inputs a\n.outputs s%d\n.names a s1\n0 1\n" % most)
    for k in range(2, most + 1):
        out(".names s%d s%d\n0 1\n" % (k - 1, k))
    out(".end\n")


def models(own):
    most = count or 65535
    out(".model top\n.inputs a\n.outputs y\n.subckt m1 a=a y=y\n.end\n")
    for k in range(1, most):
        out(".model m%d\n.inputs a\n.outputs y\n" % k)
        if own:
            out(".names a t\n0 1\n.subckt m%d a=t y=y\n.end\n" % (k + 1))
        else:
            out(".subckt m%d a=a y=y\n.end\n" % (k + 1))
    out(".model m%d\n.inputs a\n.outputs y\n.names a y\n0 1\n.end\n" % most)


def uses():
    pairs = " ".join("p%d=i" % k for k in range(599))
    out(".model top\n.inputs x\n.outputs y\n" + ".subckt mid i=x\n" * 600 + ".names x y\n1 1\n.end\n")
    out(".model mid\n.inputs i\n")
    for k in range(100):
        out(".subckt leaf %s o=z%d\n" % (pairs, k))
    ports = " ".join("p%d" % k for k in range(599))
    out(".end\n.model leaf\n.inputs %s\n.outputs o\n.names p0 o\n1 1\n.end\n" % ports)


def tree():
    most = count or 15
    out(".model top\n.inputs a\n.outputs y\n.subckt m1 a=a y=t\n.subckt m1 a=t y=y\n.end\n")
    for k in range(1, most):
        out(".model m%d\n.inputs a\n.outputs y\n.subckt m%d a=a y=t\n.subckt m%d a=t y=y\n.end\n" % (k, k + 1, k + 1))
    out(".model m%d\n.inputs a\n.outputs y\n.names a y\n0 1\n.end\n" % most)


def empty():
    out(".model top\n.inputs a\n.outputs a\n")
    out(".subckt m\n" * count)
    out(".end\n.model m\n" + ".names x\n" * count + ".end\n")


def given():
    out(".model top\n.inputs a\n.outputs a\n")
    out(".subckt m a=a\n" * count)
    ports = " ".join("c%d" % k for k in range(count))
    pairs = " ".join("c%d=a" % k for k in range(count))
    out(".end\n.model m\n.inputs a\n.subckt n %s\n.end\n.model n\n.clock %s\n.end\n" % (pairs, ports))


def outputs():
    out(".model top\n.inputs a\n.outputs%s\n.end\n" % (" a" * count))


if kind == "wide":
    wide()
elif kind == "chain":
    chain()
elif kind == "models":
    models(False)
elif kind == "deep":
    models(True)
elif kind == "tree":
    tree()
elif kind == "empty":
    empty()
elif kind == "given":
    given()
elif kind == "uses":
    uses()
elif kind == "outputs":
    outputs()
else:
    sys.exit(__doc__)
