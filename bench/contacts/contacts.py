"""Compares the contacts of a model's start with MuJoCo's, for pairs of geoms with one contact on both sides.
usage: contacts.py CONTACTS MODEL..   (CONTACTS: main.rattle, built; first: make -C tools/mjcf2mj, which wants libmujoco)
MuJoCo gets a model by tools/mj2mjcf, and tools/mjcf2mj/probe prints its contacts."""
import json, os, subprocess, sys, tempfile

TOOLS = os.path.join(os.path.dirname(os.path.abspath(__file__)), "..", "..", "tools")
TO_MJCF = [sys.executable, os.path.join(TOOLS, "mj2mjcf", "mj2mjcf.py"), "--explicit"]
PROBE = os.path.join(TOOLS, "mjcf2mj", "probe")

def ours(program, model):
    with tempfile.TemporaryDirectory() as folder:
        text = open(model, "rb").read()
        open(os.path.join(folder, "model.toml"), "wb").write(text)
        out = subprocess.run([os.path.abspath(program)], cwd=folder, capture_output=True, text=True).stdout
    found = {}
    for line in out.split("\n"):
        if line:
            a, b, *numbers = [int(word) for word in line.split()]
            found.setdefault((a - 1, b - 1), []).append([x / 2**32 for x in numbers])
    return found

def theirs(model):
    with tempfile.TemporaryDirectory() as folder:
        xml = os.path.join(folder, "m.xml")
        made = subprocess.run([*TO_MJCF, model], capture_output=True, text=True, check=True)
        open(xml, "w").write(made.stdout)
        out = subprocess.run([PROBE, xml, "0"], capture_output=True, text=True, check=True)
    found = {}
    for c in json.loads(out.stdout)["contacts"]:
        found.setdefault((c["geom1"], c["geom2"]), []).append([c["dist"], *c["pos"], *c["normal"]])
    return found

program, *models = sys.argv[1:]
for model in models:
    a, b = ours(program, model), theirs(model)
    same = [pair for pair in a if len(a[pair]) == 1 and len(b.get(pair, [])) == 1]
    parts = [(0, 1), (1, 4), (4, 7)]
    worst = [max((abs(x - y) for pair in same for x, y in zip(a[pair][0][i:j], b[pair][0][i:j])), default=0) for i, j in parts]
    print(f"{os.path.basename(model)}: contacts {sum(map(len, a.values()))} and {sum(map(len, b.values()))}; {len(same)} pairs with one: dist {worst[0]:.1e}, point {worst[1]:.1e}, normal {worst[2]:.1e}")
