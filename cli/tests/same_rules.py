"""Says whether `onnx-gate rules` and the Python module have the same table: same_rules.py RULES MODULE."""
import ast
import sys

tree = ast.parse(open(sys.argv[2]).read())
# read and not imported, since an import needs the shared object
table = next(
    ast.literal_eval(item.value)
    for item in tree.body
    if isinstance(item, ast.Assign) and item.targets[0].id == "RULES"
)
said = {}
for row in open(sys.argv[1]):
    number, name, explanation = row.strip().split(None, 2)
    said[int(number)] = (name, explanation)
print("same" if said == table else f"different: {set(said.items()) ^ set(table.items())}")
