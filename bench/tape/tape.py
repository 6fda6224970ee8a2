import random
random.seed(1)
with open("tape.csv", "w") as tape:
    for _ in range(1000000):
        tape.write(",".join("%.6f" % random.uniform(-1, 1) for _ in range(4)) + "\n")
