"""Runs commands in turn, many times, and prints the least wall time and the least processor time of each."""
import os, shlex, subprocess, sys, time

def once(words):
    start, before = time.perf_counter(), os.times()
    with open("/dev/null", "wb") as null:
        subprocess.run(words, stdout=null, check=True)
    after = os.times()
    spent = after.children_user + after.children_system - before.children_user - before.children_system
    return time.perf_counter() - start, spent

rounds, commands = int(sys.argv[1]), [shlex.split(c) for c in sys.argv[2:]]
least = [(9e9, 9e9)] * len(commands)
for _ in range(rounds):
    for i, words in enumerate(commands):
        wall, spent = once(words)
        least[i] = (min(least[i][0], wall), min(least[i][1], spent))
for command, (wall, spent) in zip(sys.argv[2:], least):
    print(f"{wall:8.4f} s  {spent:6.2f} s  {wall / least[0][0]:7.3f}  {command}")
