import csv
with open("tape.csv", newline="") as file:
    print(sum(float(field) for row in csv.reader(file) for field in row))
