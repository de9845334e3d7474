#!/usr/bin/env python3
"""Writes JSON lines of one shape until they have so many bytes.

usage: generate.py SHAPE BYTES > FILE

SHAPE  numbers   objects of a few whole numbers, the path $.a in most of them
       records   small records: a number, a time, a nested user, a decimal, a list of texts
       kilo      records whose values have about 1 KB: texts, numbers, decimals, nested objects, lists
       long      one line, an array of such objects
       wide      one object with so many bytes of members
       items     one line, an array of numbers of two digits
       small     one line, an array of arrays of one value
       deep      one line, an array of arrays that are nested 63 deep
"""
import random
import sys


def numbers(draw):
    names = ["a", "bc", "count", "d", "size"]
    chosen = [n for n in names if draw.random() < 0.8] or ["z"]
    return "{" + ",".join(f'"{n}":{draw.randrange(-9999, 999999)}' for n in chosen) + "}"


def records(draw, i=[0]):
    i[0] += 1
    n = i[0]
    return (f'{{"id":{1000 + n},"ts":"2024-05-01T10:{n % 60:02}:00Z",'
            f'"user":{{"name":"u{n % 3}","age":{20 + n % 50}}},'
            f'"amount":{draw.randrange(0, 99999)}.25,"tags":["a","b"]}}')


def kilo(draw):
    texts = ",".join(f'"{n}":"{n} of device {draw.randrange(1000)}"' for n in ["site", "room", "rack", "owner", "model", "note"])
    counts = ",".join(f'"c{k:02}":{draw.randrange(-99, 99999)}' for k in range(24))
    places = ",".join(f'{{"x":{draw.randrange(9999)}.5,"y":{draw.randrange(9999)}.25,"at":"port {k}"}}' for k in range(12))
    tags = ",".join(f'"tag{k}"' for k in range(12))
    values = ",".join(str(draw.randrange(-999, 999)) for _ in range(40))
    return (f'{{"id":{draw.randrange(10**9)},"ts":"2024-05-01T10:{draw.randrange(60):02}:00Z",{texts},{counts},'
            f'"places":[{places}],"tags":[{tags}],"values":[{values}],"ok":true,"alarm":null}}')


def main():
    shape, size = sys.argv[1], int(sys.argv[2])
    draw = random.Random(7)
    out = sys.stdout
    done = 0
    if shape == "long":
        out.write('{"a":[')
        done = 8
        first = True
        while done < size - 100:
            text = ("" if first else ",") + numbers(draw)
            first = False
            out.write(text)
            done += len(text)
        out.write("]}\n")
        return
    if shape == "wide":
        out.write("{")
        names = list(range(size // 14))
        draw.shuffle(names)
        out.write(",".join(f'"n{n:06}":{n % 10}' for n in names))
        out.write("}\n")
        return
    if shape == "items":
        out.write("[" + ",".join(str(10 + k % 90) for k in range(size // 3)) + "]\n")
        return
    if shape in ("small", "deep"):
        depth = 1 if shape == "small" else 63
        part = "[" * depth + "0" + "]" * depth
        out.write("[" + ",".join([part] * (size // (len(part) + 1) - 1)) + "]\n")
        return
    make = {"numbers": numbers, "records": records, "kilo": kilo}[shape]
    while done < size:
        text = make(draw) + "\n"
        out.write(text)
        done += len(text)


main()
