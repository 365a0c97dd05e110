#!/usr/bin/env python3
"""documents.py N: a cluster file of N documents of some 600 bytes on four shards, all of which move by one shard."""
import json
import sys


def rows(shards):
    ends = ["MinKey", [250], [500], [750], "MaxKey"]
    return [{"min": low, "max": high, "shard": shard} for low, high, shard in zip(ends, ends[1:], shards)]


def document(number, state):
    return {"_id": number, "x": state % 1000, "y": state // 1000 % 1000, "note": "a parcel on its way " * 27}


def main():
    count, state, documents = int(sys.argv[1]), 1, []
    for number in range(count):
        state = (state * 1103515245 + 12345) % 2147483648
        documents.append(document(number, state // 8))
    json.dump({"version": 1, "shards": ["s0", "s1", "s2", "s3"], "oldKey": ["x"], "newKey": ["y"],
               "oldChunks": rows(["s0", "s1", "s2", "s3"]), "newChunks": rows(["s1", "s2", "s3", "s0"]),
               "documents": documents}, sys.stdout)


main()
