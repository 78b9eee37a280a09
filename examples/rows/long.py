#!/usr/bin/env python3
"""Prints the rows whose inputs are too long to be stored, in the format of the other files here."""
import json


def row(words, text, status, wanted):
    print(json.dumps([words, text, status, wanted]))


def lines(form, numbers):
    return "".join(form.format(n) + "\n" for n in numbers)


def answers(script, replies, words="run f"):
    row(words, script, 0, "client 1\n" + replies)


def note(*text):
    print("\n" + "\n".join(f"# {line}" for line in text))


note("A node has 256 children, and no more.")
answers(lines("put d/{:03} x", range(257)) + "put d/000 y\nget d/000\n",
        lines("ok {}", range(1, 257)) + "many 256\nok 257\nval 257 y\n")
answers(lines("dput d/{:03} x", range(257)) + "dput d/000 y\ndget d/000\n",
        "drafted 0\n" * 256 + "many 0\ndrafted 0\nval 0 y\n")

note("A tree has a billion nodes, and no more: a tree is copied to 64 names, and takes the",
     "place of what was copied, four times; and then it is copied to 58 names.")
copies = lines("copy a b/{:02}", range(64)) + "copy b a\ndel b\n"
answers("put a x\n" + copies * 4 + lines("copy a b/{:02}", range(58)) + "size a\nsize b\n",
        lines("ok {}", range(1, 323)) + "big 322\nnum 322 17043521\nnum 322 971480698\n")

note("Far more records than a private heap has room for are collected again and again. What",
     "is copied of them fits into the shared heap without a cycle.")
draft = lines("dput n{} t", (n % 200 for n in range(1, 5001))) + "publish p\nsize p\n"
for options in ("--minor 4096", "--minor 4096 --cells 65536 --cycles 0"):
    answers(draft, "drafted 0\n" * 5000 + "ok 1\nnum 1 201\n", f"run {options} f")


def totals(commands, versions, claimed):
    """The totals of a run on 64 cells of which none is freed."""
    used = claimed + 3
    return (f"stats\ncommands {commands}\nversions {versions}\nclaimed {claimed}\nfreed 0\n"
            f"used {used}\nfree {64 - used}\ncycles 0\n")


note("Private records are collected by the room that was asked for. The empty draft is one",
     "record, the first put makes five, and each further one four. Records age before an",
     "edit for which fewer than 2,285 are free: in a room for 4,096 before put 454, when",
     "1,814 have been made. Five are left, those of the draft. Before put 906 they and what",
     "was made since are 1,813, and since they have aged, they are collected: the draft then",
     "takes five cells.")
for minor, count, claimed in ((4096, 500, 0), (4096, 905, 0), (4096, 906, 5), (4100, 907, 0),
                              (4100, 908, 5), (8192, 2953, 0), (8192, 2954, 5)):
    answers("dput a x\n" * count, "drafted 0\n" * count + totals(count, 0, claimed),
            f"run --minor {minor} --cells 64 --cycles 0 --stats f")

note("The private records of a batch age too. Its first put makes five beside the one of the",
     "empty draft, and each further one four. Before put 454 there are 1,814 records, and",
     "six are left: the draft's and five of the tree in the making. Before put 906 they and",
     "what was made since are 1,814, and since they have aged, draft and tree are collected,",
     "which takes six cells. The version takes a box and the tree's five cells; behind a",
     "collection the name stands already.")
for count, claimed in ((453, 6), (454, 6), (905, 6), (906, 11)):
    answers('docs 2\nbegin\n' + 'put a "x"\n' * count + "commit\n",
            "ok 1\n" + totals(1, 1, claimed),
            "run --minor 4096 --cells 64 --cycles 0 --stats f")

note("A batch whose 1,000 edits make far more records than there is room for comes out",
     "whole.")
turns = 'put d/{0} "{1}"'
answers('docs 2\ndput k "y"\n' + "".join(turns.format(n, n) + "\n" for n in range(256)) + "begin\n"
        + "".join(turns.format(n % 256, n) + "\n" for n in range(1000)) + "commit\n"
        "get d/0\nget d/231\nget d/232\nsize d\nold 1 d/231\ndget k\n",
        "drafted 0\n" + lines("ok {}", range(1, 258))
        + 'val 257 "768"\nval 257 "999"\nval 257 "744"\nnum 257 257\nval 256 "231"\nval 257 "y"\n')

note("So does one beside a draft of 101 nodes, which its last edit publishes.")
answers("docs 2\n" + lines('dput n{0} "{0}"', range(100)) + "begin\n"
        + "".join(turns.format(n % 256, n) + "\n" for n in range(999)) + "publish p\ncommit\n"
        'size p\nget p/n7\nget d/229\nget d/230\ndget n99\ndput n7 "8"\ndget n7\ndget n6\n'
        "publish p\nget p/n7\nget d/229\n",
        "drafted 0\n" * 100 + 'ok 1\nnum 1 101\nval 1 "7"\nval 1 "997"\nval 1 "998"\nval 1 "99"\n'
        'drafted 1\nval 1 "8"\nval 1 "6"\nok 2\nval 2 "8"\nval 2 "997"\n')

note("A batch has 1,000 edits, and no more; what is at fault with a line itself comes first.")
answers("docs 2\nbegin\n" + 'put a "x"\n' * 1000 + "commit\n", "ok 1\n")
row("run f", "docs 2\nbegin\n" + "del a\n" * 1001 + "commit\n", 2,
    "docheap: file 1: line 1003: LongBatch")
row("run f", "docs 2\nbegin\n" + "del a\n" * 1000 + "del /\n", 2,
    "docheap: file 1: line 1003: BadPath")

note("A quoted text as long as a file is too long.")
row("run f", 'docs 2\nput a "' + "\\t" * 524280 + 'x"', 2, "docheap: file 1: line 2: LongText")

note("A file has 1,048,576 bytes, and no more.")
answers("#" * 1048575 + "\n", "")
row("run f", "#" * 1048575 + "\n#", 6, "docheap: file 1: too large")

note("A run has 100,000 commands, and no more. A batch counts as one.")
batch = 'docs 2\nbegin\nput a "1"\nput b "2"\ndel a\ncommit\n'
answers(batch + "get a\n" * 99999, "ok 1\n" + "none 1\n" * 99999)
row("run f", batch + "get a\n" * 100000, 6, "docheap: too large")
row("run f", "get a\n" * 100001, 6, "docheap: too large")

note("A run has 64 files, a dump and a mailbox 63.")
row("run" + " f" * 64, "", 0, lines("client {}", range(1, 65)))
row("run" + " f" * 65, "", 6, "docheap: too large")
row("dump" + " f" * 63, "", 0, 'docs-dump 1 0\n. ""\nend 1\n')
row("dump" + " f" * 64, "", 6, "docheap: too large")
row("mail --cells 64" + " f" * 63, "", 0, lines("sender {}", range(1, 64)) + "received\n")
row("mail --cells 64" + " f" * 64, "", 6, "docheap: too large")


def wide(letter, children, below):
    """The lines of so many children of the root, and of so many nodes below each of these."""
    return "".join(f'{letter}{child:03} "t"\n' + lines(f'{letter}{child:03}/n{{:03}} "t"',
                                                       range(below)) for child in range(children))


def dump(children, below):
    nodes = 1 + children * (1 + below)
    return 'docs-dump 1 7\n. ""\n' + wide("c", children, below) + f"end {nodes}\n"


note("A node of a dump has 256 children, and no more.")
row("load f", dump(256, 0), 0, "version 7\nnodes 257\nheight 1\n")
row("load f", dump(257, 0), 2, "docheap: file 1: line 259: Many")
row("load f", dump(1, 257), 2, "docheap: file 1: line 260: Many")

note("A dump has 10,000 nodes, and no more: 1 + 99 * 101.")
row("load f", dump(99, 100), 0, "version 7\nnodes 10000\nheight 2\n")
row("load f", dump(100, 100), 2, "docheap: file 1: line 10002: Big")

note("Where the 10,001st node is a 257th child, that counts: 1 + 38 * 256 + 14 nodes stand",
     "before its parent.")
row("load f", 'docs-dump 1 7\n. ""\n' + wide("c", 38, 255) + wide("d", 14, 0) + wide("e", 1, 257),
    2, "docheap: file 1: line 10002: Many")
