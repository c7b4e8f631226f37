#!/usr/bin/env python3
"""Growth of each job with the text's length (scale_n) and, for the compile jobs, with the pattern's size
(scale_k), per peer, with the exponent between successive doublings and a verdict.

    scaling.py [--jobs ..] [--peers ..] [--project "CMD"] [--timeout S] [--out FILE]
    scaling.py --table FILE.json

Verdicts: `p=1.02` is the slope of log(time) against log(size), least squares over the sizes that answered (those
from 1000 on where there are such);
`x1.99/step` an exponential: the factor in time for each one more unit of n; `ERR@n` an error (a limit) from
that n on; `T/O@n` no answer within the time-out from that n on.
"""
import argparse
import json
import math
import os

import bench
import patterns
import trees


def verdict(points):
    """points: list of (n, ns or None, status)."""
    good = [(n, t) for n, t, st in points if t is not None and st in ("match", "none", "compiled")]
    bad = [(n, st) for n, t, st in points if not (t is not None and st in ("match", "none", "compiled"))]
    tail = ""
    if bad:
        n, st = bad[0]
        tail = " T/O@%d" % n if st == "timeout" else " %s@%d" % (st.split(":")[1] if ":" in st else st, n)
    small = [(n, t) for n, t in good if n <= 64]
    out = ""
    # exponential: compare the last two small, evenly spaced sizes with the power law that they would need
    if len(small) >= 3:
        (n0, t0), (n1, t1) = small[-2], small[-1]
        if t1 > 3000 and t1 / t0 > 1.15 ** (n1 - n0) and t1 / t0 > (n1 / n0) ** 4:
            out = "x%.2f/step" % ((t1 / t0) ** (1.0 / (n1 - n0)))
    if not out and len(good) >= 2:
        pts = [g for g in good if g[0] >= 1000] if any(n >= 1000 for n, _ in good) else good
        if len(pts) < 2:
            pts = good[-2:]
        xs = [math.log(n) for n, _ in pts]
        ys = [math.log(max(t, 0.1)) for _, t in pts]
        mx, my = sum(xs) / len(xs), sum(ys) / len(ys)
        out = "p=%.2f" % (sum((x - mx) * (y - my) for x, y in zip(xs, ys)) / sum((x - mx) ** 2 for x in xs))
    return (out or "-") + tail


def main():
    ap = argparse.ArgumentParser()
    for o, d in (("--jobs", ""), ("--peers", ""), ("--project", ""), ("--out", bench.B + "/results/scaling.json"),
                 ("--table", "")):
        ap.add_argument(o, default=d)
    ap.add_argument("--timeout", type=float, default=3)
    ap.add_argument("--cpu", type=int)
    args = ap.parse_args()
    if not args.table:
        bench.CPU = args.cpu
        doc = json.load(open(bench.HERE + "/jobs.json"))
        jobs = [j for j in doc["jobs"] if not args.jobs or j["name"] in args.jobs.split(",")]
        peers = args.peers.split(",") if args.peers else [p for p in bench.PEERS]
        if args.project:
            peers.append("project")
        data = {"machine": bench.machine(), "peers": peers, "text": {}, "pattern": {}}
        for job in jobs:
            for kind, sizes in (("text", job["scale_n"]), ("pattern", job["scale_k"])):
                if not sizes:
                    continue
                row = data[kind][job["name"]] = {}
                for peer in peers:
                    if peer == "project":
                        d, argv, env, spans = "tree", args.project.split(), {}, False
                    else:
                        d, argv, env, spans = bench.PEERS[peer]
                    if kind == "pattern" and spans:
                        continue
                    pts = []
                    for n in sizes:
                        tree = job["tree"] if kind == "text" else patterns.TREEGENS[job["treegen"]](n)
                        if d == "tree":
                            pat = tree
                        elif kind == "text":
                            pat = job["patterns"][d]
                        else:
                            pat = trees.translate(tree, d)
                        if pat is None:
                            break
                        pf = bench.pat_file(pat, "s-%s-%s" % (job["name"], peer))
                        tf = bench.text_file(job["text"]["gen"], n if kind == "text" else job["text"]["n"])
                        mode = bench.mode_of(job, spans) if kind == "text" else "compile"
                        m = bench.measure(argv, env, mode, pf, tf, job["pos"], args.timeout, 3e6, 9)
                        pts.append((n, m.get("ns"), m["status"]))
                        if m["status"] not in ("match", "none", "compiled"):
                            # an exponential engine fails on all larger sizes too; go on to see a limit only once
                            break
                    if pts:
                        row[peer] = {"points": pts, "verdict": verdict(pts)}
                print(kind, job["name"], {p: r["verdict"] for p, r in row.items()}, flush=True)
        os.makedirs(os.path.dirname(args.out), exist_ok=True)
        json.dump(data, open(args.out, "w"), indent=1)
    else:
        data = json.load(open(args.table))
    for kind in ("text", "pattern"):
        peers = [p for p in data["peers"] if any(p in r for r in data[kind].values())]
        print("\n### growth with the %s\n| job | %s |\n|---|%s" % (kind, " | ".join(peers), "---|" * len(peers)))
        for name, r in data[kind].items():
            print("| %s | %s |" % (name, " | ".join(r[p]["verdict"] if p in r else "lacks" for p in peers)))


if __name__ == "__main__":
    main()
