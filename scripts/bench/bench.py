#!/usr/bin/env python3
"""Runs every job of jobs.json on every peer, one process at a time, and prints ns per search and ns per
compile. The README of fancy_bench beside it has the protocol of a driver; `build` builds those of the peers.

    bench.py                       all jobs, all peers -> $PEERS_BUILD/results/bench.json and a table
    bench.py --jobs lit-all,email --peers pcre2,onig
    bench.py --project "/path/to/driver"      adds the column `project` (its pattern file holds the TREE)
    bench.py --verify              finds the expected spans by the peers' agreement, into jobs.json
    bench.py --table FILE.json     prints the table of a stored run
Options: --timeout S (10) a process, --target MS (8) a timed loop, --reps N (12) loops of which
the best counts (short loops and many, for the load of other programs), --out FILE, --cpu N (pin), --merge (update
the rows of --out), --keep-min (with --merge: keep the smaller time of the old and the new run).
"""
import argparse
import hashlib
import json
import os
import platform
import subprocess
import sys
import time

import texts

HERE = os.path.dirname(os.path.abspath(__file__))
B = os.environ.get("PEERS_BUILD", os.path.normpath(HERE + "/../../out/peers"))
U64 = 2**64
PEERS = {
    # name: (dialect, argv, environment, spans only)
    "pcre2": ("pcre2", [B + "/bin/pcre2drv"], {}, False),
    "pcre2jit": ("pcre2", [B + "/bin/pcre2drv"], {"PEER_JIT": "1"}, False),
    "onig": ("onig", [B + "/bin/onigdrv"], {}, False),
    "fancy07": ("fancy07", [B + "/bin/fancydrv"], {}, False),
    "fancy07s": ("fancy07", [B + "/bin/fancydrv"], {}, True),
}
# Checksum and spans must agree with these independent engines (fancy07s and pcre2jit count with their twins).
FAMILY = {"pcre2": "pcre2", "pcre2jit": "pcre2", "onig": "onig", "fancy07": "fancy", "fancy07s": "fancy"}


def text_file(gen, n):
    os.makedirs(B + "/texts", exist_ok=True)
    h = hashlib.sha1(open(HERE + "/texts.py", "rb").read()).hexdigest()[:8]
    p = "%s/texts/%s-%d-%s.txt" % (B, gen, n, h)
    if not os.path.exists(p):
        with open(p + ".tmp", "wb") as f:
            f.write(texts.GENS[gen](n).encode())
        os.rename(p + ".tmp", p)
    return p


def pat_file(pattern, tag):
    os.makedirs(B + "/pats", exist_ok=True)
    p = "%s/pats/%s-%s" % (B, tag, hashlib.sha1(pattern.encode()).hexdigest()[:16])
    with open(p, "wb") as f:
        f.write(pattern.encode())
    return p


CPU = None


def call(argv, env, mode, pf, tf, pos, iters, reps, timeout):
    """-> list of (status, start, end, count, sum, ns), or a string for what went wrong."""
    cmd = list(argv) + [mode, pf, tf, str(pos), str(iters), str(reps)]
    if CPU is not None:
        cmd = ["taskset", "-c", str(CPU)] + cmd
    e = dict(os.environ)
    e.update(env)
    try:
        r = subprocess.run(cmd, env=e, stdout=subprocess.PIPE, stderr=subprocess.PIPE, timeout=timeout)
    except subprocess.TimeoutExpired:
        return "timeout"
    rows = []
    for line in r.stdout.decode(errors="replace").splitlines():
        w = line.split("#")[0].split()
        if len(w) != 6:
            return "bad-output: " + line[:80]
        if w[0] == "error:compile":
            return "no-compile: " + line.partition("#")[2].strip()[:120]
        rows.append((w[0], None if w[1] == "-" else int(w[1]), None if w[2] == "-" else int(w[2]), int(w[3]), int(w[4]),
                     int(w[5])))
    if r.returncode or not rows:
        return "crash: status %d %s" % (r.returncode, r.stderr.decode(errors="replace")[-120:].strip())
    return rows


def measure(argv, env, mode, pf, tf, pos, timeout, target_ns, reps):
    """-> dict(ns=.., status=.., first=.., count=.., sum=..): ns is the best of `reps` loops a search or compile."""
    one = call(argv, env, mode, pf, tf, pos, 1, 1, timeout)
    if isinstance(one, str):
        return {"status": one}
    st, s, e, count, total, ns = one[0]
    out = {"status": st, "first": [s, e] if s is not None else None, "count": count, "sum": total % U64, "ns": ns,
           "iters": 1}
    if st.startswith("error") or ns > 2e9:
        return out
    iters = max(1, int(1e6 / max(ns, 20)))
    for _ in range(4):  # scale the loop count up to the target
        rows = call(argv, env, mode, pf, tf, pos, iters, 1, timeout)
        if isinstance(rows, str):
            return out
        ns = max(1, rows[0][5])
        if ns > target_ns / 3:
            break
        iters = max(iters + 1, min(iters * 50, int(iters * target_ns / ns)))
    iters = max(1, int(iters * target_ns / ns))
    reps = min(reps, max(3, int(1.5e9 / max(target_ns, out["ns"]))))
    rows = call(argv, env, mode, pf, tf, pos, iters, reps, timeout + reps * 4 * target_ns / 1e9)
    if isinstance(rows, str):
        return out
    for row in rows:
        if mode != "compile" and (row[0] != st or row[3] != count * iters or row[4] % U64 != total * iters % U64):
            out["unstable"] = list(row)
    out["ns"] = min(row[5] for row in rows) / iters
    out["iters"] = iters
    return out


def mode_of(job, spans):
    m = "first" if job["mode"] == "compile" else job["mode"]
    return m + "-span" if spans else m


def run_job(job, peer, args):
    if peer == "project" and "HAZARD" in job["note"] and not args.hazard:
        return {"status": "skipped"}
    if peer == "project":
        pattern, argv, env, spans = job["tree"], args.project.split(), {}, False
    else:
        d, argv, env, spans = PEERS[peer]
        pattern = job["patterns"][d]
    if pattern is None:
        return {"status": "lacks"}
    pf = pat_file(pattern, job["name"] + "-" + peer)
    tf = text_file(job["text"]["gen"], job["text"]["n"])
    r = {"search": measure(argv, env, mode_of(job, spans), pf, tf, job["pos"], args.timeout, args.target * 1e6, args.reps)}
    if not spans and not r["search"]["status"].startswith("no-compile"):
        r["compile"] = measure(argv, env, "compile", pf, tf, 0, args.timeout, args.target * 1e6, args.reps)
    exp = job.get("expected")
    s = r["search"]
    if exp and s["status"] in ("match", "none"):
        got = [s["status"], s.get("first"), s.get("count"), s.get("sum")]
        r["agrees"] = got == [exp["status"], exp["first"], exp["count"], exp["sum"]]
    return r


def fmt(ns):
    if ns is None:
        return "-"
    for unit, f in (("ns", 1), ("us", 1e3), ("ms", 1e6), ("s", 1e9)):
        if ns < 1000 * f or unit == "s":
            v = ns / f
            return ("%.3g" % v if v < 100 else "%.0f" % v) + unit


def cell(r, key):
    if r is None or r.get("status") in ("lacks", "skipped"):
        return r["status"] if r else "-"
    m = r.get(key)
    if m is None:
        return "-"
    st = m["status"]
    if st in ("match", "none", "compiled"):
        t = fmt(m["ns"])
        if r.get("agrees") is False and key == "search":
            t += "(!)"
        return t
    if st.startswith("error:"):
        return "%s@%s" % (st[6:], fmt(m.get("ns")))
    if st.startswith("no-compile"):
        return "refuses"
    return st.split(":")[0]


def table(data, key, peers=None):
    peers = peers or data["peers"]
    out = ["| job | " + " | ".join(peers) + " |", "|---|" + "---:|" * len(peers)]
    for name, row in data["rows"].items():
        out.append("| %s | " % name + " | ".join(cell(row.get(p), key) for p in peers) + " |")
    return "\n".join(out)


def ratios(data, base, key):
    """Geometric mean by group of time / time of `base`, over the jobs that both answered; the count in brackets."""
    import math
    # of the compile jobs only the compile counts; group (c) spans nanoseconds to time-outs, so it has no mean
    groups = {j["name"]: j["group"] for j in json.load(open(HERE + "/jobs.json"))["jobs"]
              if not (key == "search" and j["mode"] == "compile")}

    def ns(r):
        m = (r or {}).get(key)
        return m["ns"] if m and m["status"] in ("match", "none", "compiled") and m.get("ns") else None
    peers = [p for p in data["peers"] if p != base]
    out = ["| %s / %s | " % (key, base) + " | ".join(peers) + " |", "|---|" + "---:|" * len(peers)]
    for g in ("abd" if key == "search" else "abcd*"):
        cells = []
        for p in peers:
            logs = []
            for name, row in data["rows"].items():
                if name not in groups or g not in ("*", groups[name]):
                    continue
                a, b = ns(row.get(p)), ns(row.get(base))
                if a and b:
                    logs.append(math.log(a / b))
            cells.append("%.2f (%d)" % (math.exp(sum(logs) / len(logs)), len(logs)) if logs else "-")
        out.append("| %s | " % ("all" if g == "*" else "(%s)" % g) + " | ".join(cells) + " |")
    return "\n".join(out)


def machine():
    cpu = ""
    for line in open("/proc/cpuinfo"):
        if line.startswith("model name"):
            cpu = line.split(":")[1].strip()
            break
    return {"cpu": cpu, "cores": os.cpu_count(), "kernel": platform.release(), "python": platform.python_version(),
            "load": os.getloadavg(), "time": time.strftime("%Y-%m-%d %H:%M:%S")}


def verify(jobs, args):
    """Each job once on each peer: the answer that at least two independent engines give becomes `expected`."""
    for job in jobs:
        votes = {}
        lacks = {}
        for peer, (d, argv, env, spans) in PEERS.items():
            p = job["patterns"][d]
            if p is None:
                continue
            pf = pat_file(p, job["name"] + "-" + peer)
            tf = text_file(job["text"]["gen"], job["text"]["n"])
            rows = call(argv, env, mode_of(job, spans), pf, tf, job["pos"], 1, 1, args.timeout)
            if isinstance(rows, str):
                if rows.startswith("no-compile"):
                    lacks[d] = rows[12:]
                continue
            st, s, e, count, total, _ = rows[0]
            if st in ("match", "none"):
                votes.setdefault((st, s, e, count, total % U64), []).append(peer)
        for d in lacks:
            job["patterns"][d] = None
        job.pop("lacks", None)
        job.pop("disagree", None)
        if lacks:
            job["lacks"] = lacks
        best = sorted(votes.items(), key=lambda kv: -len({FAMILY[p] for p in kv[1]}))
        if best:
            (st, s, e, count, total), who = best[0]
            job["expected"] = {"status": st, "first": None if s is None else [s, e], "count": count, "sum": total}
            job["verified_by"] = who
            if len(best) > 1:
                job["disagree"] = {" ".join(w): list(v) for v, w in best[1:]}
            fams = len({FAMILY[p] for p in who})
            print("%-18s %-6s %-16s n=%d by %d: %s%s%s" % (
                job["name"], st, job["expected"]["first"], count, fams, " ".join(who),
                "  DISAGREE " + str(job["disagree"]) if "disagree" in job else "",
                "  LACKS " + str(lacks) if lacks else ""), flush=True)
        else:
            job["expected"] = None
            job["verified_by"] = []
            print("%-18s no peer answered %s" % (job["name"], lacks), flush=True)


def main():
    global CPU
    ap = argparse.ArgumentParser()
    for o, dflt in (("--jobs", ""), ("--peers", ""), ("--project", ""), ("--out", B + "/results/bench.json"),
                    ("--table", "")):
        ap.add_argument(o, default=dflt)
    ap.add_argument("--timeout", type=float, default=10)
    ap.add_argument("--target", type=float, default=8)
    ap.add_argument("--reps", type=int, default=12)
    ap.add_argument("--cpu", type=int)
    ap.add_argument("--verify", action="store_true")
    ap.add_argument("--merge", action="store_true", help="update the rows and peers of --out, keep its others")
    ap.add_argument("--hazard", action="store_true", help="give the project the jobs marked HAZARD too")
    ap.add_argument("--keep-min", action="store_true", help="with --merge: keep the smaller time of both runs")
    args = ap.parse_args()
    CPU = args.cpu
    if args.table:
        data = json.load(open(args.table))
        print("### search\n" + table(data, "search") + "\n\n### compile\n" + table(data, "compile"))
        for b in ("pcre2", "fancy07"):
            for k in ("search", "compile"):
                print("\n" + ratios(data, b, k))
        return
    path = HERE + "/jobs.json"
    doc = json.load(open(path))
    jobs = [j for j in doc["jobs"] if not args.jobs or j["name"] in args.jobs.split(",")]
    if args.verify:
        verify(jobs, args)
        json.dump(doc, open(path, "w"), indent=1, ensure_ascii=False)
        return
    peers = args.peers.split(",") if args.peers else list(PEERS)
    if args.project and "project" not in peers:
        peers.append("project")
    data = {"machine": machine(), "peers": peers, "rows": {}}
    if args.merge and os.path.exists(args.out):
        old = json.load(open(args.out))
        data["rows"] = old["rows"]
        data["peers"] = old["peers"] + [p for p in peers if p not in old["peers"]]
    for job in jobs:
        row = data["rows"].setdefault(job["name"], {})
        for p in peers:
            new = run_job(job, p, args)
            if args.keep_min and p in row:
                for k in ("search", "compile"):
                    o, n = row[p].get(k), new.get(k)
                    if o and n and o["status"] == n["status"] and (o.get("ns") or 0) < (n.get("ns") or 0):
                        n["ns"] = o["ns"]
            row[p] = new
        print("%-18s %s" % (job["name"], "  ".join("%s=%s/%s" % (p, cell(row[p], "search"), cell(row[p], "compile"))
                                                  for p in peers)), flush=True)
    data["machine"]["load_after"] = os.getloadavg()
    order = [j["name"] for j in doc["jobs"]]
    data["rows"] = {n: data["rows"][n] for n in order if n in data["rows"]}
    os.makedirs(os.path.dirname(args.out), exist_ok=True)
    json.dump(data, open(args.out, "w"), indent=1)
    print("\n### search\n" + table(data, "search") + "\n\n### compile\n" + table(data, "compile"))


if __name__ == "__main__":
    main()
