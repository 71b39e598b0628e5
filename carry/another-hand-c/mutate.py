#!/usr/bin/env python3
"""Does the fuzz notice? Each line changes one of the C versions at one place; the run must then print a difference.
mutate.py [COUNT]: builds each in mut/, runs COUNT cases (default 20000) of the call, prints how many differences came."""
import subprocess, sys, os, shutil
M = [
 # strip.c: through count_seams
 ("strip.c","count_seams","if (kind < 1 || kind > 5) goto bad;","if (kind < 1 || kind > 6) goto bad;"),
 ("strip.c","count_seams","if (last != 0 && kind == 1) goto bad;",""),
 ("strip.c","count_seams","if (kind < last) goto bad;","if (kind < last && kind != 3) goto bad;"),
 ("strip.c","count_seams","if (kind == 1 && (first & 0x0FFFFFFF) != 0) goto bad;",""),
 ("strip.c","count_seams","if (kind == 3 && (first & 0x0FFF0000) != 0) goto bad;",""),
 ("strip.c","count_seams","if (kind == 4 && (first & 0x0FFF0000) != 0) goto bad;","if (kind == 4 && (first & 0x0FFE0000) != 0) goto bad;"),
 ("strip.c","count_seams","if (kind == 5 && (first & 0x0FFFFFFF) != 0) goto bad;","if (kind == 5 && (first & 0x07FFFFFF) != 0) goto bad;"),
 ("strip.c","count_seams","if (at + 1 != n) { *place = at + 1; goto bad; }","if (at + 1 != n) goto bad;"),
 ("strip.c","count_seams","if (n - at < len) { *place = n; goto bad; }","if (n - at < len) goto bad;"),
 ("strip.c","count_seams","if (p.flags0 >> 16) goto bad;",""),
 ("strip.c","count_seams","if (p.links[i] >> 16) goto bad;",";"),
 ("strip.c","count_seams","if (p.edges[3 * i + 2] >> 24) goto bad;","if (p.edges[3 * i + 2] >> 25) goto bad;"),
 ("strip.c","count_seams","i < 2 * ne; i++) if (p.edges","i < ne; i++) if (p.edges"),
 ("strip.c","count_seams","if (p.flags_unk >> 16) goto bad;",""),
 ("strip.c","count_seams","if (p.area_unk >> 8) goto bad;","if (p.area_unk >> 9) goto bad;"),
 ("strip.c","count_seams","if (at == n) { *place = n; goto bad; }","if (at == n) { *place = n ? n - 1 : 0; goto bad; }"),
 # seams
 ("count_seams.c","count_seams","a / 100 == b / 100","1"),
 ("count_seams.c","count_seams","if (a >= 10000 || b >= 10000)","if (b >= 10000)"),
 ("count_seams.c","count_seams","if (a >= 10000 || b >= 10000)","if (a > 10000 || b > 10000)"),
 ("count_seams.c","count_seams","h < 2 * c.poly[i].ne","h < 2 * c.poly[i].ne && h < 2 * c.poly[i].nv"),
 # short: through spot_for_position
 ("short.c","spot_for_position",">= 0.5f","> 0.5f"),
 ("short.c","spot_for_position","if (magnitude < 0x1p-23f)","if (magnitude <= 0x1p-23f)"),
 ("short.c","spot_for_position","if (magnitude < 0x1p-23f)","if (magnitude < 0x1p-24f)"),
 ("short.c","spot_for_position","float p = t * 65535.0f;","double p = (double)t * 65535.0;"),
 ("short.c","spot_for_position","float difference = a - lo;\n    float t = difference / extent;","double difference = (double)a - lo;\n    float t = (float)(difference / extent);"),
 ("short.c","spot_for_position","float t = difference / extent;","float t = difference * (1.0f / extent);"),
 ("short.c","serialize","if (t != t) { s.outside = 1; return s; }","if (t != t) return s;"),
 ("short.c","serialize","if (t < 0.0f) { s.outside = 1; t = 0.0f; }","if (t < 0.0f || (t == 0 && signbit(t))) { s.outside = 1; t = 0.0f; }"),
 ("short.c","serialize","if (t > 1.0f) { s.outside = 1; t = 1.0f; }","if (t > 1.0f) { t = 1.0f; }"),
 ("short.c","serialize","    if (magnitude < 0x1p-23f)\n        return s;","    if (magnitude < 0x1p-23f) { s.outside = a != a; return s; }"),
 ("spot_for_position.c","spot_for_position","if (!finite) return","if (0) return"),
 # box
 ("strip.c","pick_poly","|| !g_finite(c->max[i])",""),
 ("strip.c","export_obj","|| !g_finite(c->size[i])",""),
 # pick
 ("pick_poly.c","pick_poly","left < right : left > right","left <= right : left >= right"),
 ("pick_poly.c","pick_poly","left < right : left > right","left < right : left < right"),
 ("pick_poly.c","pick_poly","int one = y1 <= y, two = y2 <= y;","int one = y1 < y, two = y2 < y;"),
 ("pick_poly.c","pick_poly","k + 1 == p->nv ? 0 : k + 1","k + 1 == p->nv ? k : k + 1"),
 ("pick_poly.c","pick_poly","crossings % 2 == 1","crossings > 0"),
 ("pick_poly.c","pick_poly","for (size_t i = 0; i < c.np; i++) {","for (size_t i = c.np; i-- > 0;) {"),
 # obj
 ("export_obj.c","export_obj","c.poly[i].nv < 3","c.poly[i].nv < 2"),
 ("export_obj.c","export_obj","number = 1;","number = 0;"),
 ("export_obj.c","export_obj","text_len < at","text_len <= at"),
 ("export_obj.c","export_obj","return g_refuse(answer, 41, i); }","return g_refuse(answer, 41, 0); }"),
 # reachable
 ("reachable.c","reachable","if (h / 2 >= q->nv) continue;",""),
 ("reachable.c","reachable","half[1] & 16383","half[1]"),
 ("reachable.c","reachable","if (to >= 16383 || to >= c.np) continue;","if (to >= c.np) continue;"),
 ("reachable.c","reachable","o->area_from != c.area || ",""),
 ("reachable.c","reachable","o->area_from != c.area || o->area_to != c.area)","o->area_from != (c.area & 65535) || o->area_to != (c.area & 65535))"),
 ("reachable.c","reachable","if (o->poly_to >= c.np) continue;","if (o->poly_to >= c.np || o->poly_to == 16383) continue;"),
 ("reachable.c","reachable","if (marks_len < c.np)","if (marks_len <= c.np)"),
 ("reachable.c","reachable","for (uint32_t h = 0; h < 2 * q->ne; h++) {","for (uint32_t h = 0; h < 2 * q->ne; h += 2) {"),
 ("reachable.c","reachable","if (start >= c.np)","if ((uint32_t)start >= c.np)"),
 # grid
 ("cell_for_position.c","cell_for_position","float d = x - -6000.0f;\n    float q = d / 150.0f;","double d = (double)x + 6000.0;\n    float q = (float)(d / 150.0);"),
 ("cell_for_position.c","cell_for_position","float q = d / 150.0f;","float q = d * (1.0f / 150.0f);"),
 ("cell_for_position.c","cell_for_position","if (f > 99.0f) f = 99.0f;","if (f > 100.0f) f = 100.0f;"),
 ("cell_bounds.c","cell_bounds","cx > 99 || cy > 99","cx > 99 || cy > 100"),
 # parse
 ("parse.c","parse","if ((va & 0x60000000) == 0x60000000)","if ((va & 0x70000000) == 0x60000000)"),
 ("parse.c","parse","off > n || len > n - off","off >= n || len > n - off"),
 ("parse.c","parse","(va & 0x50000000) == 0x50000000","(va >> 28) == 5"),
 ("parse.c","parse","uint64_t item_count = u32(h, 8), sum = 0,","uint64_t item_count = u32(h, 8); uint32_t sum = 0; uint64_t"),
 ("parse.c","parse","if (count == 0) continue;\n            if (!good","if (!good"),
 ("parse.c","parse","if (part_count) {\n        if (!good","{\n        if (!good"),
 ("parse.c","parse","visited == 4096","visited == 4095"),
 ("parse.c","parse","visited == 4096","visited == 4097"),
 ("parse.c","parse","u64(sec, 0x34 + 8 * i)","u64(sec, 0x34 + 8 * (3 - i))"),
 ("parse.c","parse","if (first + nl > link_count) nl = 0;","if (first + nl > link_count) nl = first > link_count ? 0 : link_count - first;"),
 ("parse.c","parse","start + count > ls[1].items || start + count > ls[2].items","start + count > ls[1].items"),
 ("parse.c","parse","start + count > ls[1].items || start + count > ls[2].items","start + count >= ls[1].items || start + count > ls[2].items"),
 ("parse.c","parse","index >= ls[0].items","index > ls[0].items"),
 ("parse.c","parse","index < areas ?","1 ?"),
 ("parse.c","parse","index < areas ?","index <= areas ?"),
 ("parse.c","parse","float t = q / 65535.0f;\n        float d = t * g_float(size[a]);","float d = q * g_float(size[a]) / 65535.0f;"),
 ("parse.c","parse","float t = q / 65535.0f;","float t = q * (1.0f / 65535.0f);"),
 ("parse.c","parse","u16(b, 16) + 65536u * u16(b, 20)","u16(b, 18) + 65536u * u16(b, 20)"),
 ("parse.c","parse","b[6] | (uint32_t)b[7] << 8","b[7] | (uint32_t)b[6] << 8"),
 ("parse.c","parse","uint64_t portals = u32(h, 0x14C);\n    if (portals) {","uint64_t portals = u32(h, 0x14C);\n    {"),
 ("parse.c","parse","!g_finite(min[a]) || !g_finite(max[a]) ||","!g_finite(min[a]) ||"),
 ("parse.c","parse","strip_len < s.n","strip_len <= s.n"),
 ("parse.c","parse","u32(p, 0x2C) >> 15","u32(p, 0x2C) >> 15 & 0xFFFF"),
 ("parse.c","parse","if (data != 0) {","{"),
 ("parse.c","parse","if (count != 0) {\n                if","{\n                if"),
 ("parse.c","parse","28 * portals, &b","28 * (uint32_t)portals, &b"),
 ("parse.c","parse","good(r, u64(h, 0x10), 16 * part_count","good(r, u64(h, 0x10), (uint32_t)(16 * part_count)"),
 # serialize
 ("serialize.c","serialize","at % 16384 + size > 16384","at % 16384 + size >= 16384"),
 ("serialize.c","serialize","own.q[2 * a] = (int16_t)quarter_min(min[a]);","own.q[2 * a] = (int16_t)saturate(truncf(min[a] * 4.0f));"),
 ("serialize.c","serialize","quarter_max(float x) { float p = x * 4.0f; return saturate(ceilf(p)); }","quarter_max(float x) { float p = x * 4.0f; return saturate(floorf(p)); }"),
 ("serialize.c","serialize","if (f != f) return 0;","if (f != f) return -1;"),
 ("serialize.c","serialize","if (f >= 32767.0f) return 32767;","if (f >= 32767.0f) return 32766;"),
 ("serialize.c","serialize","if (x < lo[a]) lo[a] = x;","if (!(x >= lo[a])) lo[a] = x;"),
 ("serialize.c","serialize","float sum = min[a] + max[a]; cen[a] = sum * 0.5f;","cen[a] = min[a] * 0.5f + max[a] * 0.5f;"),
 ("serialize.c","serialize","b[1] >= own.q[0]","b[1] > own.q[0]"),
 ("serialize.c","serialize","b[2] <= own.q[3]","b[2] < own.q[3]"),
 ("serialize.c","serialize","x <= max[0] &&","x < max[0] &&"),
 ("serialize.c","serialize","if (ni > 8192)","if (ni > 8193)"),
 ("serialize.c","serialize","if (nt > 2048)","if (nt > 2049)"),
 ("serialize.c","serialize","if (c.no > 585)","if (c.no > 586)"),
 ("serialize.c","serialize","if (nl > 8192)","if (nl >= 8192)"),
 ("serialize.c","serialize","if (c.np > 16383)","if (c.np > 16384)"),
 ("serialize.c","serialize","p->nv > 2047","p->nv > 2048"),
 ("serialize.c","serialize","start > 65535","start >= 65535"),
 ("serialize.c","serialize","nv == 65536","nv == 65535"),
 ("serialize.c","serialize","nv == 65536","nv == 65537"),
 ("serialize.c","serialize","na == 32","na == 31"),
 ("serialize.c","serialize","p->nl > 7","p->nl > 8"),
 ("serialize.c","serialize","work_len / 4 < n","work_len < 4 * n - 1"),
 ("serialize.c","serialize","if (k < p->ne)","if (k + 1 < p->ne)"),
 ("serialize.c","serialize","c.area - 100, c.area - 1, c.area + 1","c.area - 1, c.area - 100, c.area + 1"),
 ("serialize.c","serialize","(uint32_t)(i / 341) * 16","(uint32_t)(i / 342) * 16"),
 ("serialize.c","serialize","(poly & 16383) << 5","(poly > 16383 ? 16383 : poly) << 5"),
 ("serialize.c","serialize","(p->area_from & 16383)","(p->area_from & 8191)"),
 ("serialize.c","serialize","c.content & 4 ? 0 : 2","c.content == 4 ? 0 : 2"),
 ("serialize.c","serialize","w->total += 32 +","w->total += 28 +"),
 ("serialize.c","serialize","col == 3 ? 0x7FC00000 : row == col","row == 3 && col == 3 ? 0x3F800000 : col == 3 ? 0x7FC00000 : row == col"),
 ("serialize.c","serialize","pages_len < o->end","pages_len <= o->end"),
 ("serialize.c","serialize","parts ? address(offsets) : 0","address(offsets)"),
 ("serialize.c","serialize","p16(&w.w, at + 16, p->poly_from); p16(&w.w, at + 18, p->poly_from);","p16(&w.w, at + 16, p->poly_from); p16(&w.w, at + 18, p->poly_to);"),
 ("serialize.c","serialize","for (size_t i = 0; i < c.nt; i++) { uint16_t q[3]; shorts(&w, c.point[i].pos, q); }","for (size_t i = 0; i < c.nt; i++) if (w.used[i]) { uint16_t q[3]; shorts(&w, c.point[i].pos, q); }"),
 ("serialize.c","serialize","if (ni > 8192) { w->refusal = 17; w->place = leaf;","if (ni > 8192) { w->refusal = 17; w->place = 0;"),
 ("serialize.c","serialize","if (nt > 2048) { w->refusal = 18; w->place = leaf;","if (nt > 2048) { w->refusal = 18; w->place = 0;"),
 ("serialize.c","serialize","p32(&w->w, data, (uint32_t)w->stored);","p32(&w->w, data, 0);"),
]
count = sys.argv[1] if len(sys.argv) > 1 else "20000"
os.makedirs("mut", exist_ok=True)
flags = "-std=gnu11 -O1 -msse2 -mfpmath=sse -ffp-contract=off -w".split()
lib = os.environ.get("LIB", "/work/m7/target/staticlib/libynv.a")
missed = 0
only = [int(x) for x in sys.argv[2:]]
for i, (f, call, old, new) in enumerate(M):
    if only and i not in only: continue
    s = open(f).read()
    if s.count(old) < 1:
        print(i, f, "NOT FOUND:", old); missed += 1; continue
    open("mut/" + f, "w").write(s.replace(old, new, 1).replace('#include "g.h"', '#include "../g.h"'))
    o = "mut/m.o"
    r = subprocess.run(["nice", "-n", "10", "gcc", *flags, "-c", "mut/" + f, "-o", o], capture_output=True, text=True)
    if r.returncode:
        print(i, f, "DOES NOT COMPILE", old, r.stderr[:200]); missed += 1; continue
    objs = [x for x in "parse serialize count_seams pick_poly spot_for_position export_obj reachable cell_for_position cell_bounds strip short".split() if x + ".c" != f]
    subprocess.run(["gcc", "-o", "mut/fuzz", "fuzz.o", o, *[x + ".o" for x in objs], lib, "-lm"], check=True)
    r = subprocess.run(["nice", "-n", "10", "timeout", "100", "mut/fuzz", call, "9", "0", count, "noshrink"], capture_output=True, text=True)
    n = sum(1 for l in r.stdout.splitlines() if l.startswith("DIFFERENCE"))
    if n == 0 and r.returncode == 0: missed += 1
    first = next((l for l in r.stdout.splitlines() if l.startswith("DIFFERENCE")), "")
    print("%3d %s %-22s %6d  %s -> %s | %s" % (i, "missed " if n == 0 and r.returncode == 0 else "noticed", f, n, old.replace("\n", " ")[:60], new.replace("\n", " ")[:60], first[11:140] if r.returncode in (0, 1) else "rc %d" % r.returncode), flush=True)
print("missed:", missed, "of", len(M))
