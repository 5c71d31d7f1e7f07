#!/usr/bin/env python3
"""Counts the places where six lines of code stand twice in crates/*/src, comments and imports left out.

Usage: shared_lines.py [TREE]
"""
import collections
import glob
import re
import sys

root = sys.argv[1] if len(sys.argv) > 1 else '.'
N = 6
seen=collections.defaultdict(list)
for p in sorted(glob.glob(root+'/crates/*/src/*.rt')):
    lines=[(i,re.sub(r'\s+',' ',l.split('//')[0]).strip()) for i,l in enumerate(open(p),1)]
    lines=[(i,l) for i,l in lines if l and not l.startswith(('ghost use','use ','mod ','pub mod'))]
    for k in range(len(lines)-N+1):
        w=tuple(l for _,l in lines[k:k+N])
        if sum(len(x)>3 for x in w)>=4: seen[w].append((p.split('/crates/')[1],lines[k][0],k))
pairs=collections.Counter()
for w,at in seen.items():
    for a in range(len(at)):
        for b in range(a+1,len(at)):
            pairs[(at[a][0],at[b][0])]+=1
tot=sum(pairs.values())
print(len(pairs),'pairs of files share six lines or more;',tot,'windows')
for k,v in pairs.most_common(40): print('  ',v,k)
