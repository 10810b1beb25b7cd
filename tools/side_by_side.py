#!/usr/bin/env python3
"""Prints what a reader of contracts sees differently since a commit: public functions, public types, what implementations state, and the
definitions of specs/, old (-) and new (+) side by side, as Markdown.

usage: tools/side_by_side.py COMMIT     (at the top of the repository)
"""
import re
import subprocess
import sys

old = sys.argv[1]
# what stands under another name now
MOVED = {
    ('bounds', 'heaviest_cut'): ('bounds', 'RingDemands::heaviest_cut'),
    ('bounds', 'lower_bound'): ('bounds', 'RingDemands::lower_bound'),
    ('bounds', 'least_loaded'): ('bounds', 'RingRoutes::least_loaded'),
    ('bounds', 'link_loads'): ('bounds', 'RingRoutes::link_loads'),
    ('checkrows', 'colliding_pair'): ('checkrows', 'DemandLines::colliding_pair'),
    ('checkrows', 'row_mask'): ('checkrows', 'DemandLines::row_mask'),
    ('handouts', 'hand_out'): ('handouts', 'NodeRows::hand_out'),
    ('planwrite', 'write_file'): ('planwrite', 'PlanFile::write'),
    ('ring', 'link_mask'): ('ring', 'Route::link_mask'),
}
def ls(rev):
    if rev: out=subprocess.run(['git','ls-tree','-r','--name-only',rev],capture_output=True,text=True).stdout
    else: out=subprocess.run(['git','ls-files'],capture_output=True,text=True).stdout
    return [f for f in out.split('\n') if f.startswith('crates/')]
def get(rev,f):
    if rev: return subprocess.run(['git','show',f'{rev}:{f}'],capture_output=True,text=True).stdout
    return open(f).read()
def items(rev):
    fns={};types={};defs={};impls={}
    for f in ls(rev):
        crate=f.split('/')[1]
        if '/src/' in f and f.endswith('.rt') and not f.endswith('tests.rt'):
            t=get(rev,f); lines=t.split('\n'); owner=''
            i=0
            while i<len(lines):
                l=lines[i]
                m=re.match(r'impl(?:<[^>]*>)? (?:([\w:]+(?:<.*?>)?) for )?([\w:]+)(?:<.*?>)? *\{?',l)
                if m and not l.startswith(' '):
                    owner=m.group(2)
                    if m.group(1):
                        # trait impl: ghost members
                        j=i; b=[]
                        while j<len(lines) and lines[j]!='}':
                            if re.match(r'    ghost \w+ = ',lines[j]): b.append(lines[j].strip())
                            j+=1
                        impls[(crate,f'impl {m.group(1)} for {owner}')]=b
                if l=='}': owner=''
                m=re.match(r'( *)pub fn (\w+)',l)
                if m:
                    ind=m.group(1); b=[]; j=i
                    while j<len(lines) and lines[j]!=ind+'{' and lines[j]!=ind+'{}':
                        if lines[j].rstrip().endswith('{') and not re.search(r'requires|ensures',lines[j]): break
                        b.append(lines[j].strip()); j+=1
                    head=' '.join(x for x in b if not re.match(r'requires|ensures',x))
                    cl=[x for x in b if re.match(r'requires|ensures',x)]
                    head=re.sub(r'\(\s+','(',re.sub(r',?\s+\)',')',head))
                    fns[(crate,(owner+'::' if owner and ind else '')+m.group(2))]=[head]+cl
                m=re.match(r'pub (struct|enum|trait) (\w+)',l)
                if m:
                    b=[l]; j=i+1
                    if l.rstrip().endswith('{'):
                        while lines[j]!='}': b.append(lines[j]); j+=1
                        b.append('}')
                    b=[x for x in b if not x.strip().startswith('//')]
                    types[(crate,m.group(2))]=[x for x in b if x.strip()]
                i+=1
        if '/specs/' in f and f.endswith('.antt') and '/declared/' not in f:
            t=get(rev,f)
            for m in re.finditer(r'^((?:abbrev pub|unfoldable pub|pub record) (\S+).*?)(?=^(?:--|abbrev|unfoldable|pub|use|\S+ :)|\Z)',t,re.M|re.S):
                body=re.sub(r'\n\s*--[^\n]*','',m.group(1)).strip()
                defs[(crate,m.group(2))]=body
    return fns,types,defs,impls
o=items(old); n=items(None)
def norm(x): return re.sub(r'\s+',' ',x if isinstance(x,str) else ' '.join(x))
out=[]
def show(title,a,b):
    out.append(f'**{title}**\n'); out.append('```text')
    for l in (a or ['(none)']): out.append('- '+l)
    for l in (b or ['(none)']): out.append('+ '+l)
    out.append('```\n')
kinds=[('Public functions',0),('Public types',1),('What implementations state',3)]
for name,k in kinds:
    out.append(f'### {name}\n')
    keys=sorted((set(o[k])|set(n[k])) - (set(MOVED.values()) if k == 0 else set()))
    for key in keys:
        a=o[k].get(key); b=n[k].get(MOVED.get(key, key) if k == 0 else key)
        if a is not None and b is not None and norm(a)==norm(b): continue
        if k==3 and not (a or b): continue
        show(f'`{key[0]}` {key[1]}',a,b)
out.append('### Definitions and theorems of specs/\n')
for key in sorted(set(o[2])|set(n[2])):
    a=o[2].get(key); b=n[2].get(key)
    if a is not None and b is not None and norm(a)==norm(b): continue
    # moved as it was?
    if b is None:
        same=[c for (c,nm),t in n[2].items() if nm==key[1] and norm(t)==norm(a)]
        if same: out.append(f'`{key[0]}` {key[1]}: moved to `{same[0]}` as it was.\n'); continue
    if a is None:
        same=[c for (c,nm),t in o[2].items() if nm==key[1] and norm(t)==norm(b)]
        if same: continue
    show(f'`{key[0]}` {key[1]}',a.split('\n') if a else None,b.split('\n') if b else None)
print('\n'.join(out))
