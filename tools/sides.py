#!/usr/bin/env python3
"""sides.py OLD NEW: of two checkouts, the public functions whose signature or clauses differ and the definitions in specs/ that do, old and new side by
side, as docs/DESIGN-PASS.md has them. By text: labels of clauses are left out."""
import subprocess,re,sys,glob,os
OLD,NEW=sys.argv[1],sys.argv[2]
def files(root,pat):
    r={}
    for f in sorted(glob.glob(f'{root}/crates/*/{pat}',recursive=True)):
        r[os.path.relpath(f,root)]=open(f).read()
    return r
def squeeze(s): return re.sub(r'\s+',' ',s).strip().replace('( ','(').replace(', )',')')
def items(text):
    """public fns: name -> (signature, [clauses])"""
    out={}
    impl=''
    for m in re.finditer(r"^(impl[^\n{]*)\{|^( *)pub fn (\w+)(<[^>\n]*>)?\(((?:[^()]|\([^()]*\))*)\)((?: -> [^\n{]+)?)((?:\n +(?:requires|ensures)[^\n]*)*)|^\}",text,re.M):
        if m.group(1): impl=re.sub(r"^impl(<[^>]*>)? ?",'',m.group(1)).strip().split('<')[0].strip()+'::'; continue
        if m.group(0)=='}': impl=''; continue
        name=(impl if m.group(2) else '')+m.group(3)
        out[name]=(squeeze(f"({m.group(5)}){m.group(6)}"),[c.strip() for c in m.group(7).strip().split('\n') if c.strip()])
    return out
def mod(f):
    p=f.split('/'); c=p[1]; b=p[-1][:-3]
    return c if b in('lib','main') else f'{c}::{b}'
o=files(OLD,'src/*.rt'); n=files(NEW,'src/*.rt')
O={};N={}
for d,r in((o,O),(n,N)):
    for f,t in d.items():
        for k,v in items(t).items(): r[f'{mod(f)}::{k}']=v
same=lambda a,b:a==b
def strip(c): return re.sub(r'^(requires|ensures)( \w+)?\s*\{ ?',r'\1 { ',c)
print('### Functions\n')
gone=[];new=[]
for k in sorted(set(O)|set(N)):
    if k not in N: gone.append(k); continue
    if k not in O: new.append(k); continue
    (so,co),(sn,cn)=O[k],N[k]
    lo=[strip(c) for c in co]; ln=[strip(c) for c in cn]
    a=[c for c in lo if c not in ln]; b=[c for c in ln if c not in lo]
    if so==sn and not a and not b: continue
    print(f'- `{k}`')
    if so!=sn: print(f'  - `{so}` → `{sn}`')
    for c in a: print(f'  - old: `{c}`')
    for c in b: print(f'  - new: `{c}`')
print('\nGone: '+', '.join(f'`{k}`' for k in gone)+'.\n')
print('New: '+', '.join(f'`{k}`' for k in new)+'.\n')
def defs(root):
    r={}
    for f in sorted(glob.glob(f'{root}/crates/*/specs/**/*.antt',recursive=True)):
        c=f[len(root)+8:].split('/')[0]; t=open(f).read()
        t=re.sub(r'^--[^\n]*\n','',t,flags=re.M)
        for m in re.finditer(r'^((?:unfoldable |abbrev |pub |record |data |family |module |infix\w* )*(?:pub )?(?:record|data|family)? ?)(\S+)((?:(?! :).)*) : [^\n]*(?:\n(?!\n)[^\n]*)*',t,re.M):
            b=m.group(0)
            if b.startswith(('use ','  ')): continue
            r.setdefault((c,m.group(2)),squeeze(b))
    return r
A,B=defs(OLD),defs(NEW)
print('### Definitions\n')
for k in sorted(set(A)|set(B)):
    if A.get(k)==B.get(k): continue
    if k not in B: print(f'- {k[0]} `{k[1]}`: gone'); continue
    if k not in A: print(f'- {k[0]} `{k[1]}`: new'); continue
    print(f'- {k[0]} `{k[1]}`\n  - old: `{A[k]}`\n  - new: `{B[k]}`')
