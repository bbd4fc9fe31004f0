"""Lists the theorems that docs/PROMISES.md names (crates/..proofs..:name): their statements then and now."""
import re,sys
from pathlib import Path
old,new=Path(sys.argv[1]),Path(sys.argv[2])
def stmt(root,file,name):
    p=root/'crates'/file
    if not p.exists(): return None
    t=p.read_text()
    m=re.search(r'^( *)(?:(?:abbrev|unfoldable) )?pub (?:(?:data|record) )?'+re.escape(name)+r'(?=[\s:({]|$)',t,re.M)
    if not m: return None
    ind=len(m.group(1)); lines=t[m.start():].split('\n'); out=[lines[0]]
    for l in lines[1:]:
        if l.strip()=='' : break
        if len(l)-len(l.lstrip())<=ind: break
        out.append(l)
    return ' '.join(' '.join(out).split())
text=(old/'docs/PROMISES.md').read_text()+(new/'docs/PROMISES.md').read_text()
cited=sorted(set(re.findall(r'`([\w/]+/proofs/[\w/.]+\.antt):([^`]+)`',text)))
same=0; ch=[]; gone=[]
for f,n in cited:
    a,b=stmt(old,f,n),stmt(new,f,n)
    if a is None: continue
    if b is None: gone.append((f,n,a)); continue
    if a==b: same+=1
    else: ch.append((f,n,a,b))
print(f'theorems that docs/PROMISES.md names: {same+len(ch)+len(gone)}; the same {same}, in other words {len(ch)}, gone {len(gone)}')
for f,n,a in gone: print(f'GONE {f}:{n}\n    - {a}')
for f,n,a,b in ch: print(f'{f}:{n}\n    - {a}\n    + {b}')
