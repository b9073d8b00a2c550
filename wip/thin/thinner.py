"""Thinner copies: functions that neither the targets nor the proofs name go too. thinner.py ROOT OUT TARGET,TARGET.. CRATE.."""
import os, re, shutil, sys
ROOT, OUT = sys.argv[1], sys.argv[2]
TARGETS = sys.argv[3].split(',')
CR = sys.argv[4:]
src = open(os.path.join(os.path.dirname(os.path.abspath(__file__)), 'thin.py')).read()
head = src[:src.index('def module_of')]
head = head.replace("ROOT, OUT = sys.argv[1], sys.argv[2]", "")
exec(head)
WORDS=re.compile(r'[A-Za-z_][A-Za-z0-9_]*')
def module_of(rel):
    p=rel[:-3].split('/')
    if p[-1] in('lib','mod','main'): p=p[:-1]
    return p
USE=re.compile(r'^(\s*)((?:pub(?:\([a-z ]+\))?\s+)?)use\s+([^;]*);',re.M)
def item_start(s,i):
    a=s.rfind('\n',0,i)+1
    while a>0:
        b=s.rfind('\n',0,a-1)+1
        l=s[b:a].strip()
        if l.startswith('//!'): break
        if l.startswith('//') or l.startswith('#['): a=b
        else: break
    return a
files={}  # crate -> {rel: (text, found)}
for c in CR:
    files[c]={}
    base=f'{ROOT}/crates/{c}/src'
    for at,_,fs in os.walk(base):
        for f in fs:
            if f.endswith('.rt'):
                rel=os.path.relpath(f'{at}/{f}',base)
                s=open(f'{at}/{f}',encoding='utf-8').read()
                _,found=thin(s,None)
                files[c][rel]=(s,found)
def strip_comments(s): return re.sub(r'//[^\n]*','',s)
K=set()
for t in TARGETS:
    for at,_,fs in os.walk(f'{ROOT}/crates/{t}/src'):
        for f in fs:
            if f.endswith('.rt'): K|=set(WORDS.findall(strip_comments(open(f'{at}/{f}',encoding='utf-8').read())))
for c in CR:
    for rel,(s,found) in files[c].items():
        out=[];last=0
        for ctx,name,i,body,e in found:
            out.append(s[last:item_start(s,i)]); last=e
        out.append(s[last:])
        r=''.join(out)
        r=USE.sub('',r); r=re.sub(r'ghost\s+use[^;]*;','',r)
        r=strip_comments(r)
        K|=set(WORDS.findall(r))
# antt
for c in CR+TARGETS:
    for part in('specs','proofs'):
        for at,_,fs in os.walk(f'{ROOT}/crates/{c}/{part}'):
            for f in fs:
                if not f.endswith('.antt') or (c in CR and f in('Answers.antt','Invariants.antt','Proof.antt')): continue
                s=open(f'{at}/{f}',encoding='utf-8').read()
                for m in re.finditer(r'Rattle\.([A-Za-z0-9_.+]+)',s):
                    p=m[1].split('.')
                    if p[-1]=='Met' or (len(p)>1 and 'contracts' in p) or (len(p)>2 and p[1]=='proofs'): K|=set(p)
def prune(tree,gone):
    """tree text of a use: pruned text or ''"""
    tree=tree.strip()
    m=re.match(r'((?:[A-Za-z_0-9]+::)*)\{(.*)\}$',tree,re.S)
    if m:
        parts=[];d=0;cur=''
        for ch in m[2]:
            if ch=='{': d+=1
            if ch=='}': d-=1
            if ch==',' and d==0: parts.append(cur);cur=''
            else: cur+=ch
        parts.append(cur)
        parts=[q for q in (prune(p,gone) for p in parts if p.strip()) if q]
        if not parts: return ''
        return m[1]+'{'+', '.join(parts)+'}'
    leaf=re.split(r'\s+as\s+',tree)[0].split('::')[-1].strip()
    return '' if leaf in gone else tree
allnames=set(n for c in CR for rel,(s,f) in files[c].items() for _,n,*_ in f)
gone={n for n in allnames if n not in K}
kept=0;dropped=0
for c in CR:
    dst=f'{OUT}/crates/{c}'; base=f'{ROOT}/crates/{c}'
    shutil.rmtree(dst,ignore_errors=True)
    for part in('specs','proofs'):
        if os.path.isdir(f'{base}/{part}'): shutil.copytree(f'{base}/{part}',f'{dst}/{part}')
    for rel,(s,found) in files[c].items():
        out=[];last=0
        for ctx,name,i,body,e in found:
            path=[*module_of(rel),*[x for x in ctx if x],name] if False else [*module_of(rel),*ctx,name]
            d=f'{dst}/proofs/'+'/'.join(path)
            for x in('Answers','Invariants','Proof'):
                if os.path.exists(f'{d}/{x}.antt'): os.remove(f'{d}/{x}.antt')
            if name in gone:
                dropped+=1
                out.append(s[last:item_start(s,i)]); last=e
                if os.path.isdir(d) and not os.listdir(d): os.rmdir(d)
            else:
                kept+=1
                out.append(s[last:body]); out.append('{\n    loop {}\n}'); last=e
                os.makedirs(d,exist_ok=True)
                mod='.'.join(path)
                open(f'{d}/Proof.antt','w',encoding='utf-8').write(f'use Rattle.{c}.proofs.{mod}.Statement.{{statement}}\n\npub {name}_spec : {{M : Type 1}} → statement M\n{name}_spec = ?\n')
        out.append(s[last:]); t=''.join(out)
        t=re.sub(r'^\s*#\[cycle\([^)]*\)\]\n','',t,flags=re.M)
        t=re.sub(r'^\s*#\[measure\([^)]*\)\]\n','',t,flags=re.M)
        def one(m):
            if m[0].lstrip().startswith('ghost'): return m[0]
            p=prune(m[3],gone)
            return f'{m[1]}{m[2]}use {p};' if p else m[1]
        t=USE.sub(one,t)
        # empty impl blocks of types stay legal
        os.makedirs(os.path.dirname(f'{dst}/src/{rel}'),exist_ok=True)
        open(f'{dst}/src/{rel}','w',encoding='utf-8').write(t)
    for at,dirs,fs in os.walk(f'{dst}/proofs'):
        for x in list(dirs):
            if x.startswith('+'): shutil.rmtree(f'{at}/{x}'); dirs.remove(x)
print('kept',kept,'dropped',dropped)
